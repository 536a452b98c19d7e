//! Makes the events of a record on standard input one by one, and prints what `rio9 replay` prints of it.
//!
//!     steps replay --size 640x480 --chan x8r8g8b8 --screen < RECORD
//!
//! After each event each cell with a pixel that changed has to be marked. A second display loads the whole record, and a third
//! begins and ends sessions, sends and takes by calls, if no event tells that memory ran out: all three have to show the same, and the
//! sessions to take the replies. The status is 1 if something differs, or if the record is none.

use rio9::{Cell, Display, Error, Rectangle, Session};
use std::collections::BTreeMap;
use std::error::Error as AnyError;
use std::io::{stdin, stdout, Read, Write};

const CELL: usize = 32;

type Replies = BTreeMap<u32, Vec<u8>>;

struct Words {
    width: u32,
    height: u32,
    channels: String,
    bits: usize,
}

impl Words {
    fn of(words: &[String]) -> Result<Words, Box<dyn AnyError>> {
        let told = |option: &str| {
            let at = words.iter().position(|word| word == option)?;
            words.get(at + 1)
        };
        let size = told("--size").map_or("640x480", String::as_str);
        let (width, height) = size.split_once('x').ok_or("--size wants WxH")?;
        let channels = told("--chan").map_or("x8r8g8b8", String::as_str).to_string();
        let bits = rio9::draw::Channels::from_text(&channels).ok_or("--chan wants channels")?.depth() as usize;
        Ok(Words { width: width.parse()?, height: height.parse()?, channels, bits })
    }

    fn open(&self) -> Result<Display, Error> {
        Display::open(self.width, self.height, &self.channels)
    }
}

/// What a display shows: its size, and its rows.
#[derive(PartialEq, Eq)]
struct Shown {
    size: (u32, u32),
    rows: Vec<u8>,
}

impl Shown {
    fn of(display: &mut Display) -> Result<Shown, Error> {
        let size = display.size()?;
        let whole = Rectangle::new(0, 0, size.0 as i32, size.1 as i32);
        Ok(Shown { size, rows: display.rows(whole)?.to_vec() })
    }

    /// The cells with a byte that is another one than before. In all channels a cell's edge is a whole byte.
    fn changed(&self, before: &Shown, bits: usize) -> Vec<Cell> {
        let across = (self.size.0 as usize * bits).div_ceil(8).max(1);
        let place =
            |at: usize| Cell { column: (at % across * 8 / bits / CELL) as u32, row: (at / across / CELL) as u32 };
        let is_same = |at: usize| self.size == before.size && self.rows[at] == before.rows[at];
        let mut cells: Vec<Cell> = (0..self.rows.len()).filter(|at| !is_same(*at)).map(place).collect();
        cells.dedup();
        cells
    }
}

/// The lines of the replies to events one by one, and the display.
fn by_events(words: &Words, lines: &[&[u8]]) -> Result<(Vec<u8>, Display), Box<dyn AnyError>> {
    let mut display = words.open()?;
    let mut replies = Vec::new();
    let mut before = Shown::of(&mut display)?;
    for (number, line) in lines.iter().enumerate() {
        display.clear_marks()?;
        replies.extend(display.event(line)?);
        let after = Shown::of(&mut display)?;
        let marks = display.marks()?;
        if after != before && after.changed(&before, words.bits).iter().any(|cell| !marks.contains(cell)) {
            return Err(format!("event {} changed a cell that is not marked", number + 1).into());
        }
        before = after;
    }
    Ok((replies, display))
}

/// What each session takes, and the display, by calls.
fn by_calls(words: &Words, lines: &[&[u8]]) -> Result<(Replies, Display), Box<dyn AnyError>> {
    let mut display = words.open()?;
    let mut taken = Replies::new();
    for line in lines {
        let text = std::str::from_utf8(line)?;
        let mut parts = text.split(' ');
        let kind = parts.next();
        let session = Session(parts.next().ok_or("a session is wanted")?.parse()?);
        match kind {
            Some("B") if display.begin()? == session => {}
            Some("M") => match display.message(session, &digits(parts.next().unwrap_or(""))?) {
                Ok(_) | Err(Error::TagInUse(_)) => {}
                Err(error) => return Err(error.into()),
            },
            Some("T") => taken.entry(session.0).or_default().extend(display.take(session)?.bytes()),
            Some("E") => display.end(session)?,
            _ => return Err(format!("no such event: {text}").into()),
        }
    }
    Ok((taken, display))
}

fn digits(text: &str) -> Result<Vec<u8>, std::num::ParseIntError> {
    (0..text.len() / 2).map(|at| u8::from_str_radix(&text[2 * at..2 * at + 2], 16)).collect()
}

/// The replies of each session, by lines.
fn replies_of(lines: &[u8]) -> Result<Replies, Box<dyn AnyError>> {
    let mut found = Replies::new();
    for line in std::str::from_utf8(lines)?.lines() {
        let words: Vec<&str> = line.split(' ').collect();
        found.entry(words[1].parse()?).or_default().extend(digits(words[2])?);
    }
    Ok(found)
}

fn is_same(what: &str, is_so: bool) -> Result<(), Box<dyn AnyError>> {
    if is_so {
        Ok(())
    } else {
        Err(format!("{what} differ").into())
    }
}

fn main() -> Result<(), Box<dyn AnyError>> {
    let words = Words::of(&std::env::args().collect::<Vec<_>>())?;
    let mut record = Vec::new();
    stdin().read_to_end(&mut record)?;
    let mut loaded = words.open()?;
    let count = loaded.load(&record)?;
    let lines: Vec<&[u8]> = record.split(|byte| *byte == b'\n').skip(1).take(count as usize).collect();
    let (replies, mut display) = by_events(&words, &lines)?;
    let screen = display.screen()?;
    is_same("displays by load", loaded.screen()? == screen)?;
    is_same("records", display.record()? == record && loaded.record()? == record)?;
    if !lines.iter().any(|line| *line == b"X" || line.contains(&b'!')) {
        let (mut taken, mut called) = by_calls(&words, &lines)?;
        is_same("displays by calls", called.screen()? == screen)?;
        for number in 1..=lines.iter().filter(|line| line.starts_with(b"B")).count() as u32 {
            taken.entry(number).or_default().extend(called.take(Session(number))?.bytes());
        }
        taken.retain(|_, bytes| !bytes.is_empty());
        is_same("replies by calls", taken == replies_of(&replies)?)?;
    }
    let mut out = stdout().lock();
    out.write_all(&replies)?;
    writeln!(out, "S {}", screen.len())?;
    out.write_all(&screen)?;
    Ok(())
}
