//! The display, and what is asked of it.

use crate::Error;
use rio9_sys::{rio9_request, rio9_result};
use std::ptr::{null_mut, NonNull};

/// Bytes that an answer has room for at once: more than all replies to a message have.
const ROOM: usize = 1 << 17;

/// A session of a display, by its number.
#[derive(Clone, Copy, Debug, PartialEq, Eq, Hash, PartialOrd, Ord)]
pub struct Session(pub u32);

/// A point, in pixels.
#[derive(Clone, Copy, Debug, Default, PartialEq, Eq)]
pub struct Point {
    pub x: i32,
    pub y: i32,
}

/// The pixels from `min` on to before `max`.
#[derive(Clone, Copy, Debug, Default, PartialEq, Eq)]
pub struct Rectangle {
    pub min: Point,
    pub max: Point,
}

impl Rectangle {
    /// The rectangle of these edges.
    pub fn new(left: i32, upper: i32, right: i32, lower: i32) -> Rectangle {
        Rectangle { min: Point { x: left, y: upper }, max: Point { x: right, y: lower } }
    }
}

/// What a session took.
#[derive(Clone, Copy, Debug, PartialEq, Eq)]
pub enum Taken<'a> {
    /// Replies, one behind the other.
    Replies(&'a [u8]),
    /// Nothing waits.
    Nothing,
    /// Nothing waits, and nothing more will come.
    Over,
}

impl<'a> Taken<'a> {
    /// The bytes of the replies: none if nothing waits.
    pub fn bytes(self) -> &'a [u8] {
        match self {
            Taken::Replies(bytes) => bytes,
            Taken::Nothing | Taken::Over => &[],
        }
    }
}

/// What a message did, beside its reply.
#[derive(Clone, Copy, Debug, Default, PartialEq, Eq)]
pub struct Effect {
    /// The most bytes that a message of the session may have.
    pub msize: u32,
    /// Other sessions that got replies: the bit of a session's number modulo 64 is set.
    pub rings: u64,
    /// How many pixels the message wrote.
    pub pixels: u64,
}

/// A cell of 32 by 32 pixels, by its place among them.
#[derive(Clone, Copy, Debug, PartialEq, Eq, PartialOrd, Ord)]
pub struct Cell {
    pub column: u32,
    pub row: u32,
}

/// How many entries a history has, and how many of them are stored.
#[derive(Clone, Copy, Debug, PartialEq, Eq)]
pub struct Entries {
    pub all: u64,
    pub stored: u64,
}

/// A display, and all that its sessions made of it. It can be handed to another thread, and is used by one at a time.
#[derive(Debug)]
pub struct Display {
    at: NonNull<rio9_sys::rio9>,
    answer: Vec<u8>,
}

// SAFETY: the library keeps nothing outside of a display, and asks no more than that one thread uses it at a time.
unsafe impl Send for Display {}

impl Display {
    /// Opens a display of these sides, 1 to 2,048 pixels, and channels, such as `x8r8g8b8` (image(6)).
    pub fn open(width: u32, height: u32, channels: &str) -> Result<Display, Error> {
        let mut at = null_mut();
        // SAFETY: the name has as many bytes as are told, and `at` is written alone.
        let status = unsafe { rio9_sys::rio9_open(width, height, channels.as_ptr(), channels.len(), &mut at) };
        match NonNull::new(at) {
            Some(at) if status == rio9_sys::RIO9_DONE => Ok(Display { at, answer: vec![0; ROOM] }),
            _ => Err(Error::of(status, 0)),
        }
    }

    // Asks the library, and puts the front of the answer into the output.
    fn ask(&mut self, request: &rio9_request, input: &[u8], output: &mut [u8]) -> Result<rio9_result, Error> {
        // SAFETY: the display is open and borrowed by this call alone; the slices do not overlap, and a slice's pointer
        // is not null.
        let result = unsafe {
            rio9_sys::rio9_call(
                self.at.as_ptr(),
                request,
                input.as_ptr(),
                input.len(),
                output.as_mut_ptr(),
                output.len(),
            )
        };
        match result.status {
            rio9_sys::RIO9_DONE | rio9_sys::RIO9_NOTHING | rio9_sys::RIO9_OVER | rio9_sys::RIO9_SHORT => Ok(result),
            status => Err(Error::of(status, result.number)),
        }
    }

    // Asks, and gives the answer's bytes as well.
    fn call(&mut self, operation: u32, numbers: [u32; 4], input: &[u8]) -> Result<(rio9_result, &[u8]), Error> {
        let [a, b, c, d] = numbers;
        let mut answer = std::mem::take(&mut self.answer);
        if answer.len() < ROOM {
            answer.resize(ROOM, 0);
        }
        let asked = self.ask(&rio9_request { operation, a, b, c, d }, input, &mut answer);
        self.answer = answer;
        let result = asked?;
        let length = result.length as usize;
        if length > self.answer.len() {
            let mut whole = vec![0; length];
            self.ask(&rio9_request::default(), &[], &mut whole)?; // RIO9_AGAIN, from the place 0
            self.answer = whole;
        }
        Ok((result, &self.answer[..length]))
    }

    fn numbers_of(&mut self, operation: u32, a: u32) -> Result<rio9_result, Error> {
        Ok(self.call(operation, [a, 0, 0, 0], &[])?.0)
    }

    /// A session begins.
    pub fn begin(&mut self) -> Result<Session, Error> {
        Ok(Session(self.numbers_of(rio9_sys::RIO9_BEGIN, 0)?.number as u32))
    }

    /// A session ends: its fids, connections and windows go.
    pub fn end(&mut self, session: Session) -> Result<(), Error> {
        self.numbers_of(rio9_sys::RIO9_END, session.0).map(|_| ())
    }

    /// Takes one whole 9P message of a session. Its reply waits for `take`.
    pub fn message(&mut self, session: Session, message: &[u8]) -> Result<Effect, Error> {
        let (result, _) = self.call(rio9_sys::RIO9_MESSAGE, [session.0, 0, 0, 0], message)?;
        Ok(effect_of(result))
    }

    /// Hands out the replies that wait for a session.
    pub fn take(&mut self, session: Session) -> Result<Taken<'_>, Error> {
        let (result, bytes) = self.call(rio9_sys::RIO9_TAKE, [session.0, 0, 0, 0], &[])?;
        Ok(taken_of(result, bytes))
    }

    /// Takes one whole 9P message of a session, and hands out what waits for it then: nothing if the message waits.
    pub fn exchange(&mut self, session: Session, message: &[u8]) -> Result<(Effect, Taken<'_>), Error> {
        let (result, bytes) = self.call(rio9_sys::RIO9_EXCHANGE, [session.0, 0, 0, 0], message)?;
        Ok((effect_of(result), taken_of(result, bytes)))
    }

    /// How many bytes of replies wait for a session.
    pub fn waiting(&mut self, session: Session) -> Result<u64, Error> {
        Ok(self.numbers_of(rio9_sys::RIO9_WAITING, session.0)?.number)
    }

    /// The display as an image(6) file.
    pub fn screen(&mut self) -> Result<Vec<u8>, Error> {
        Ok(self.call(rio9_sys::RIO9_SCREEN, [0; 4], &[])?.1.to_vec())
    }

    /// The rows of a rectangle, in the layout of image(6): for `x8r8g8b8` four bytes a pixel, blue, green, red and 0. They
    /// stay until the next call.
    pub fn rows(&mut self, r: Rectangle) -> Result<&[u8], Error> {
        let sides = sides_of(r)?;
        Ok(self.call(rio9_sys::RIO9_ROWS, sides, &[])?.1)
    }

    /// Puts the rows of a rectangle into the front of a buffer, and gives how many bytes that were.
    pub fn rows_into(&mut self, r: Rectangle, buffer: &mut [u8]) -> Result<usize, Error> {
        let [a, b, c, d] = sides_of(r)?;
        let length = self.ask(&rio9_request { operation: rio9_sys::RIO9_ROWS, a, b, c, d }, &[], buffer)?.length;
        if length > buffer.len() as u64 {
            return Err(Error::TooShort(length));
        }
        Ok(length as usize)
    }

    /// The cells of which a pixel was written since the marks were cleared.
    pub fn marks(&mut self) -> Result<Vec<Cell>, Error> {
        let (result, cells) = self.call(rio9_sys::RIO9_MARKS, [0; 4], &[])?;
        let across = (result.number as usize).max(1);
        let place = |at: usize| Cell { column: (at % across) as u32, row: (at / across) as u32 };
        Ok(cells.iter().enumerate().filter(|(_, mark)| **mark != 0).map(|(at, _)| place(at)).collect())
    }

    /// Clears the marks.
    pub fn clear_marks(&mut self) -> Result<(), Error> {
        self.numbers_of(rio9_sys::RIO9_CLEAR_MARKS, 0).map(|_| ())
    }

    /// Where the mouse was last. None before its first event.
    pub fn pointer(&mut self) -> Result<Option<(i64, i64)>, Error> {
        let result = self.numbers_of(rio9_sys::RIO9_POINTER, 0)?;
        Ok((result.status != rio9_sys::RIO9_NOTHING).then_some((result.number as i64, result.other as i64)))
    }

    /// The width and the height, in pixels.
    pub fn size(&mut self) -> Result<(u32, u32), Error> {
        let result = self.numbers_of(rio9_sys::RIO9_SIZE, 0)?;
        Ok((result.number as u32, result.other as u32))
    }

    /// How many entries the history has, and how many are stored.
    pub fn entries(&mut self) -> Result<Entries, Error> {
        let result = self.numbers_of(rio9_sys::RIO9_ENTRIES, 0)?;
        Ok(Entries { all: result.number, stored: result.other })
    }

    /// The record of the entries that are stored, which `rio9 replay` reads.
    pub fn record(&mut self) -> Result<Vec<u8>, Error> {
        Ok(self.call(rio9_sys::RIO9_RECORD, [0; 4], &[])?.1.to_vec())
    }

    /// Forgets the entries that are stored, which grow otherwise with each message.
    pub fn forget(&mut self) -> Result<(), Error> {
        self.numbers_of(rio9_sys::RIO9_FORGET, 0).map(|_| ())
    }

    /// Makes the events of a record, behind those that were made. Gives how many.
    pub fn load(&mut self, record: &[u8]) -> Result<u64, Error> {
        Ok(self.call(rio9_sys::RIO9_LOAD, [0; 4], record)?.0.number)
    }

    /// Makes the event of a line of a record, without the end of the line. Gives the lines of its replies, as `rio9 replay`
    /// writes them.
    pub fn event(&mut self, line: &[u8]) -> Result<&[u8], Error> {
        Ok(self.call(rio9_sys::RIO9_EVENT, [0; 4], line)?.1)
    }
}

impl Drop for Display {
    fn drop(&mut self) {
        // SAFETY: the display is open, and goes with this value.
        unsafe { rio9_sys::rio9_close(self.at.as_ptr()) }
    }
}

fn effect_of(result: rio9_result) -> Effect {
    Effect { msize: result.number as u32, rings: result.rings, pixels: result.pixels }
}

fn taken_of(result: rio9_result, bytes: &[u8]) -> Taken<'_> {
    match result.status {
        rio9_sys::RIO9_NOTHING => Taken::Nothing,
        rio9_sys::RIO9_OVER => Taken::Over,
        _ => Taken::Replies(bytes),
    }
}

fn sides_of(r: Rectangle) -> Result<[u32; 4], Error> {
    let side = |value: i32| u32::try_from(value).map_err(|_| Error::BadRectangle);
    Ok([side(r.min.x)?, side(r.min.y)?, side(r.max.x)?, side(r.max.y)?])
}
