//! Clients of a 9P2000 server of draw and rio, for the scripts beside this file, which build it with `rustc -O`. Std only.
//!
//!     load stat ADDRESS CLIENTS OUTSTANDING SECONDS
//!     load draw ADDRESS CLIENTS SECONDS SEED FOLDER BYTES
//!     load abuse ADDRESS CLIENTS AT_ONCE SEED FOLDER
//!
//! `stat` asks for stats and prints `messages N seconds S median M p99 P`, the round trips in microseconds. `draw` draws for so
//! long, so slowly that a record of it has at most so many bytes. `abuse` has clients of which a third draw, a third cut their
//! streams and a third send junk. Both leave in the folder, for each client N, what it sent and what it got, in N.sent and N.got,
//! and `kinds`, a line `N KIND END` for each.
use std::fs::File;
use std::io::{self, BufWriter, Read, Write};
use std::net::{Shutdown, TcpStream};
use std::sync::atomic::{AtomicU64, Ordering};
use std::sync::{Barrier, Mutex};
use std::time::{Duration, Instant};

const NOTAG: u16 = 0xffff;
const MSIZE: u32 = 65_560;
const X8R8G8B8: u32 = 0x6808_1828;
const K1: u32 = 0x31;

/// Random numbers, by splitmix64.
struct Random(u64);

impl Random {
    fn next(&mut self) -> u64 {
        self.0 = self.0.wrapping_add(0x9e37_79b9_7f4a_7c15);
        let mut z = self.0;
        z = (z ^ (z >> 30)).wrapping_mul(0xbf58_476d_1ce4_e5b9);
        z = (z ^ (z >> 27)).wrapping_mul(0x94d0_49bb_1331_11eb);
        z ^ (z >> 31)
    }

    /// A number from 0 up to but not with the bound.
    fn below(&mut self, bound: u64) -> u64 {
        self.next() % bound
    }

    fn bytes(&mut self, count: usize) -> Vec<u8> {
        (0..count).map(|_| self.next() as u8).collect()
    }
}

// Messages.

fn message(kind: u8, tag: u16, parts: &[&[u8]]) -> Vec<u8> {
    let body: usize = parts.iter().map(|part| part.len()).sum();
    let mut out = Vec::with_capacity(7 + body);
    out.extend_from_slice(&(7 + body as u32).to_le_bytes());
    out.push(kind);
    out.extend_from_slice(&tag.to_le_bytes());
    for part in parts {
        out.extend_from_slice(part);
    }
    out
}

fn string(text: &str) -> Vec<u8> {
    let mut out = (text.len() as u16).to_le_bytes().to_vec();
    out.extend_from_slice(text.as_bytes());
    out
}

fn version(name: &str) -> Vec<u8> {
    message(100, NOTAG, &[&MSIZE.to_le_bytes(), &string(name)])
}

fn attach(fid: u32, name: &str) -> Vec<u8> {
    message(104, 1, &[&fid.to_le_bytes(), &[0xff; 4], &string("u"), &string(name)])
}

fn walk(fid: u32, newfid: u32, names: &[&str]) -> Vec<u8> {
    let spelled: Vec<u8> = names.iter().flat_map(|name| string(name)).collect();
    message(110, 1, &[&fid.to_le_bytes(), &newfid.to_le_bytes(), &(names.len() as u16).to_le_bytes(), &spelled])
}

fn open(fid: u32, mode: u8) -> Vec<u8> {
    message(112, 1, &[&fid.to_le_bytes(), &[mode]])
}

fn read(tag: u16, fid: u32, offset: u64, count: u32) -> Vec<u8> {
    message(116, tag, &[&fid.to_le_bytes(), &offset.to_le_bytes(), &count.to_le_bytes()])
}

fn write(fid: u32, data: &[u8]) -> Vec<u8> {
    message(118, 1, &[&fid.to_le_bytes(), &[0; 8], &(data.len() as u32).to_le_bytes(), data])
}

fn clunk(fid: u32) -> Vec<u8> {
    message(120, 1, &[&fid.to_le_bytes()])
}

fn stat(tag: u16) -> Vec<u8> {
    message(124, tag, &[&0u32.to_le_bytes()])
}

fn flush(tag: u16, old: u16) -> Vec<u8> {
    message(108, tag, &[&old.to_le_bytes()])
}

// Draw messages.

fn numbers(out: &mut Vec<u8>, values: &[i32]) {
    for value in values {
        out.extend_from_slice(&value.to_le_bytes());
    }
}

fn image(out: &mut Vec<u8>, id: i32, chan: u32, repl: bool, side: i32, color: u32) {
    out.push(b'b');
    numbers(out, &[id, 0]);
    out.push(0);
    out.extend_from_slice(&chan.to_le_bytes());
    out.push(repl as u8);
    let wide = if repl { 1 << 20 } else { side };
    numbers(out, &[0, 0, side, side, if repl { -wide } else { 0 }, if repl { -wide } else { 0 }, wide, wide]);
    out.extend_from_slice(&color.to_le_bytes());
}

fn draw(out: &mut Vec<u8>, target: i32, source: i32, r: [i32; 4]) {
    out.push(b'd');
    numbers(out, &[target, source, MASK, r[0], r[1], r[2], r[3], 0, 0, 0, 0]);
}

const WINDOW: i32 = 1;
const MASK: i32 = 9;
const COLOURS: i32 = 10;
const CANVAS: i32 = 20;
const SIDE: i32 = 64;

// Ends of a session.

/// How much a client may send, by what it sent.
enum Pace {
    Free,
    /// So many bytes of a record in so long a time.
    Slow {
        begun: Instant,
        bytes_a_second: f64,
    },
}

/// A session's connection, with what went over it.
struct Session {
    stream: TcpStream,
    held: Vec<u8>,
    at: usize,
    sent: BufWriter<File>,
    got: BufWriter<File>,
    /// The bytes that may still be sent, where the stream is to be cut.
    left: Option<usize>,
    pace: Pace,
    recorded: f64,
}

fn gone() -> io::Error {
    io::Error::new(io::ErrorKind::UnexpectedEof, "the session is over")
}

impl Session {
    fn new(address: &str, folder: &str, number: usize) -> io::Result<Session> {
        let stream = TcpStream::connect(address)?;
        stream.set_nodelay(true)?;
        stream.set_read_timeout(Some(Duration::from_secs(120)))?;
        let file = |part: &str| File::create(format!("{folder}/{number}.{part}")).map(BufWriter::new);
        let (sent, got) = (file("sent")?, file("got")?);
        Ok(Session { stream, held: Vec::new(), at: 0, sent, got, left: None, pace: Pace::Free, recorded: 0.0 })
    }

    /// Sends bytes, or those that a cut leaves of them; then it fails.
    fn send(&mut self, data: &[u8]) -> io::Result<()> {
        let count = self.left.map_or(data.len(), |left| left.min(data.len()));
        self.sent.write_all(&data[..count])?;
        self.stream.write_all(&data[..count])?;
        if let Some(left) = &mut self.left {
            *left -= count;
            if count < data.len() || *left == 0 {
                return Err(gone());
            }
        }
        self.recorded += 2.0 * data.len() as f64 + 16.0;
        if let Pace::Slow { begun, bytes_a_second } = self.pace {
            let due = Duration::from_secs_f64(self.recorded / bytes_a_second);
            std::thread::sleep(due.saturating_sub(begun.elapsed()));
        }
        Ok(())
    }

    /// The next reply.
    fn reply(&mut self) -> io::Result<Vec<u8>> {
        loop {
            let have = self.held.len() - self.at;
            if have >= 4 {
                let size = u32::from_le_bytes(self.held[self.at..self.at + 4].try_into().unwrap()) as usize;
                if have >= size && size >= 7 {
                    let found = self.held[self.at..self.at + size].to_vec();
                    self.at += size;
                    return Ok(found);
                }
            }
            self.held.drain(..self.at);
            self.at = 0;
            if self.more()? == 0 {
                return Err(gone());
            }
        }
    }

    /// Takes what comes next, and tells how many bytes it was.
    fn more(&mut self) -> io::Result<usize> {
        let mut piece = [0; 1 << 16];
        let count = self.stream.read(&mut piece)?;
        self.got.write_all(&piece[..count])?;
        self.held.extend_from_slice(&piece[..count]);
        Ok(count)
    }

    /// Replies up to the one of a tag, which it gives.
    fn until(&mut self, tag: u16) -> io::Result<Vec<u8>> {
        loop {
            let found = self.reply()?;
            if found[5..7] == tag.to_le_bytes() {
                return Ok(found);
            }
        }
    }

    fn call(&mut self, data: &[u8]) -> io::Result<Vec<u8>> {
        self.send(data)?;
        self.until(u16::from_le_bytes([data[5], data[6]]))
    }

    /// Ends this side, and takes what comes up to the end of the other.
    fn end(&mut self) -> io::Result<()> {
        self.stream.shutdown(Shutdown::Write)?;
        while self.more()? > 0 {
            self.held.clear();
            self.at = 0;
        }
        Ok(())
    }

    fn keep(mut self) -> io::Result<()> {
        self.sent.flush()?;
        self.got.flush()
    }
}

// A session that draws.

const ROOT: u32 = 0;
const CTL: u32 = 1;
const DATA: u32 = 2;
const WCTL: u32 = 3;
const LABEL: u32 = 4;
const MOUSE: u32 = 5;
const CONS: u32 = 6;
const NAME: u32 = 7;
const DEVICE: u32 = 8;
const MOUSEIN: u32 = 9;
const KBDIN: u32 = 10;
const SCREEN: u32 = 11;
const TEXT: u32 = 12;

/// Attaches by a new window, opens its files and those of the device, and makes images.
fn begin(session: &mut Session, random: &mut Random, name: &str) -> io::Result<()> {
    session.call(&version(name))?;
    let (x, y) = (random.below(400) as i32, random.below(300) as i32);
    session.call(&attach(ROOT, &format!("new -r {x} {y} {} {}", x + 100 + random.below(100) as i32, y + 100)))?;
    session.call(&attach(DEVICE, ""))?;
    let files: [(u32, u32, &[&str], u8); 10] = [
        (ROOT, CTL, &["draw", "new"], 2),
        (ROOT, DATA, &["draw", "1", "data"], 2),
        (ROOT, WCTL, &["wctl"], 2),
        (ROOT, LABEL, &["label"], 2),
        (ROOT, MOUSE, &["mouse"], 0),
        (ROOT, CONS, &["cons"], 2),
        (ROOT, NAME, &["winname"], 0),
        (DEVICE, MOUSEIN, &["mousein"], 1),
        (DEVICE, KBDIN, &["kbdin"], 1),
        (DEVICE, SCREEN, &["screen"], 0),
    ];
    for (root, fid, names, mode) in files {
        session.call(&walk(root, fid, names))?;
        session.call(&open(fid, mode))?;
    }
    let mut out = Vec::new();
    image(&mut out, MASK, K1, true, 1, !0);
    for colour in 0..8 {
        image(&mut out, COLOURS + colour, X8R8G8B8, true, 1, random.next() as u32 | 0xff);
    }
    image(&mut out, CANVAS, X8R8G8B8, false, SIDE, 0xff);
    session.call(&write(DATA, &out))?;
    know_window(session)
}

/// Asks for the window's image by its present name.
fn know_window(session: &mut Session) -> io::Result<()> {
    let found = session.call(&read(1, NAME, 0, 200))?;
    if found[4] == 117 {
        let name = found[11..].to_vec();
        let mut out = vec![b'n'];
        numbers(&mut out, &[WINDOW]);
        out.push(name.len() as u8);
        out.extend_from_slice(&name);
        session.call(&write(DATA, &out))?;
    }
    Ok(())
}

fn some_draws(random: &mut Random) -> Vec<u8> {
    let mut out = Vec::new();
    for _ in 0..1 + random.below(20) {
        let (x, y) = (random.below(600) as i32, random.below(450) as i32);
        let (w, h) = (1 + random.below(80) as i32, 1 + random.below(60) as i32);
        let colour = COLOURS + random.below(8) as i32;
        match random.below(4) {
            0 => draw(&mut out, CANVAS, colour, [x % SIDE, y % SIDE, x % SIDE + w, y % SIDE + h]),
            1 => draw(&mut out, WINDOW, CANVAS, [x, y, x + w, y + h]),
            _ => draw(&mut out, WINDOW, colour, [x, y, x + w, y + h]),
        }
    }
    out
}

fn window_command(random: &mut Random) -> String {
    let (x, y) = (random.below(500), random.below(380));
    match random.below(6) {
        0 => format!("resize -dx {} -dy {}", 20 + random.below(200), 20 + random.below(150)),
        1 => "top".into(),
        2 => "bottom".into(),
        3 => "current".into(),
        _ => format!("move -minx {x} -miny {y}"),
    }
}

/// Draws, loads pixels, reads them, or makes and frees an image.
fn drawing(session: &mut Session, random: &mut Random) -> io::Result<()> {
    let mut out = Vec::new();
    match random.below(7) {
        0 => {
            let rows = 1 + random.below(8) as i32;
            out.push(b'y');
            numbers(&mut out, &[CANVAS, 0, 0, SIDE, rows]);
            out.extend_from_slice(&random.bytes((4 * SIDE * rows) as usize));
        }
        1 => {
            out.push(b'r');
            numbers(&mut out, &[CANVAS, 0, 0, SIDE, 1 + random.below(SIDE as u64) as i32]);
            session.call(&write(DATA, &out))?;
            return session.call(&read(1, DATA, 0, MSIZE)).map(|_| ());
        }
        2 => {
            image(&mut out, 30, X8R8G8B8, false, 1 + random.below(200) as i32, random.next() as u32);
            out.push(b'f');
            numbers(&mut out, &[30]);
        }
        _ => out = some_draws(random),
    }
    session.call(&write(DATA, &out)).map(|_| ())
}

/// A window command, and the window's image by the name that it has then.
fn command(session: &mut Session, random: &mut Random) -> io::Result<()> {
    session.call(&write(WCTL, window_command(random).as_bytes()))?;
    let mut out = vec![b'f'];
    numbers(&mut out, &[WINDOW]);
    session.call(&write(DATA, &out))?;
    know_window(session)
}

/// What a program does with the text of its window.
fn text(session: &mut Session, random: &mut Random) -> io::Result<()> {
    if random.below(2) == 0 {
        session.call(&write(LABEL, format!("label {}", random.below(1000)).as_bytes()))?;
        return session.call(&read(1, LABEL, 0, 256)).map(|_| ());
    }
    session.call(&write(CONS, b"output of a program\n"))?;
    session.call(&walk(ROOT, TEXT, &["text"]))?;
    session.call(&open(TEXT, 0))?;
    session.call(&read(1, TEXT, 0, 300))?;
    session.call(&clunk(TEXT)).map(|_| ())
}

/// One of the things that a session which draws does.
fn step(session: &mut Session, random: &mut Random) -> io::Result<()> {
    let data = match random.below(14) {
        0 => return command(session, random),
        1 | 2 => return text(session, random),
        3 => {
            let (x, y, buttons) = (random.below(640), random.below(480), random.below(3) / 2);
            let event = format!("m{:11} {:11} {:11} {:11} ", x, y, buttons, random.below(1 << 30));
            write(MOUSEIN, event.as_bytes())
        }
        4 => write(KBDIN, &b"some keys\n\x08abc"[..1 + random.below(13) as usize]),
        5 => {
            // a read that may wait, and is taken back
            let (fid, count) = if random.below(2) == 0 { (MOUSE, 49) } else { (CONS, 100) };
            session.send(&read(2, fid, 0, count))?;
            flush(3, 2)
        }
        6 => read(1, SCREEN, random.below(1_200_000), random.below(4096) as u32),
        _ => return drawing(session, random),
    };
    session.call(&data).map(|_| ())
}

/// The version of a client, which no other client sends: what stands behind the period is not looked at.
fn version_of(number: usize, seed: u64) -> String {
    format!("9P2000.{number}.{seed}")
}

// Clients.

fn draw_for(address: &str, folder: &str, number: usize, seed: u64, seconds: f64, bytes: f64) -> io::Result<()> {
    let mut session = Session::new(address, folder, number)?;
    let mut random = Random(seed ^ (number as u64) << 32);
    let begun = Instant::now();
    session.pace = Pace::Slow { begun, bytes_a_second: bytes / seconds };
    begin(&mut session, &mut random, &version_of(number, seed))?;
    while begun.elapsed().as_secs_f64() < seconds {
        step(&mut session, &mut random)?;
    }
    session.end()?;
    session.keep()
}

fn plain(session: &mut Session, random: &mut Random, name: &str) -> io::Result<()> {
    begin(session, random, name)?;
    for _ in 0..random.below(120) {
        step(session, random)?;
    }
    Ok(())
}

/// Frames of lawful sizes whose kinds and bodies are mostly junk.
fn junk_frames(random: &mut Random) -> Vec<u8> {
    let mut out = Vec::new();
    for _ in 0..1 + random.below(40) {
        let tag = random.below(4) as u16;
        out.extend_from_slice(&match random.below(8) {
            0 => {
                let (kind, count) = (random.next() as u8, random.below(64) as usize);
                message(kind, tag, &[&random.bytes(count)])
            }
            1 => {
                let mut data = write(DATA, &some_draws(random));
                let at = 7 + random.below(data.len() as u64 - 7) as usize;
                data[at] ^= 1 << random.below(8);
                data
            }
            2 => {
                let count = random.below(300) as usize;
                write(random.below(14) as u32, &random.bytes(count))
            }
            3 => write(WCTL, ["delete", "hide", "host", "junk", "new -r 1 1 50 50"][random.below(5) as usize].as_bytes()),
            4 => {
                read(tag, [MOUSE, CONS, SCREEN, DATA, 77][random.below(5) as usize], random.below(100), random.next() as u32 >> 20)
            }
            5 => walk(
                random.below(14) as u32,
                random.below(20) as u32,
                &[["draw", "wsys", "..", "nope", "1"][random.below(5) as usize]; 3],
            ),
            6 => clunk(random.below(14) as u32),
            _ => message(100, NOTAG, &[&(random.below(2) as u32 * 300).to_le_bytes(), &string("9P2000")]),
        });
    }
    out
}

/// What a client sends that sends junk, after a good front.
fn junk(random: &mut Random) -> Vec<u8> {
    match random.below(6) {
        0 => {
            let count = random.below(5000) as usize;
            random.bytes(count)
        }
        1 => [0, 1, 6, 7, MSIZE + 1, !0, 1 << 31][random.below(7) as usize].to_le_bytes().to_vec(),
        2 => [read(9, CONS, 0, 10), read(9, CONS, 0, 10), stat(1)].concat(),
        _ => junk_frames(random),
    }
}

/// Junk alone, whose size field is not lawful; questions whose answers are not read; or junk behind a good front.
fn send_junk(session: &mut Session, random: &mut Random, name: &str) -> io::Result<()> {
    let data = match random.below(8) {
        0 => return session.send(&[&(!0u32 - random.below(1000) as u32).to_le_bytes()[..], &random.bytes(200)].concat()),
        1 => (0..100).flat_map(|k| read(k, SCREEN, 1000 * k as u64, MSIZE)).collect(),
        _ => junk(random),
    };
    begin(session, random, name)?;
    session.send(&data)
}

/// A client of `abuse`: its kind and how it ended, `plain` with all that it was to get, `cut` or `junk`, `gently` or `abruptly`.
fn abuse_one(address: &str, folder: &str, number: usize, seed: u64) -> io::Result<(&'static str, &'static str)> {
    let mut session = Session::new(address, folder, number)?;
    let mut random = Random(seed ^ (number as u64) << 32);
    let name = version_of(number, seed);
    let kind = ["plain", "cut", "junk"][number % 3];
    let done = match kind {
        "plain" => plain(&mut session, &mut random, &name),
        "cut" => {
            session.left = Some(1 + random.below(20_000) as usize);
            plain(&mut session, &mut random, &name)
        }
        _ => send_junk(&mut session, &mut random, &name),
    };
    if kind == "plain" {
        done?;
    }
    let is_gentle = kind == "plain" || random.below(2) == 0;
    let ended = if is_gentle { session.end() } else { Ok(()) };
    if kind == "plain" {
        ended?;
    }
    session.keep()?;
    Ok((kind, if is_gentle { "gently" } else { "abruptly" }))
}

/// A session that has a root, and the bytes of the reply to a stat of it.
fn prepared(address: &str) -> io::Result<(TcpStream, usize)> {
    let mut stream = TcpStream::connect(address)?;
    stream.set_nodelay(true)?;
    let mut size = 0;
    for question in [version("9P2000"), attach(ROOT, ""), stat(0)] {
        stream.write_all(&question)?;
        let mut head = [0; 4];
        stream.read_exact(&mut head)?;
        size = u32::from_le_bytes(head) as usize;
        stream.read_exact(&mut vec![0; size - 4])?;
    }
    Ok((stream, size))
}

/// Asks for stats for so long, so many outstanding: how many were answered, and where one was the nanoseconds of each round trip.
fn stats(address: &str, outstanding: usize, seconds: f64, ready: &Barrier) -> io::Result<(u64, Vec<u32>)> {
    let (mut stream, reply) = prepared(address)?;
    let asked: Vec<u8> = (0..outstanding).flat_map(|tag| stat(tag as u16)).collect();
    let question = stat(0).len();
    let mut piece = vec![0; 1 << 18];
    let (mut count, mut times, mut buffered, mut waiting, mut next_tag) = (0, Vec::new(), 0, outstanding, 0);
    ready.wait();
    let begun = Instant::now();
    let mut last = begun;
    stream.write_all(&asked)?;
    while waiting > 0 {
        let n = stream.read(&mut piece[buffered..])?;
        if n == 0 {
            return Err(gone());
        }
        buffered += n;
        let whole = buffered / reply;
        buffered %= reply;
        piece.copy_within(whole * reply..whole * reply + buffered, 0);
        count += whole as u64;
        waiting -= whole;
        if outstanding == 1 && whole == 1 {
            times.push(last.elapsed().as_nanos().min(u32::MAX as u128) as u32);
        }
        if begun.elapsed().as_secs_f64() < seconds && whole > 0 {
            // replies come in the order of the questions, so these tags are free
            last = Instant::now();
            let first = whole.min(outstanding - next_tag);
            stream.write_all(&asked[question * next_tag..question * (next_tag + first)])?;
            stream.write_all(&asked[..question * (whole - first)])?;
            next_tag = (next_tag + whole) % outstanding;
            waiting += whole;
        }
    }
    stream.shutdown(Shutdown::Write)?;
    while stream.read(&mut piece)? > 0 {}
    Ok((count, times))
}

// The words.

fn run_stat(words: &[String]) -> io::Result<()> {
    let (clients, outstanding) = (words[1].parse().unwrap(), words[2].parse().unwrap());
    let seconds: f64 = words[3].parse().unwrap();
    let ready = Barrier::new(clients);
    let found = Mutex::new((0, Vec::new()));
    let begun = Instant::now();
    std::thread::scope(|scope| {
        let threads: Vec<_> = (0..clients)
            .map(|_| {
                scope.spawn(|| -> io::Result<()> {
                    let (count, times) = stats(&words[0], outstanding, seconds, &ready)?;
                    let mut found = found.lock().unwrap();
                    found.0 += count;
                    found.1.extend(times);
                    Ok(())
                })
            })
            .collect();
        threads.into_iter().try_for_each(|thread| thread.join().unwrap())
    })?;
    let (count, mut times) = found.into_inner().unwrap();
    times.sort_unstable();
    let at = |part: usize| times.get((times.len() * part / 100).min(times.len().max(1) - 1)).copied().unwrap_or(0) as f64 / 1000.0;
    println!(
        "messages {count} seconds {seconds} median {:.2} p99 {:.2} whole {:.2}",
        at(50),
        at(99),
        begun.elapsed().as_secs_f64()
    );
    Ok(())
}

fn run_draw(words: &[String]) -> io::Result<()> {
    let (clients, seconds): (usize, f64) = (words[1].parse().unwrap(), words[2].parse().unwrap());
    let (seed, bytes): (u64, f64) = (words[3].parse().unwrap(), words[5].parse().unwrap());
    std::thread::scope(|scope| {
        let threads: Vec<_> = (0..clients)
            .map(|number| scope.spawn(move || draw_for(&words[0], &words[4], number, seed, seconds, bytes / clients as f64)))
            .collect();
        threads.into_iter().try_for_each(|thread| thread.join().unwrap())
    })?;
    let kinds: String = (0..clients).map(|number| format!("{number} plain gently\n")).collect();
    std::fs::write(format!("{}/kinds", words[4]), kinds)
}

fn run_abuse(words: &[String]) -> io::Result<()> {
    let (clients, at_once): (usize, usize) = (words[1].parse().unwrap(), words[2].parse().unwrap());
    let seed: u64 = words[3].parse().unwrap();
    let next = AtomicU64::new(0);
    let kinds = Mutex::new(String::new());
    std::thread::scope(|scope| {
        let threads: Vec<_> = (0..at_once)
            .map(|_| {
                scope.spawn(|| -> io::Result<()> {
                    loop {
                        let number = next.fetch_add(1, Ordering::Relaxed) as usize;
                        if number >= clients {
                            return Ok(());
                        }
                        let (kind, end) = abuse_one(&words[0], &words[4], number, seed)
                            .map_err(|error| io::Error::new(error.kind(), format!("client {number}: {error}")))?;
                        kinds.lock().unwrap().push_str(&format!("{number} {kind} {end}\n"));
                    }
                })
            })
            .collect();
        threads.into_iter().try_for_each(|thread| thread.join().unwrap())
    })?;
    std::fs::write(format!("{}/kinds", words[4]), kinds.into_inner().unwrap())
}

fn main() {
    let words: Vec<String> = std::env::args().skip(1).collect();
    let done = match (words.first().map(String::as_str), words.len()) {
        (Some("stat"), 5) => run_stat(&words[1..]),
        (Some("draw"), 7) => run_draw(&words[1..]),
        (Some("abuse"), 6) => run_abuse(&words[1..]),
        _ => Err(io::Error::new(io::ErrorKind::InvalidInput, "the words are at the head of load.rs")),
    };
    if let Err(error) = done {
        eprintln!("load: {error}");
        std::process::exit(1);
    }
}
