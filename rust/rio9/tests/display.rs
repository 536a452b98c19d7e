//! A display: exact replies, clients, what is shown, the history, and what is refused.

use rio9::draw::{self, Channels, Draw, Operator};
use rio9::ninep::{self, stats, Request};
use rio9::{Cell, Client, Display, Entries, Error, Failure, Point, Rectangle, Session, Taken};
use std::fs;
use std::path::Path;
use std::thread;

const VERSION: &[u8] = b"\x13\0\0\0\x64\xff\xff\x18\0\x01\0\x06\x009P2000";
const RVERSION: &[u8] = b"\x13\0\0\0\x65\xff\xff\x18\0\x01\0\x06\x009P2000";
const CHANNELS: &str = "x8r8g8b8";
const GREY: [u8; 4] = [0x77, 0x77, 0x77, 0];
const BORDER: [u8; 4] = [0xaa, 0xaa, 0x55, 0];
const WHITE: [u8; 4] = [0xff, 0xff, 0xff, 0];

fn opened(width: u32, height: u32) -> Display {
    Display::open(width, height, CHANNELS).unwrap()
}

fn example(file: &str) -> Vec<u8> {
    fs::read(Path::new(env!("CARGO_MANIFEST_DIR")).join("../../examples").join(file)).unwrap()
}

fn pixel(display: &mut Display, x: i32, y: i32) -> Vec<u8> {
    display.rows(Rectangle::new(x, y, x + 1, y + 1)).unwrap().to_vec()
}

fn attached(display: &mut Display) -> (Client, u32) {
    let mut client = Client::begin(display).unwrap();
    let root = client.attach(display, "").unwrap();
    (client, root)
}

fn command(display: &mut Display, text: &str) {
    let (mut client, root) = attached(display);
    let wctl = client.open(display, root, &["wctl"], ninep::WRITE).unwrap();
    client.write(display, wctl, 0, text.as_bytes()).unwrap();
}

#[test]
fn replies_are_exact() {
    let mut display = opened(64, 48);
    let session = display.begin().unwrap();
    assert_eq!(session, Session(1));
    let (effect, taken) = display.exchange(session, VERSION).unwrap();
    assert_eq!((effect.msize, taken), (65_560, Taken::Replies(RVERSION)));
    assert_eq!(display.take(session), Ok(Taken::Nothing));
    assert_eq!(display.message(session, VERSION).unwrap().pixels, 0);
    assert_eq!(display.waiting(session), Ok(19));
    assert_eq!(display.take(session), Ok(Taken::Replies(RVERSION)));
    display.end(session).unwrap();
    assert_eq!(display.take(session), Ok(Taken::Over));
    let message = "M 1 1300000064ffff180001000600395032303030\nT 1\n";
    assert_eq!(display.record().unwrap(), format!("rio9 1\nB 1\n{message}{message}E 1\n").into_bytes());
}

#[test]
fn records_give_the_replies_of_the_examples() {
    for (name, width, height) in [("first", 640, 480), ("walk", 640, 480), ("shapes", 640, 480), ("rio", 320, 240)] {
        let record = example(&format!("{name}.record"));
        let lines = || record.split(|byte| *byte == b'\n').skip(1).filter(|line| !line.is_empty());
        let (mut one, mut other) = (opened(width, height), opened(width, height));
        let replies: Vec<u8> = lines().flat_map(|line| one.event(line).unwrap().to_vec()).collect();
        assert_eq!(replies, example(&format!("{name}.replies")), "{name}");
        assert_eq!(other.load(&record), Ok(lines().count() as u64));
        assert_eq!(one.record().unwrap(), record);
        assert_eq!(one.screen().unwrap(), other.screen().unwrap());
    }
}

#[test]
fn a_client_has_files_and_windows() {
    let mut display = opened(160, 120);
    let (mut client, root) = attached(&mut display);
    let listing = client.open(&mut display, root, &[], ninep::READ).unwrap();
    let bytes = client.read_all(&mut display, listing).unwrap();
    assert_eq!(bytes.len(), 529);
    let names: Vec<&str> = stats(&bytes).unwrap().iter().map(|stat| stat.name).collect();
    assert_eq!(names, ["draw", "hwsize", "kbdin", "mousein", "screen", "snarf", "wctl", "wsys"]);
    command(&mut display, "new -r 40 40 100 100");
    assert_eq!([pixel(&mut display, 0, 0), pixel(&mut display, 41, 41)], [GREY, BORDER]);
    assert_eq!(pixel(&mut display, 60, 60), WHITE);
    let refused = client.open(&mut display, root, &["screen"], ninep::WRITE);
    assert_eq!(refused, Err(Failure::Refused("permission denied".into())));
    assert_eq!(client.walk(&mut display, root, &["wsys", "9"]), Err(Failure::NotFound(1)));
    assert!(client.msize() == 65_560 && client.session() == Session(1));
    client.end(&mut display).unwrap();
}

#[test]
fn drawing_is_shown() {
    let mut display = opened(64, 48);
    let (mut client, root) = attached(&mut display);
    let ctl = client.open(&mut display, root, &["draw", "new"], ninep::READ_WRITE).unwrap();
    let fields = client.read(&mut display, ctl, 0).unwrap();
    let number = std::str::from_utf8(&fields[..12]).unwrap().trim().to_string();
    let data = client.open(&mut display, root, &["draw", &number, "data"], ninep::READ_WRITE).unwrap();
    let everywhere = Rectangle::new(-10_000, -10_000, 10_000, 10_000);
    let one = Rectangle::new(0, 0, 1, 1);
    let channels = Channels::from_text(CHANNELS).unwrap();
    let allocate =
        |id, color| Draw::Allocate { id, screen: 0, refresh: 0, channels, repl: true, r: one, clip: everywhere, color };
    let at = Point::default();
    let r = Rectangle::new(33, 1, 40, 9);
    let draw = Draw::Draw { dst: 0, src: 1, mask: 2, r, src_at: at, mask_at: at };
    let red = [allocate(1, 0xff00_00ff), allocate(2, 0xffff_ffff), Draw::Operator(Operator::S), draw, Draw::Flush];
    display.clear_marks().unwrap();
    client.write(&mut display, data, 0, &draw::encode(&red).unwrap()).unwrap();
    assert_eq!(pixel(&mut display, 33, 1), [0, 0, 0xff, 0]);
    assert_eq!(pixel(&mut display, 32, 1), GREY);
    assert_eq!(display.marks().unwrap(), [Cell { column: 1, row: 0 }]);
    let y = Draw::Write { id: 0, r: one, rows: &[1, 2, 3, 4] };
    client.write(&mut display, data, 0, &draw::encode(&[y]).unwrap()).unwrap();
    assert_eq!(pixel(&mut display, 0, 0), [1, 2, 3, 4]);
}

#[test]
fn a_read_that_waits_is_answered_by_another_session() {
    let mut display = opened(160, 120);
    let (mut keys, root) = attached(&mut display);
    let kbdin = keys.open(&mut display, root, &["kbdin"], ninep::WRITE).unwrap();
    let mut window = Client::begin(&mut display).unwrap();
    let tree = window.attach(&mut display, "new").unwrap();
    let cons = window.open(&mut display, tree, &["cons"], ninep::READ).unwrap();
    assert_eq!(window.read(&mut display, cons, 0), Err(Failure::Waits));
    let read = Request::Read { fid: cons, offset: 0, count: 100 }.encode(7).unwrap();
    assert_eq!(display.exchange(window.session(), &read).unwrap().1, Taken::Nothing);
    keys.write(&mut display, kbdin, 0, b"a\n").unwrap();
    let reply = display.take(window.session()).unwrap().bytes().to_vec();
    assert_eq!(ninep::Reply::decode(&reply), Ok((7, ninep::Reply::Read { data: b"a\n" })));
}

#[test]
fn rows_are_those_of_the_screen() {
    let mut display = opened(70, 33);
    command(&mut display, "new -r 4 4 60 30");
    let whole = Rectangle::new(0, 0, 70, 33);
    let screen = display.screen().unwrap();
    assert_eq!(&screen[..60], b"   x8r8g8b8           0           0          70          33 ");
    assert_eq!(display.rows(whole).unwrap(), &screen[60..]);
    let mut buffer = vec![0; screen.len()];
    assert_eq!(display.rows_into(whole, &mut buffer), Ok(screen.len() - 60));
    assert_eq!(buffer[..screen.len() - 60], screen[60..]);
    assert_eq!(display.rows_into(whole, &mut buffer[..9]), Err(Error::TooShort(70 * 33 * 4)));
    for r in [Rectangle::new(0, 0, 71, 1), Rectangle::new(5, 5, 5, 6), Rectangle::new(-1, 0, 5, 5)] {
        assert_eq!(display.rows(r), Err(Error::BadRectangle));
    }
    assert_eq!(display.size(), Ok((70, 33)));
}

#[test]
fn the_history_is_counted_and_forgotten() {
    let mut display = opened(160, 120);
    assert_eq!(display.pointer(), Ok(None));
    command(&mut display, "new -hide");
    let (mut client, root) = attached(&mut display);
    let mouse = client.open(&mut display, root, &["mousein"], ninep::WRITE).unwrap();
    let event = format!("m{:11} {:11} {:11} {:11} ", 3, 4, 0, 0);
    client.write(&mut display, mouse, 0, event.as_bytes()).unwrap();
    assert_eq!(display.pointer(), Ok(Some((3, 4))));
    let before = display.entries().unwrap();
    display.forget().unwrap();
    assert_eq!(display.entries(), Ok(Entries { all: before.all, stored: 0 }));
    assert_eq!(display.record().unwrap(), format!("rio9 2 {}\n", before.all + 1).into_bytes());
}

#[test]
fn what_is_wrong_is_told() {
    assert_eq!(Display::open(0, 5, CHANNELS).err(), Some(Error::BadSize));
    assert_eq!(Display::open(5, 2049, CHANNELS).err(), Some(Error::BadSize));
    assert_eq!(Display::open(5, 5, "zz").err(), Some(Error::BadChannels));
    let mut display = opened(5, 5);
    assert_eq!(display.load(b"rio9 1\nB 2\n"), Err(Error::BadRecord(7)));
    assert_eq!(display.load(b"rio9 2 9\n"), Err(Error::LateRecord(9)));
    assert_eq!(display.exchange(Session(1), VERSION).err(), Some(Error::SessionClosed));
    assert_eq!(display.end(Session(1)), Err(Error::SessionClosed));
    let session = display.begin().unwrap();
    assert_eq!(display.load(b"rio9 1\nB 1\n"), Err(Error::BadEvent(0)));
    assert_eq!(display.message(session, b"no message").err(), Some(Error::SessionClosed));
    display.event(b"X").unwrap();
    assert_eq!(display.begin(), Err(Error::NoMemory));
    assert_eq!(Error::BadRecord(7).to_string(), "the bytes are no record from byte 7 on");
}

#[test]
fn displays_are_used_in_several_threads() {
    let workers: Vec<_> = (1..=2)
        .map(|number| {
            let mut display = opened(64, 48);
            thread::spawn(move || {
                for _ in 0..100 * number {
                    let (client, _) = attached(&mut display);
                    client.end(&mut display).unwrap();
                }
                display.entries().unwrap().all
            })
        })
        .collect();
    let counts: Vec<u64> = workers.into_iter().map(|worker| worker.join().unwrap()).collect();
    assert_eq!(counts, [600, 1200]);
}
