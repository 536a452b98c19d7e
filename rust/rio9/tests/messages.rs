//! Messages of 9P2000 and of the draw device, by the tables of docs/FORMATS.md and the records of examples/.

use rio9::draw::{self, Channels, Draw, Operator, Text};
use rio9::ninep::{self, BadMessage, Reply, Request, TooLong, NOTAG};
use rio9::{Point, Rectangle};
use std::fs;
use std::path::Path;

const RECORDS: [&str; 8] = ["first", "guest", "input", "listing", "rio", "shapes", "text", "walk"];
const R: Rectangle = Rectangle { min: Point { x: 1, y: -2 }, max: Point { x: 30, y: 40 } };
const WIDE: Rectangle = Rectangle { min: Point { x: -10000, y: -10000 }, max: Point { x: 10000, y: 10000 } };
const ORIGIN: Point = Point { x: 0, y: 0 };
const X8R8G8B8: Channels = Channels(0x6808_1828);
const TEXT: Text<'static> =
    Text { dst: 0, src: 1, font: 12, at: Point { x: 20, y: 21 }, clip: R, src_at: ORIGIN, indices: &[1, 258] };

fn bytes_of(digits: &str) -> Vec<u8> {
    (0..digits.len()).step_by(2).map(|at| u8::from_str_radix(&digits[at..at + 2], 16).unwrap()).collect()
}

/// The messages of the lines of a file of examples/ that begin with a letter.
fn messages(file: &str, letter: &str) -> Vec<Vec<u8>> {
    let path = Path::new(env!("CARGO_MANIFEST_DIR")).join("../../examples").join(file);
    let text = fs::read_to_string(path).unwrap();
    let words = text.lines().map(|line| line.split(' ').collect::<Vec<_>>());
    words.filter(|words| words[0] == letter && words.len() == 3).map(|words| bytes_of(words[2])).collect()
}

#[test]
fn requests_of_the_examples_are_read_and_spelled_again() {
    for name in RECORDS {
        for bytes in messages(&format!("{name}.record"), "M") {
            let (tag, request) = Request::decode(&bytes).unwrap();
            assert_eq!(request.encode(tag).unwrap(), bytes);
        }
    }
}

#[test]
fn replies_of_the_examples_are_read_and_spelled_again() {
    for name in RECORDS {
        let all = messages(&format!("{name}.replies"), "R");
        for bytes in &all {
            let (tag, reply) = Reply::decode(bytes).unwrap();
            assert_eq!(reply.encode(tag).unwrap(), *bytes);
        }
        let read = ninep::replies(&all.concat()).filter(|reply| reply.is_ok()).count();
        assert_eq!(read, all.len());
    }
}

#[test]
fn the_first_messages_are_what_they_say() {
    let sent = messages("first.record", "M");
    let version = Request::Version { msize: 65_560, version: "9P2000" };
    let attach = Request::Attach { fid: 0, afid: ninep::NOFID, uname: "u", aname: "" };
    assert_eq!(Request::decode(&sent[0]), Ok((NOTAG, version)));
    assert_eq!(Request::decode(&sent[1]), Ok((1, attach)));
    let came = messages("first.replies", "R");
    let (_, Reply::Attach { qid }) = Reply::decode(&came[1]).unwrap() else { panic!("no Rattach") };
    assert!(qid.is_directory() && qid.path == 1 && qid.version == 0);
}

#[test]
fn bytes_that_are_no_message_are_refused() {
    for bytes in messages("first.record", "M") {
        for end in 0..bytes.len() {
            assert_eq!(Request::decode(&bytes[..end]), Err(BadMessage));
        }
        assert_eq!(Request::decode(&[bytes.as_slice(), &[0]].concat()), Err(BadMessage));
        assert_eq!(Reply::decode(&bytes), Err(BadMessage));
    }
    // A name that is no UTF-8, and a walk of 17 names.
    assert_eq!(Request::decode(&bytes_of("1400000068010000000000ffffffff0100ff0000")), Err(BadMessage));
    let mut walk = bytes_of("330000006e0100000000000100000011");
    walk.extend([0; 35]);
    assert_eq!(Request::decode(&walk), Err(BadMessage));
    assert!(ninep::replies(&[1, 0, 0, 0]).all(|reply| reply.is_err()));
}

#[test]
fn what_is_too_long_has_no_spelling() {
    let name = "n".repeat(65_536);
    let long = Request::Attach { fid: 0, afid: 0, uname: "", aname: &name };
    let walk = Request::Walk { fid: 0, newfid: 1, names: vec![""; 17] };
    let data = Request::Write { fid: 0, offset: 0, data: &vec![0; 65_560 - 22] };
    for request in [long, walk, data] {
        assert_eq!(request.encode(1), Err(TooLong));
    }
    assert!(Request::Write { fid: 0, offset: 0, data: &vec![0; 65_560 - 23] }.encode(1).is_ok());
    let mut bytes = vec![7];
    assert_eq!(Draw::Named { id: 1, name: &name[..256] }.put(&mut bytes), Err(TooLong));
    assert_eq!(bytes, [7]);
    let indices = vec![0; 65_536];
    assert_eq!(draw::encode(&[Draw::String(Text { indices: &indices, ..TEXT })]), Err(TooLong));
}

#[test]
fn draw_messages_have_the_bytes_of_the_table() {
    let table = [
        (Draw::Allocate { id: 1, screen: 2, refresh: 0, channels: X8R8G8B8, repl: true, r: R, clip: WIDE, color: 0x1122_3344 }, "62010000000200000000281808680101000000feffffff1e00000028000000f0d8fffff0d8ffff102700001027000044332211"),
        (Draw::AllocateScreen { id: 3, image: 4, fill: 5, public: true }, "4103000000040000000500000001"),
        (Draw::Clip { dst: 6, repl: false, clip: R }, "63060000000001000000feffffff1e00000028000000"),
        (Draw::Draw { dst: 0, src: 7, mask: 8, r: R, src_at: Point { x: 9, y: -9 }, mask_at: Point { x: 10, y: -10 } }, "6400000000070000000800000001000000feffffff1e0000002800000009000000f7ffffff0a000000f6ffffff"),
        (Draw::Debug { on: true }, "4401"),
        (Draw::Free { id: 0x0102_0304 }, "6604030201"),
        (Draw::FreeScreen { id: 11 }, "460b000000"),
        (Draw::Font { id: 12, characters: 95, ascent: 7 }, "690c0000005f00000007"),
        (Draw::Load { font: 12, src: 13, index: 94, r: R, src_at: Point { x: 5, y: 6 }, left: -1, width: 6 }, "6c0c0000000d0000005e0001000000feffffff1e000000280000000500000006000000ff06"),
        (Draw::Name { id: 14, tie: true, name: "name" }, "4e0e00000001046e616d65"),
        (Draw::Named { id: 15, name: "window.1.1" }, "6e0f0000000a77696e646f772e312e31"),
        (Draw::Origin { id: 16, min: Point { x: 0, y: 1 }, screen: Point { x: -2, y: 3 } }, "6f100000000000000001000000feffffff03000000"),
        (Draw::Operator(Operator::S), "4f0a"),
        (Draw::Read { id: 17, r: R }, "721100000001000000feffffff1e00000028000000"),
        (Draw::String(TEXT), "7300000000010000000c000000140000001500000001000000feffffff1e000000280000000000000000000000020001000201"),
        (Draw::StringOn { text: TEXT, background: 2, background_at: Point { x: 3, y: 4 } }, "7800000000010000000c000000140000001500000001000000feffffff1e000000280000000000000000000000020002000000030000000400000001000201"),
        (Draw::Screen { id: 18, channels: X8R8G8B8 }, "531200000028180868"),
        (Draw::Top { top: true, ids: &[19, 20] }, "740102001300000014000000"),
        (Draw::Flush, "76"),
        (Draw::Write { id: 21, r: Rectangle::new(0, 0, 2, 1), rows: &[1, 2, 3, 4, 5, 6, 7, 8] }, "7915000000000000000000000002000000010000000102030405060708"),
    ];
    for (message, digits) in &table {
        assert_eq!(draw::encode(std::slice::from_ref(message)).unwrap(), bytes_of(digits), "{message:?}");
    }
    let all: Vec<Draw<'_>> = table.iter().map(|(message, _)| message.clone()).collect();
    let digits: String = table.iter().map(|(_, digits)| *digits).collect();
    assert_eq!(draw::encode(&all).unwrap(), bytes_of(&digits));
}

#[test]
fn channels_are_named_by_texts() {
    assert_eq!(Channels::from_text("x8r8g8b8"), Some(X8R8G8B8));
    assert_eq!(Channels::from_text("k1"), Some(Channels(0x31)));
    assert_eq!(Channels::from_text("a8r8g8b8"), Some(Channels(0x4808_1828)));
    assert_eq!((X8R8G8B8.depth(), Channels(0x31).depth()), (32, 1));
    for text in ["", "k", "k0", "k9", "m8", "q8", "x8r8g8b8a8", "8k"] {
        assert_eq!(Channels::from_text(text), None, "{text}");
    }
    assert_eq!(Operator::default(), Operator::SoverD);
}
