//! The numbers and the structures are those of the header.

use rio9_sys::{rio9_request, rio9_result};
use std::collections::BTreeMap;
use std::fs;
use std::mem::size_of;
use std::path::Path;

macro_rules! numbers {
    ($($name:ident)*) => { BTreeMap::from([$((stringify!($name).to_string(), rio9_sys::$name)),*]) };
}

#[test]
fn the_numbers_are_those_of_the_header() {
    let path = Path::new(env!("CARGO_MANIFEST_DIR")).join("../../include/rio9.h");
    let header = fs::read_to_string(path).unwrap();
    let number = |line: &str| -> Option<(String, u32)> {
        let (name, rest) = line.trim().split_once(" = ")?;
        let digits = rest.split([',', ' ']).next()?;
        name.starts_with("RIO9_").then(|| Some((name.to_string(), digits.parse().ok()?)))?
    };
    let found: BTreeMap<String, u32> = header.lines().filter_map(number).collect();
    let statuses = numbers!(RIO9_DONE RIO9_MEMORY RIO9_CROWDED RIO9_CLOSED RIO9_DUPLICATE RIO9_NOTHING RIO9_OVER RIO9_BAD_RECTANGLE
        RIO9_BAD_RECORD RIO9_LATE_RECORD RIO9_BAD_EVENT RIO9_FULL RIO9_BAD_OPERATION RIO9_BAD_SIZE RIO9_BAD_CHANNELS RIO9_NULL
        RIO9_SHORT);
    let operations = numbers!(RIO9_AGAIN RIO9_BEGIN RIO9_MESSAGE RIO9_TAKE RIO9_END RIO9_EXCHANGE RIO9_WAITING RIO9_SCREEN RIO9_ROWS
        RIO9_MARKS RIO9_CLEAR_MARKS RIO9_POINTER RIO9_SIZE RIO9_RECORD RIO9_FORGET RIO9_LOAD RIO9_ENTRIES RIO9_EVENT);
    assert_eq!(found, statuses.into_iter().chain(operations).collect());
}

#[test]
fn the_structures_have_the_sizes_of_c() {
    assert_eq!((size_of::<rio9_request>(), size_of::<rio9_result>()), (20, 48));
}
