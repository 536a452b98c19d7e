//! How much of a processor an exchange of a small message takes, and the rows of 640x480, on Linux:
//! cargo run --release --example speed

use rio9::ninep::Request;
use rio9::{Client, Display, Rectangle};
use std::error::Error;
use std::fs;
use std::time::Duration;

const ROUNDS: u32 = 5;

/// The time that this process has been on a processor.
fn used() -> Duration {
    let told = fs::read_to_string("/proc/self/schedstat").unwrap_or_default();
    Duration::from_nanos(told.split(' ').next().and_then(|word| word.parse().ok()).unwrap_or(0))
}

/// The least time of some rounds that an act takes, each of `count` acts.
fn least(count: u32, mut act: impl FnMut() -> Result<(), rio9::Error>) -> Result<Duration, rio9::Error> {
    let mut found = Duration::MAX;
    for _ in 0..ROUNDS {
        let begin = used();
        for _ in 0..count {
            act()?;
        }
        found = found.min((used() - begin) / count);
    }
    Ok(found)
}

fn main() -> Result<(), Box<dyn Error>> {
    let mut display = Display::open(640, 480, "x8r8g8b8")?;
    let mut client = Client::begin(&mut display)?;
    let root = client.attach(&mut display, "")?;
    let stat = Request::Stat { fid: root }.encode(1)?;
    let exchange = least(20_000, || display.exchange(client.session(), &stat).map(|_| ()))?;
    display.forget()?;
    let whole = Rectangle::new(0, 0, 640, 480);
    let mut buffer = vec![0; 640 * 480 * 4];
    let rows = least(50, || display.rows_into(whole, &mut buffer).map(|_| ()))?;
    let mut other = vec![0; buffer.len()];
    let copy = least(50, || {
        std::hint::black_box(&mut other).copy_from_slice(std::hint::black_box(&buffer));
        Ok(())
    })?;
    println!("exchange of a stat {exchange:?}, rows of 640x480 {rows:?}, a copy of them {copy:?}");
    Ok(())
}
