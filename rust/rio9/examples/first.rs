//! Two messages of a first session, and their replies in hex: those of examples/first.replies.

use rio9::ninep::{Request, NOFID, NOTAG};
use rio9::Display;

fn main() -> Result<(), Box<dyn std::error::Error>> {
    let mut display = Display::open(640, 480, "x8r8g8b8")?;
    let session = display.begin()?;
    let version = Request::Version { msize: 65_560, version: "9P2000" };
    let attach = Request::Attach { fid: 0, afid: NOFID, uname: "u", aname: "" };
    for (tag, message) in [(NOTAG, version), (1, attach)] {
        let (_, taken) = display.exchange(session, &message.encode(tag)?)?;
        let digits: String = taken.bytes().iter().map(|byte| format!("{byte:02x}")).collect();
        println!("R {} {digits}", session.0);
    }
    display.end(session)?;
    Ok(())
}
