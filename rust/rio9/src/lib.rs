//! rio9 inside a program: a display with Plan 9's draw device and window system, spoken to by 9P messages, with no server
//! and no socket.
//!
//! ```
//! use rio9::{ninep, Client, Display};
//!
//! let mut display = Display::open(320, 240, "x8r8g8b8")?;
//! let mut client = Client::begin(&mut display)?;
//! let root = client.attach(&mut display, "")?;
//! let wctl = client.open(&mut display, root, &["wctl"], ninep::WRITE)?;
//! client.write(&mut display, wctl, 0, b"new -r 16 16 176 128")?;
//! let picture = display.screen()?;
//! assert_eq!(picture.len(), 60 + 320 * 240 * 4);
//! # Ok::<(), Box<dyn std::error::Error>>(())
//! ```
//!
//! Neither this crate nor the C library behind it is proved; docs/EMBED.md tells what is, and where a library comes from.
//! [`Display`] is the display, [`ninep`] has the messages of 9P2000 and [`draw`] those of the draw device, as types;
//! [`Client`] is a session that waits for each answer.

mod client;
mod display;
pub mod draw;
mod error;
pub mod ninep;

pub use client::{Client, Failure};
pub use display::{Cell, Display, Effect, Entries, Point, Rectangle, Session, Taken};
pub use error::Error;
