//! A session that sends a message and has its answer at once.

use crate::ninep::{self, BadMessage, Qid, Reply, Request, TooLong, NOFID, NOTAG};
use crate::{Display, Error, Session};
use std::fmt;

const TAG: u16 = 1;
const READ_HEAD: u32 = 11;
const WRITE_HEAD: u32 = 23;

/// Why a client has no answer.
#[derive(Clone, Debug, PartialEq, Eq)]
#[non_exhaustive]
pub enum Failure {
    /// The library did not do it.
    Error(Error),
    /// What is to be sent is too long for a message.
    TooLong,
    /// What came is no reply to what was asked.
    BadReply,
    /// The display refused it, with this text.
    Refused(String),
    /// A walk found so many of its names.
    NotFound(usize),
    /// The message waits for what another session does. It was taken back.
    Waits,
}

impl fmt::Display for Failure {
    fn fmt(&self, f: &mut fmt::Formatter<'_>) -> fmt::Result {
        match self {
            Failure::Error(error) => error.fmt(f),
            Failure::TooLong => TooLong.fmt(f),
            Failure::BadReply => f.write_str("what came is no reply to what was asked"),
            Failure::Refused(text) => f.write_str(text),
            Failure::NotFound(steps) => write!(f, "name {} of the path does not exist", steps + 1),
            Failure::Waits => f.write_str("the message waits for what another session does"),
        }
    }
}

impl std::error::Error for Failure {}

impl From<Error> for Failure {
    fn from(error: Error) -> Failure {
        Failure::Error(error)
    }
}

impl From<TooLong> for Failure {
    fn from(_: TooLong) -> Failure {
        Failure::TooLong
    }
}

impl From<BadMessage> for Failure {
    fn from(_: BadMessage) -> Failure {
        Failure::BadReply
    }
}

/// A session of a display, which sends one message at a time. It does not borrow the display: each call names it, so that
/// several clients can use one.
#[derive(Debug)]
pub struct Client {
    session: Session,
    msize: u32,
    next_fid: u32,
}

impl Client {
    /// Begins a session, and agrees on the version.
    pub fn begin(display: &mut Display) -> Result<Client, Failure> {
        let mut client = Client { session: display.begin()?, msize: ninep::MAX_MESSAGE, next_fid: 0 };
        let asked = Request::Version { msize: ninep::MAX_MESSAGE, version: "9P2000" };
        client.msize = client.tagged(display, NOTAG, &asked, |reply| match reply {
            Reply::Version { msize, version: "9P2000" } => Ok(msize),
            _ => Err(Failure::BadReply),
        })?;
        Ok(client)
    }

    /// The session.
    pub fn session(&self) -> Session {
        self.session
    }

    /// The most bytes of a message.
    pub fn msize(&self) -> u32 {
        self.msize
    }

    /// Sends a message, and gives what is made of its reply. A refusal is a `Failure::Refused`.
    pub fn call<T>(
        &mut self,
        display: &mut Display,
        request: &Request<'_>,
        take: impl FnOnce(Reply<'_>) -> Result<T, Failure>,
    ) -> Result<T, Failure> {
        self.tagged(display, TAG, request, take)
    }

    fn tagged<T>(
        &mut self,
        display: &mut Display,
        tag: u16,
        request: &Request<'_>,
        take: impl FnOnce(Reply<'_>) -> Result<T, Failure>,
    ) -> Result<T, Failure> {
        let (_, taken) = display.exchange(self.session, &request.encode(tag)?)?;
        let bytes = taken.bytes();
        if bytes.is_empty() {
            self.take_back(display, tag)?;
            return Err(Failure::Waits);
        }
        match Reply::decode(bytes)? {
            (got, _) if got != tag => Err(Failure::BadReply),
            (_, Reply::Error { ename }) => Err(Failure::Refused(ename.to_string())),
            (_, reply) => take(reply),
        }
    }

    // Takes a message back that waits.
    fn take_back(&mut self, display: &mut Display, oldtag: u16) -> Result<(), Failure> {
        display.exchange(self.session, &Request::Flush { oldtag }.encode(oldtag.wrapping_add(1))?)?;
        Ok(())
    }

    fn new_fid(&mut self) -> u32 {
        let fid = self.next_fid;
        self.next_fid += 1;
        fid
    }

    /// Attaches to the tree of a name: the device tree's if it is empty, a new window's by `new`. Gives the root's fid.
    pub fn attach(&mut self, display: &mut Display, name: &str) -> Result<u32, Failure> {
        let fid = self.new_fid();
        let asked = Request::Attach { fid, afid: NOFID, uname: "", aname: name };
        self.call(display, &asked, |reply| match reply {
            Reply::Attach { .. } => Ok(fid),
            _ => Err(Failure::BadReply),
        })
    }

    /// Walks from a fid by names, at most 16. Gives the fid of what is there.
    pub fn walk(&mut self, display: &mut Display, fid: u32, names: &[&str]) -> Result<u32, Failure> {
        let newfid = self.new_fid();
        let asked = Request::Walk { fid, newfid, names: names.to_vec() };
        self.call(display, &asked, |reply| match reply {
            Reply::Walk { qids } if qids.len() == names.len() => Ok(newfid),
            Reply::Walk { qids } => Err(Failure::NotFound(qids.len())),
            _ => Err(Failure::BadReply),
        })
    }

    /// Walks from a fid by names, and opens what is there. Gives its fid.
    pub fn open(&mut self, display: &mut Display, fid: u32, names: &[&str], mode: u8) -> Result<u32, Failure> {
        let fid = self.walk(display, fid, names)?;
        let opened: Result<Qid, Failure> = self.call(display, &Request::Open { fid, mode }, |reply| match reply {
            Reply::Open { qid, .. } => Ok(qid),
            _ => Err(Failure::BadReply),
        });
        match opened {
            Ok(_) => Ok(fid),
            Err(failure) => {
                self.clunk(display, fid)?;
                Err(failure)
            }
        }
    }

    /// Reads from a place on: as many bytes as one message gives.
    pub fn read(&mut self, display: &mut Display, fid: u32, offset: u64) -> Result<Vec<u8>, Failure> {
        let count = self.msize.saturating_sub(READ_HEAD);
        self.call(display, &Request::Read { fid, offset, count }, |reply| match reply {
            Reply::Read { data } => Ok(data.to_vec()),
            _ => Err(Failure::BadReply),
        })
    }

    /// Reads all that a file has.
    pub fn read_all(&mut self, display: &mut Display, fid: u32) -> Result<Vec<u8>, Failure> {
        let mut found = Vec::new();
        loop {
            let piece = self.read(display, fid, found.len() as u64)?;
            if piece.is_empty() {
                return Ok(found);
            }
            found.extend(piece);
        }
    }

    /// Writes data at a place, in one message. Gives how many bytes were taken.
    pub fn write(&mut self, display: &mut Display, fid: u32, offset: u64, data: &[u8]) -> Result<u32, Failure> {
        if data.len() > self.msize.saturating_sub(WRITE_HEAD) as usize {
            return Err(Failure::TooLong);
        }
        self.call(display, &Request::Write { fid, offset, data }, |reply| match reply {
            Reply::Write { count } => Ok(count),
            _ => Err(Failure::BadReply),
        })
    }

    /// Gives a fid up.
    pub fn clunk(&mut self, display: &mut Display, fid: u32) -> Result<(), Failure> {
        self.call(display, &Request::Clunk { fid }, |reply| match reply {
            Reply::Clunk => Ok(()),
            _ => Err(Failure::BadReply),
        })
    }

    /// Ends the session: its fids, connections and windows go.
    pub fn end(self, display: &mut Display) -> Result<(), Failure> {
        Ok(display.end(self.session)?)
    }
}
