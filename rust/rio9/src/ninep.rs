//! The messages of 9P2000 (intro(5)), both ways: what a client sends, and the replies.

use std::fmt;

/// No tag: that of a version.
pub const NOTAG: u16 = 0xFFFF;
/// No fid.
pub const NOFID: u32 = 0xFFFF_FFFF;
/// The most bytes of a message.
pub const MAX_MESSAGE: u32 = 65_560;
/// The most names of a walk.
pub const MAX_NAMES: usize = 16;
/// How a file is opened.
pub const READ: u8 = 0;
pub const WRITE: u8 = 1;
pub const READ_WRITE: u8 = 2;

const HEAD: usize = 7;

/// A file's identity: its kind (0x80 for a directory), its version and its path.
#[derive(Clone, Copy, Debug, Default, PartialEq, Eq, Hash)]
pub struct Qid {
    pub kind: u8,
    pub version: u32,
    pub path: u64,
}

impl Qid {
    /// Whether the file is a directory.
    pub fn is_directory(&self) -> bool {
        self.kind & 0x80 != 0
    }
}

/// What a client sends.
#[derive(Clone, Debug, PartialEq, Eq)]
pub enum Request<'a> {
    Version { msize: u32, version: &'a str },
    Auth { afid: u32, uname: &'a str, aname: &'a str },
    Attach { fid: u32, afid: u32, uname: &'a str, aname: &'a str },
    Flush { oldtag: u16 },
    Walk { fid: u32, newfid: u32, names: Vec<&'a str> },
    Open { fid: u32, mode: u8 },
    Create { fid: u32, name: &'a str, perm: u32, mode: u8 },
    Read { fid: u32, offset: u64, count: u32 },
    Write { fid: u32, offset: u64, data: &'a [u8] },
    Clunk { fid: u32 },
    Remove { fid: u32 },
    Stat { fid: u32 },
    Wstat { fid: u32, stat: &'a [u8] },
}

/// What the server answers.
#[derive(Clone, Debug, PartialEq, Eq)]
pub enum Reply<'a> {
    Version { msize: u32, version: &'a str },
    Attach { qid: Qid },
    Error { ename: &'a str },
    Flush,
    Walk { qids: Vec<Qid> },
    Open { qid: Qid, iounit: u32 },
    Read { data: &'a [u8] },
    Write { count: u32 },
    Clunk,
    Stat { stat: &'a [u8] },
}

/// A file's stat (stat(5)), as far as rio9 fills it in.
#[derive(Clone, Debug, PartialEq, Eq)]
pub struct Stat<'a> {
    pub qid: Qid,
    pub mode: u32,
    pub length: u64,
    pub name: &'a str,
    pub uid: &'a str,
    pub gid: &'a str,
    pub muid: &'a str,
}

/// A value that no message spells: a text, or data, is too long, or a walk has more than 16 names.
#[derive(Clone, Copy, Debug, PartialEq, Eq)]
pub struct TooLong;

impl fmt::Display for TooLong {
    fn fmt(&self, f: &mut fmt::Formatter<'_>) -> fmt::Result {
        f.write_str("a text, data or a list is too long for a message")
    }
}

impl std::error::Error for TooLong {}

/// Bytes that spell no such message.
#[derive(Clone, Copy, Debug, PartialEq, Eq)]
pub struct BadMessage;

impl fmt::Display for BadMessage {
    fn fmt(&self, f: &mut fmt::Formatter<'_>) -> fmt::Result {
        f.write_str("the bytes are no 9P message")
    }
}

impl std::error::Error for BadMessage {}

/// What spells fields, the lowest byte of a number first.
struct Writer {
    bytes: Vec<u8>,
    is_too_long: bool,
}

impl Writer {
    fn new(kind: u8, tag: u16) -> Writer {
        let mut writer = Writer { bytes: vec![0; HEAD - 3], is_too_long: false };
        writer.u8(kind).u16(tag);
        writer
    }

    fn u8(&mut self, value: u8) -> &mut Writer {
        self.bytes.push(value);
        self
    }

    fn u16(&mut self, value: u16) -> &mut Writer {
        self.bytes.extend(value.to_le_bytes());
        self
    }

    fn u32(&mut self, value: u32) -> &mut Writer {
        self.bytes.extend(value.to_le_bytes());
        self
    }

    fn u64(&mut self, value: u64) -> &mut Writer {
        self.bytes.extend(value.to_le_bytes());
        self
    }

    fn qid(&mut self, qid: &Qid) -> &mut Writer {
        self.u8(qid.kind).u32(qid.version).u64(qid.path)
    }

    fn text(&mut self, text: &str) -> &mut Writer {
        self.short_data(text.as_bytes())
    }

    // Bytes behind a count of two bytes.
    fn short_data(&mut self, data: &[u8]) -> &mut Writer {
        self.is_too_long |= data.len() > usize::from(u16::MAX);
        self.u16(data.len() as u16);
        self.bytes.extend(data);
        self
    }

    // Bytes behind a count of four bytes.
    fn data(&mut self, data: &[u8]) -> &mut Writer {
        self.u32(data.len() as u32);
        self.bytes.extend(data);
        self
    }

    fn finish(mut self) -> Result<Vec<u8>, TooLong> {
        let size = u32::try_from(self.bytes.len()).map_err(|_| TooLong)?;
        if self.is_too_long || size > MAX_MESSAGE {
            return Err(TooLong);
        }
        self.bytes[..4].copy_from_slice(&size.to_le_bytes());
        Ok(self.bytes)
    }
}

/// What reads fields.
struct Reader<'a> {
    bytes: &'a [u8],
}

impl<'a> Reader<'a> {
    fn take(&mut self, count: usize) -> Result<&'a [u8], BadMessage> {
        if count > self.bytes.len() {
            return Err(BadMessage);
        }
        let (front, rest) = self.bytes.split_at(count);
        self.bytes = rest;
        Ok(front)
    }

    fn array<const N: usize>(&mut self) -> Result<[u8; N], BadMessage> {
        self.take(N)?.try_into().map_err(|_| BadMessage)
    }

    fn u8(&mut self) -> Result<u8, BadMessage> {
        Ok(self.array::<1>()?[0])
    }

    fn u16(&mut self) -> Result<u16, BadMessage> {
        Ok(u16::from_le_bytes(self.array()?))
    }

    fn u32(&mut self) -> Result<u32, BadMessage> {
        Ok(u32::from_le_bytes(self.array()?))
    }

    fn u64(&mut self) -> Result<u64, BadMessage> {
        Ok(u64::from_le_bytes(self.array()?))
    }

    fn qid(&mut self) -> Result<Qid, BadMessage> {
        Ok(Qid { kind: self.u8()?, version: self.u32()?, path: self.u64()? })
    }

    fn short_data(&mut self) -> Result<&'a [u8], BadMessage> {
        let count = self.u16()?;
        self.take(usize::from(count))
    }

    fn data(&mut self) -> Result<&'a [u8], BadMessage> {
        let count = self.u32()?;
        self.take(usize::try_from(count).map_err(|_| BadMessage)?)
    }

    fn text(&mut self) -> Result<&'a str, BadMessage> {
        std::str::from_utf8(self.short_data()?).map_err(|_| BadMessage)
    }

    // As many as a count of two bytes tells, at most 16.
    fn list<T>(&mut self, mut take: impl FnMut(&mut Self) -> Result<T, BadMessage>) -> Result<Vec<T>, BadMessage> {
        let count = usize::from(self.u16()?);
        if count > MAX_NAMES {
            return Err(BadMessage);
        }
        (0..count).map(|_| take(self)).collect()
    }

    // What was read, if nothing is left.
    fn whole<T>(self, found: T) -> Result<T, BadMessage> {
        if self.bytes.is_empty() {
            Ok(found)
        } else {
            Err(BadMessage)
        }
    }
}

// The kind and the tag of a message whose size is that of its bytes, and its body.
fn head(bytes: &[u8]) -> Result<(u8, u16, Reader<'_>), BadMessage> {
    let mut reader = Reader { bytes };
    if usize::try_from(reader.u32()?) != Ok(bytes.len()) {
        return Err(BadMessage);
    }
    Ok((reader.u8()?, reader.u16()?, reader))
}

impl<'a> Request<'a> {
    /// The bytes of the message with a tag.
    pub fn encode(&self, tag: u16) -> Result<Vec<u8>, TooLong> {
        let mut writer = Writer::new(self.kind(), tag);
        match self {
            Request::Version { msize, version } => writer.u32(*msize).text(version),
            Request::Auth { afid, uname, aname } => writer.u32(*afid).text(uname).text(aname),
            Request::Attach { fid, afid, uname, aname } => writer.u32(*fid).u32(*afid).text(uname).text(aname),
            Request::Flush { oldtag } => writer.u16(*oldtag),
            Request::Walk { fid, newfid, names } => {
                if names.len() > MAX_NAMES {
                    return Err(TooLong);
                }
                writer.u32(*fid).u32(*newfid).u16(names.len() as u16);
                names.iter().fold(&mut writer, |writer, name| writer.text(name))
            }
            Request::Open { fid, mode } => writer.u32(*fid).u8(*mode),
            Request::Create { fid, name, perm, mode } => writer.u32(*fid).text(name).u32(*perm).u8(*mode),
            Request::Read { fid, offset, count } => writer.u32(*fid).u64(*offset).u32(*count),
            Request::Write { fid, offset, data } => writer.u32(*fid).u64(*offset).data(data),
            Request::Clunk { fid } | Request::Remove { fid } | Request::Stat { fid } => writer.u32(*fid),
            Request::Wstat { fid, stat } => writer.u32(*fid).short_data(stat),
        };
        writer.finish()
    }

    fn kind(&self) -> u8 {
        match self {
            Request::Version { .. } => 100,
            Request::Auth { .. } => 102,
            Request::Attach { .. } => 104,
            Request::Flush { .. } => 108,
            Request::Walk { .. } => 110,
            Request::Open { .. } => 112,
            Request::Create { .. } => 114,
            Request::Read { .. } => 116,
            Request::Write { .. } => 118,
            Request::Clunk { .. } => 120,
            Request::Remove { .. } => 122,
            Request::Stat { .. } => 124,
            Request::Wstat { .. } => 126,
        }
    }

    /// The tag and the message that bytes spell, all of them.
    pub fn decode(bytes: &'a [u8]) -> Result<(u16, Request<'a>), BadMessage> {
        let (kind, tag, mut r) = head(bytes)?;
        let found = match kind {
            100 => Request::Version { msize: r.u32()?, version: r.text()? },
            102 => Request::Auth { afid: r.u32()?, uname: r.text()?, aname: r.text()? },
            104 => Request::Attach { fid: r.u32()?, afid: r.u32()?, uname: r.text()?, aname: r.text()? },
            108 => Request::Flush { oldtag: r.u16()? },
            110 => Request::Walk { fid: r.u32()?, newfid: r.u32()?, names: r.list(Reader::text)? },
            112 => Request::Open { fid: r.u32()?, mode: r.u8()? },
            114 => Request::Create { fid: r.u32()?, name: r.text()?, perm: r.u32()?, mode: r.u8()? },
            116 => Request::Read { fid: r.u32()?, offset: r.u64()?, count: r.u32()? },
            118 => Request::Write { fid: r.u32()?, offset: r.u64()?, data: r.data()? },
            120 => Request::Clunk { fid: r.u32()? },
            122 => Request::Remove { fid: r.u32()? },
            124 => Request::Stat { fid: r.u32()? },
            126 => Request::Wstat { fid: r.u32()?, stat: r.short_data()? },
            _ => return Err(BadMessage),
        };
        r.whole((tag, found))
    }
}

impl<'a> Reply<'a> {
    /// The bytes of the reply with a tag.
    pub fn encode(&self, tag: u16) -> Result<Vec<u8>, TooLong> {
        let mut writer = Writer::new(self.kind(), tag);
        match self {
            Reply::Version { msize, version } => writer.u32(*msize).text(version),
            Reply::Attach { qid } => writer.qid(qid),
            Reply::Error { ename } => writer.text(ename),
            Reply::Flush | Reply::Clunk => &mut writer,
            Reply::Walk { qids } => {
                if qids.len() > MAX_NAMES {
                    return Err(TooLong);
                }
                writer.u16(qids.len() as u16);
                qids.iter().fold(&mut writer, |writer, qid| writer.qid(qid))
            }
            Reply::Open { qid, iounit } => writer.qid(qid).u32(*iounit),
            Reply::Read { data } => writer.data(data),
            Reply::Write { count } => writer.u32(*count),
            Reply::Stat { stat } => writer.short_data(stat),
        };
        writer.finish()
    }

    fn kind(&self) -> u8 {
        match self {
            Reply::Version { .. } => 101,
            Reply::Attach { .. } => 105,
            Reply::Error { .. } => 107,
            Reply::Flush => 109,
            Reply::Walk { .. } => 111,
            Reply::Open { .. } => 113,
            Reply::Read { .. } => 117,
            Reply::Write { .. } => 119,
            Reply::Clunk => 121,
            Reply::Stat { .. } => 125,
        }
    }

    /// The tag and the reply that bytes spell, all of them.
    pub fn decode(bytes: &'a [u8]) -> Result<(u16, Reply<'a>), BadMessage> {
        let (kind, tag, mut r) = head(bytes)?;
        let found = match kind {
            101 => Reply::Version { msize: r.u32()?, version: r.text()? },
            105 => Reply::Attach { qid: r.qid()? },
            107 => Reply::Error { ename: r.text()? },
            109 => Reply::Flush,
            111 => Reply::Walk { qids: r.list(Reader::qid)? },
            113 => Reply::Open { qid: r.qid()?, iounit: r.u32()? },
            117 => Reply::Read { data: r.data()? },
            119 => Reply::Write { count: r.u32()? },
            121 => Reply::Clunk,
            125 => Reply::Stat { stat: r.short_data()? },
            _ => return Err(BadMessage),
        };
        r.whole((tag, found))
    }
}

/// Replies that stand one behind the other, as a session takes them.
pub fn replies(bytes: &[u8]) -> impl Iterator<Item = Result<(u16, Reply<'_>), BadMessage>> {
    let mut rest = bytes;
    std::iter::from_fn(move || {
        if rest.is_empty() {
            return None;
        }
        let size = rest.first_chunk::<4>().map_or(0, |size| u32::from_le_bytes(*size) as usize);
        if size < HEAD || size > rest.len() {
            rest = &[];
            return Some(Err(BadMessage));
        }
        let (front, behind) = rest.split_at(size);
        rest = behind;
        Some(Reply::decode(front))
    })
}

/// The stats that bytes spell, as those of `Reply::Stat` or those that a directory is read as.
pub fn stats(bytes: &[u8]) -> Result<Vec<Stat<'_>>, BadMessage> {
    let mut reader = Reader { bytes };
    let mut found = Vec::new();
    while !reader.bytes.is_empty() {
        let mut r = Reader { bytes: reader.short_data()? };
        r.take(6)?; // type and dev
        let (qid, mode) = (r.qid()?, r.u32()?);
        r.take(8)?; // atime and mtime
        let (length, name) = (r.u64()?, r.text()?);
        let stat = Stat { qid, mode, length, name, uid: r.text()?, gid: r.text()?, muid: r.text()? };
        found.push(r.whole(stat)?);
    }
    Ok(found)
}
