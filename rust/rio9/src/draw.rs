//! The messages of the draw device (draw(3)). A write to a connection's `data` has one or more of them.

use crate::ninep::TooLong;
use crate::{Point, Rectangle};

/// How a source is put over a destination (draw(2)).
#[derive(Clone, Copy, Debug, Default, PartialEq, Eq)]
#[repr(u8)]
pub enum Operator {
    Clear = 0,
    DoutS = 1,
    SoutD = 2,
    DxorS = 3,
    DinS = 4,
    D = 5,
    DatopS = 6,
    DoverS = 7,
    SinD = 8,
    SatopD = 9,
    S = 10,
    /// What is meant if no operator is set.
    #[default]
    SoverD = 11,
}

/// The letters of channels, and their numbers in a word.
const KINDS: [(u8, u32); 6] = [(b'r', 0), (b'g', 1), (b'b', 2), (b'k', 3), (b'a', 4), (b'x', 6)];

/// The channels of an image, as a word (image(6)): `x8r8g8b8` is 0x68081828.
#[derive(Clone, Copy, Debug, PartialEq, Eq)]
pub struct Channels(pub u32);

impl Channels {
    /// The channels that a text names: one to four letters of `rgbkax`, each with its number of bits, 1 to 8.
    pub fn from_text(text: &str) -> Option<Channels> {
        let bytes = text.as_bytes();
        if bytes.is_empty() || bytes.len() > 8 || bytes.len() % 2 != 0 {
            return None;
        }
        let channel = |pair: &[u8]| {
            let (_, kind) = KINDS.iter().find(|(letter, _)| *letter == pair[0])?;
            let bits = char::from(pair[1]).to_digit(10).filter(|bits| (1..=8).contains(bits))?;
            Some(kind << 4 | bits)
        };
        bytes.chunks(2).try_fold(0, |word, pair| Some(word << 8 | channel(pair)?)).map(Channels)
    }

    /// The bits of a pixel.
    pub fn depth(self) -> u32 {
        self.0.to_le_bytes().iter().map(|channel| u32::from(channel & 15)).sum()
    }
}

/// A string of characters of a font.
#[derive(Clone, Debug, PartialEq, Eq)]
pub struct Text<'a> {
    pub dst: u32,
    pub src: u32,
    pub font: u32,
    pub at: Point,
    pub clip: Rectangle,
    pub src_at: Point,
    /// The places of the characters in the font.
    pub indices: &'a [u16],
}

/// A draw message. Images, screens and fonts are named by the ids that the connection gave them.
#[derive(Clone, Debug, PartialEq, Eq)]
pub enum Draw<'a> {
    /// `b`: makes an image, or a window on the screen if that is not 0.
    Allocate {
        id: u32,
        screen: u32,
        refresh: u8,
        channels: Channels,
        repl: bool,
        r: Rectangle,
        clip: Rectangle,
        color: u32,
    },
    /// `A`: makes an image a screen.
    AllocateScreen { id: u32, image: u32, fill: u32, public: bool },
    /// `c`: sets repl and the clip rectangle.
    Clip { dst: u32, repl: bool, clip: Rectangle },
    /// `d`: draws.
    Draw { dst: u32, src: u32, mask: u32, r: Rectangle, src_at: Point, mask_at: Point },
    /// `D`: does nothing.
    Debug { on: bool },
    /// `f`: frees an image id.
    Free { id: u32 },
    /// `F`: frees a screen id.
    FreeScreen { id: u32 },
    /// `i`: makes an image a font of so many characters.
    Font { id: u32, characters: u32, ascent: u8 },
    /// `l`: loads a character into a font.
    Load { font: u32, src: u32, index: u16, r: Rectangle, src_at: Point, left: i8, width: u8 },
    /// `N`: ties a name to an image, or unties it.
    Name { id: u32, tie: bool, name: &'a str },
    /// `n`: makes an id for a named image.
    Named { id: u32, name: &'a str },
    /// `o`: moves a window.
    Origin { id: u32, min: Point, screen: Point },
    /// `O`: sets the operator of the next drawing.
    Operator(Operator),
    /// `r`: reads pixels, which a read of `data` gives.
    Read { id: u32, r: Rectangle },
    /// `s`: draws a string.
    String(Text<'a>),
    /// `x`: draws a string on a background.
    StringOn { text: Text<'a>, background: u32, background_at: Point },
    /// `S`: makes an id for a public screen.
    Screen { id: u32, channels: Channels },
    /// `t`: moves windows to the top, or to the bottom.
    Top { top: bool, ids: &'a [u32] },
    /// `v`: shows what was drawn. rio9 always has.
    Flush,
    /// `y`: writes the rows of a rectangle (image(6)).
    Write { id: u32, r: Rectangle, rows: &'a [u8] },
}

/// A message that is being spelled.
struct Spelling<'a> {
    bytes: &'a mut Vec<u8>,
    is_too_long: bool,
}

impl Spelling<'_> {
    fn u8(&mut self, value: u8) -> &mut Self {
        self.bytes.push(value);
        self
    }

    fn u16(&mut self, value: u16) -> &mut Self {
        self.bytes.extend(value.to_le_bytes());
        self
    }

    fn u32(&mut self, value: u32) -> &mut Self {
        self.bytes.extend(value.to_le_bytes());
        self
    }

    fn point(&mut self, point: Point) -> &mut Self {
        self.bytes.extend(point.x.to_le_bytes());
        self.bytes.extend(point.y.to_le_bytes());
        self
    }

    fn rectangle(&mut self, r: Rectangle) -> &mut Self {
        self.point(r.min).point(r.max)
    }

    fn name(&mut self, name: &str) -> &mut Self {
        self.is_too_long |= name.len() > usize::from(u8::MAX);
        self.u8(name.len() as u8);
        self.bytes.extend(name.as_bytes());
        self
    }

    fn count(&mut self, count: usize) -> &mut Self {
        self.is_too_long |= count > usize::from(u16::MAX);
        self.u16(count as u16)
    }

    fn text(&mut self, text: &Text<'_>) -> &mut Self {
        self.u32(text.dst).u32(text.src).u32(text.font).point(text.at).rectangle(text.clip).point(text.src_at);
        self.count(text.indices.len())
    }

    fn indices(&mut self, indices: &[u16]) -> &mut Self {
        self.bytes.extend(indices.iter().flat_map(|index| index.to_le_bytes()));
        self
    }

    fn draw(&mut self, message: &Draw<'_>) -> &mut Self {
        self.u8(message.letter());
        match *message {
            Draw::Allocate { id, screen, refresh, channels, repl, r, clip, color } => {
                self.u32(id).u32(screen).u8(refresh).u32(channels.0).u8(repl.into());
                self.rectangle(r).rectangle(clip).u32(color)
            }
            Draw::AllocateScreen { id, image, fill, public } => self.u32(id).u32(image).u32(fill).u8(public.into()),
            Draw::Clip { dst, repl, clip } => self.u32(dst).u8(repl.into()).rectangle(clip),
            Draw::Draw { dst, src, mask, r, src_at, mask_at } => {
                self.u32(dst).u32(src).u32(mask).rectangle(r).point(src_at).point(mask_at)
            }
            Draw::Debug { on } => self.u8(on.into()),
            Draw::Free { id } | Draw::FreeScreen { id } => self.u32(id),
            Draw::Font { id, characters, ascent } => self.u32(id).u32(characters).u8(ascent),
            Draw::Load { font, src, index, r, src_at, left, width } => {
                self.u32(font).u32(src).u16(index).rectangle(r).point(src_at).u8(left as u8).u8(width)
            }
            Draw::Name { id, tie, name } => self.u32(id).u8(tie.into()).name(name),
            Draw::Named { id, name } => self.u32(id).name(name),
            Draw::Origin { id, min, screen } => self.u32(id).point(min).point(screen),
            Draw::Operator(operator) => self.u8(operator as u8),
            Draw::Read { id, r } => self.u32(id).rectangle(r),
            Draw::String(ref text) => self.text(text).indices(text.indices),
            Draw::StringOn { ref text, background, background_at } => {
                self.text(text).u32(background).point(background_at).indices(text.indices)
            }
            Draw::Screen { id, channels } => self.u32(id).u32(channels.0),
            Draw::Top { top, ids } => {
                self.u8(top.into()).count(ids.len());
                ids.iter().fold(self, |spelling, id| spelling.u32(*id))
            }
            Draw::Flush => self,
            Draw::Write { id, r, rows } => {
                self.u32(id).rectangle(r).bytes.extend(rows);
                self
            }
        }
    }
}

impl Draw<'_> {
    /// The letter of the message.
    pub fn letter(&self) -> u8 {
        match self {
            Draw::Allocate { .. } => b'b',
            Draw::AllocateScreen { .. } => b'A',
            Draw::Clip { .. } => b'c',
            Draw::Draw { .. } => b'd',
            Draw::Debug { .. } => b'D',
            Draw::Free { .. } => b'f',
            Draw::FreeScreen { .. } => b'F',
            Draw::Font { .. } => b'i',
            Draw::Load { .. } => b'l',
            Draw::Name { .. } => b'N',
            Draw::Named { .. } => b'n',
            Draw::Origin { .. } => b'o',
            Draw::Operator(_) => b'O',
            Draw::Read { .. } => b'r',
            Draw::String(_) => b's',
            Draw::StringOn { .. } => b'x',
            Draw::Screen { .. } => b'S',
            Draw::Top { .. } => b't',
            Draw::Flush => b'v',
            Draw::Write { .. } => b'y',
        }
    }

    /// Puts the message behind bytes. Of one that is too long nothing is put.
    pub fn put(&self, bytes: &mut Vec<u8>) -> Result<(), TooLong> {
        let before = bytes.len();
        let mut spelling = Spelling { bytes, is_too_long: false };
        spelling.draw(self);
        if spelling.is_too_long {
            bytes.truncate(before);
            return Err(TooLong);
        }
        Ok(())
    }
}

/// The bytes of messages, one behind the other.
pub fn encode(messages: &[Draw<'_>]) -> Result<Vec<u8>, TooLong> {
    let mut bytes = Vec::new();
    messages.iter().try_for_each(|message| message.put(&mut bytes))?;
    Ok(bytes)
}
