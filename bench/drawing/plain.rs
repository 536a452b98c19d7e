// The yardstick: the same records through plain Rust without proofs, for the few messages that the benchmarks have, with
// windows on the display alone. It keeps whole pixels in vectors, composes pixel by pixel, and writes a reply line for each
// message. Images are x8r8g8b8 or a8r8g8b8, masks full.
use std::collections::HashMap;
use std::io::{Read, Write};

#[derive(Clone, Copy)]
struct Rect {
    min: (i32, i32),
    max: (i32, i32),
}

struct Image {
    r: Rect,
    clipr: Rect,
    repl: bool,
    alpha: bool,
    pixels: Vec<u32>,
}

fn long(bytes: &[u8]) -> u32 {
    u32::from_le_bytes(bytes[..4].try_into().unwrap())
}

fn point(bytes: &[u8]) -> (i32, i32) {
    (long(bytes) as i32, long(&bytes[4..]) as i32)
}

fn rect(bytes: &[u8]) -> Rect {
    Rect { min: point(bytes), max: point(&bytes[8..]) }
}

fn meet(a: Rect, b: Rect) -> Rect {
    Rect {
        min: (a.min.0.max(b.min.0), a.min.1.max(b.min.1)),
        max: (a.max.0.min(b.max.0), a.max.1.min(b.max.1)),
    }
}

fn shifted(r: Rect, by: (i32, i32)) -> Rect {
    Rect {
        min: (r.min.0 + by.0, r.min.1 + by.1),
        max: (r.max.0 + by.0, r.max.1 + by.1),
    }
}

fn mul(a: u32, b: u32) -> u32 {
    let t = a * b + 128;
    (t + (t >> 8)) >> 8
}

fn component(pixel: u32, shift: u32) -> u32 {
    pixel >> shift & 255
}

// Source over target, the source seen through a mask value.
fn over(s: u32, m: u32, d: u32) -> u32 {
    let alpha = 255 - mul(component(s, 24), m);
    let mut out = 0;
    for shift in [0, 8, 16, 24] {
        let sum = mul(component(s, shift), m) + mul(component(d, shift), alpha);
        out |= sum.min(255) << shift;
    }
    out
}

impl Image {
    fn width(&self) -> i32 {
        self.r.max.0 - self.r.min.0
    }

    fn at(&self, x: i32, y: i32) -> u32 {
        let (x, y) = if self.repl {
            let height = self.r.max.1 - self.r.min.1;
            ((x - self.r.min.0).rem_euclid(self.width()), (y - self.r.min.1).rem_euclid(height))
        } else {
            (x - self.r.min.0, y - self.r.min.1)
        };
        let raw = self.pixels[(y * self.width() + x) as usize];
        if self.alpha { raw } else { raw | 0xff00_0000 }
    }

    // The points of the target on which it has pixels, where its point p stands at the corner.
    fn reach(&self, corner: (i32, i32), p: (i32, i32)) -> Rect {
        let by = (corner.0 - p.0, corner.1 - p.1);
        let clipr = shifted(self.clipr, by);
        if self.repl { clipr } else { meet(clipr, shifted(self.r, by)) }
    }
}

fn draw(images: &mut HashMap<u32, Image>, ids: [u32; 3], r: Rect, sp: (i32, i32), mp: (i32, i32)) {
    let [dst, src, mask] = ids.map(|id| &images[&id]);
    let area = meet(meet(r, dst.r), meet(dst.clipr, meet(src.reach(r.min, sp), mask.reach(r.min, mp))));
    let mut new = Vec::new();
    for y in area.min.1..area.max.1 {
        for x in area.min.0..area.max.0 {
            let s = src.at(x - r.min.0 + sp.0, y - r.min.1 + sp.1);
            let m = mask.at(x - r.min.0 + mp.0, y - r.min.1 + mp.1) >> 24;
            new.push(over(s, m, dst.at(x, y)));
        }
    }
    let dst = images.get_mut(&ids[0]).unwrap();
    let width = dst.width();
    let mut next = new.into_iter();
    for y in area.min.1..area.max.1 {
        for x in area.min.0..area.max.0 {
            let at = (y - dst.r.min.1) * width + x - dst.r.min.0;
            let pixel = next.next().unwrap();
            dst.pixels[at as usize] = if dst.alpha { pixel } else { pixel & 0x00ff_ffff };
        }
    }
}

// The images, and the windows of the display, topmost first, each with the corner of its place.
struct Device {
    images: HashMap<u32, Image>,
    windows: Vec<(u32, (i32, i32))>,
    fill: u32,
}

impl Device {
    fn allocate(&mut self, m: &[u8]) {
        let alpha = long(&m[10..]) == 0x4808_1828;
        let (r, clipr) = (rect(&m[15..]), rect(&m[31..]));
        let color = long(&m[47..]);
        let count = (r.max.0 - r.min.0) * (r.max.1 - r.min.1);
        let pixel = color.rotate_right(8) & if alpha { !0 } else { 0x00ff_ffff };
        let id = long(&m[1..]);
        self.images.insert(id, Image { r, clipr, repl: m[14] != 0, alpha, pixels: vec![pixel; count as usize] });
        if long(&m[5..]) != 0 {
            self.windows.insert(0, (id, r.min));
        }
    }

    // What the window leaves shows the fill, which repeats one pixel.
    fn uncover(&mut self, id: u32, corner: (i32, i32)) {
        let pixel = self.images[&self.fill].pixels[0];
        let r = self.images[&id].r;
        let display = self.images.get_mut(&0).unwrap();
        let part = meet(display.r, shifted(r, (corner.0 - r.min.0, corner.1 - r.min.1)));
        let width = display.width();
        for y in part.min.1..part.max.1 {
            for x in part.min.0..part.max.0 {
                display.pixels[(y * width + x) as usize] = pixel;
            }
        }
    }

    fn move_window(&mut self, m: &[u8]) {
        let (id, min, corner) = (long(&m[1..]), point(&m[5..]), point(&m[13..]));
        let at = self.windows.iter().position(|w| w.0 == id).unwrap();
        self.uncover(id, self.windows[at].1);
        self.windows[at].1 = corner;
        let image = self.images.get_mut(&id).unwrap();
        let by = (min.0 - image.r.min.0, min.1 - image.r.min.1);
        image.r = shifted(image.r, by);
        image.clipr = shifted(image.clipr, by);
    }

    fn restack(&mut self, top: bool, id: u32) {
        let at = self.windows.iter().position(|w| w.0 == id).unwrap();
        let window = self.windows.remove(at);
        self.windows.insert(if top { 0 } else { self.windows.len() }, window);
    }

    // The display with its windows, from back to front.
    fn painted(&self) -> Vec<u32> {
        let display = &self.images[&0];
        let mut pixels = display.pixels.clone();
        for (id, corner) in self.windows.iter().rev() {
            let image = &self.images[id];
            let by = (corner.0 - image.r.min.0, corner.1 - image.r.min.1);
            let part = meet(display.r, shifted(image.r, by));
            for y in part.min.1..part.max.1 {
                for x in part.min.0..part.max.0 {
                    pixels[(y * display.width() + x) as usize] = image.at(x - by.0, y - by.1) & 0x00ff_ffff;
                }
            }
        }
        pixels
    }

    fn write(&mut self, mut m: &[u8]) {
        while !m.is_empty() {
            let len = match m[0] {
                b'b' => {
                    self.allocate(m);
                    51
                }
                b'A' => {
                    self.fill = long(&m[9..]);
                    14
                }
                b'd' => {
                    let ids = [long(&m[1..]), long(&m[5..]), long(&m[9..])];
                    draw(&mut self.images, ids, rect(&m[13..]), point(&m[29..]), point(&m[37..]));
                    45
                }
                b'o' => {
                    self.move_window(m);
                    21
                }
                b't' => {
                    self.restack(m[1] != 0, long(&m[4..]));
                    8
                }
                letter => panic!("letter {letter}"),
            };
            m = &m[len..];
        }
    }
}

fn unhex(text: &str) -> Vec<u8> {
    (0..text.len() / 2).map(|i| u8::from_str_radix(&text[2 * i..2 * i + 2], 16).unwrap()).collect()
}

fn main() {
    let mut text = String::new();
    std::io::stdin().read_to_string(&mut text).unwrap();
    let r = Rect { min: (0, 0), max: (640, 480) };
    let display = Image { r, clipr: r, repl: false, alpha: false, pixels: vec![0x77_7777; 640 * 480] };
    let mut device = Device { images: HashMap::from([(0, display)]), windows: Vec::new(), fill: 0 };
    let mut journal = Vec::new();
    let mut out = Vec::new();
    for line in text.lines().filter_map(|line| line.strip_prefix("M 1 ")) {
        let message = unhex(line);
        if message[4] == 118 {
            device.write(&message[23..]);
        }
        writeln!(out, "R 1 0b00000077{:02x}{:02x}{:08x}", message[5], message[6], message.len()).unwrap();
        journal.push(message);
    }
    std::io::stdout().write_all(&out).unwrap();
    let sum: u64 = device.painted().iter().map(|pixel| u64::from(*pixel)).sum();
    eprintln!("{} messages, sum of the display {sum}", journal.len());
}
