//! The header's text, printed and read.

use super::losses::Losses;
use super::{refused, Header, CELL, LAYERS};
use crate::model::{Curve, Refusal};

/// Writes into a buffer from the front.
pub struct Text<'a> {
    pub bytes: &'a mut [u8],
    pub length: usize,
}

impl Text<'_> {
    fn put(&mut self, bytes: &[u8]) {
        self.bytes[self.length..self.length + bytes.len()].copy_from_slice(bytes);
        self.length += bytes.len();
    }

    fn number(&mut self, mut number: u64) {
        let mut digits = [0; 20];
        let mut first = digits.len();
        loop {
            first -= 1;
            digits[first] = b'0' + (number % 10) as u8;
            number /= 10;
            if number == 0 {
                break;
            }
        }
        self.put(&digits[first..]);
    }

    fn line(&mut self, key: &[u8], number: u64) {
        self.put(key);
        self.number(number);
        self.put(b"\n");
    }

    fn list(&mut self, key: &[u8], numbers: impl Iterator<Item = u64>) {
        self.put(key);
        for (place, number) in numbers.enumerate() {
            if place > 0 {
                self.put(b",");
            }
            self.number(number);
        }
        self.put(b"\n");
    }
}

/// Prints a header with its losses at the front of the bytes; answers its length.
pub fn print(header: &Header, losses: &Losses, bytes: &mut [u8]) -> usize {
    let mut text = Text { bytes, length: 0 };
    text.line(b"rows=", header.rows as u64);
    text.line(b"cols=", header.cols as u64);
    text.line(b"levels=", header.levels as u64);
    text.put(match header.curve {
        Curve::Linear => b"curve=linear\n" as &[u8],
        Curve::Cubic => b"curve=cubic\n",
    });
    text.line(b"step=", header.step);
    let planes = &header.planes[..header.layers()];
    text.list(b"planes=", planes.iter().copied());
    text.list(b"loss=", losses.told().iter().map(|&loss| loss.into()));
    text.line(b"cells=", header.cells);
    text.length
}

/// A decimal number without sign or leading zero, from `least` to `most`.
fn parse(text: &[u8], least: u64, most: u64) -> Option<u64> {
    if text.is_empty() || text.len() > 1 && text[0] == b'0' {
        return None;
    }
    let mut number = 0u64;
    for &digit in text {
        if !digit.is_ascii_digit() {
            return None;
        }
        number = number * 10 + u64::from(digit - b'0');
        if number > most {
            return None;
        }
    }
    (number >= least).then_some(number)
}

/// Lines taken in turn.
struct Lines<'a> {
    rest: &'a [u8],
    taken: u64,
}

impl<'a> Lines<'a> {
    /// The next line without its key and its end; 5 where it has no end, 6 where it has another key.
    fn next(&mut self, key: &[u8]) -> Result<&'a [u8], Refusal> {
        self.taken += 1;
        let Some(end) = self.rest.iter().position(|&byte| byte == 10) else {
            return refused(5);
        };
        let line = &self.rest[..end];
        self.rest = &self.rest[end + 1..];
        line.strip_prefix(key).ok_or(self.wrong())
    }

    fn number(&mut self, key: &[u8], least: u64, most: u64) -> Result<u64, Refusal> {
        let text = self.next(key)?;
        parse(text, least, most).ok_or(self.wrong())
    }

    fn wrong(&self) -> Refusal {
        Refusal::with(6, self.taken)
    }
}

/// The numbers of a line of losses, for each layer one for each number of missing planes.
fn losses_in(text: &[u8], header: &Header, losses: &mut Losses) -> Option<()> {
    // Where there are no planes there is no number, and not one with nothing in it.
    let mut numbers = text
        .split(|&byte| byte == b',')
        .skip(text.is_empty().into());
    for planes in header.planes {
        for missing in 0..planes {
            let number = parse(numbers.next()?, 0, 1 << missing)?;
            losses.push(number as u32);
        }
    }
    numbers.next().is_none().then_some(())
}

/// Opens a card: its header, the losses that it tells, and the bytes behind it.
pub fn open<'a>(card: &'a [u8], losses: &mut Losses) -> Result<(Header, &'a [u8]), Refusal> {
    let mut lines = Lines {
        rest: card,
        taken: 0,
    };
    let rows = lines.number(b"rows=", 1, 8192)?;
    let cols = lines.number(b"cols=", 1, 8192 / rows)?;
    let levels = lines.number(b"levels=", 0, 6)?;
    let curve = match lines.next(b"curve=")? {
        b"linear" => Curve::Linear,
        b"cubic" => Curve::Cubic,
        _ => return Err(lines.wrong()),
    };
    let step = lines.number(b"step=", 0, 65_535)?;
    let mut header = Header {
        rows: rows as usize,
        cols: cols as usize,
        levels: levels as usize,
        curve,
        step,
        planes: [0; LAYERS],
        cells: 0,
    };
    let counts = lines.next(b"planes=")?;
    let mut layer = 0;
    for count in counts.split(|&byte| byte == b',') {
        if layer == header.layers() {
            return Err(lines.wrong());
        }
        let width = header.width(layer) as u64;
        let most = if width == 0 { 0 } else { 23 };
        let count = parse(count, 0, most).ok_or(lines.wrong())?;
        header.planes[layer] = count;
        header.cells += count * width;
        layer += 1;
    }
    if layer != header.layers() {
        return Err(lines.wrong());
    }
    if lines.rest.starts_with(b"loss=") {
        let text = lines.next(b"loss=")?;
        losses_in(text, &header, losses).ok_or(lines.wrong())?;
    }
    lines.number(b"cells=", header.cells, header.cells)?;
    if lines.rest.len() > header.cells as usize * CELL {
        return refused(7);
    }
    Ok((header, lines.rest))
}
