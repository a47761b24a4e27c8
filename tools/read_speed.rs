// The loops of crates/read_speed in plain Rust, for tools/read_speed.
use std::sync::Arc;

enum Error {
    UnexpectedEof,
    BadLeb128,
}

trait Source: Clone {
    fn bytes(&self) -> &[u8];
    fn skip(&mut self, len: usize) -> Result<(), Error>;
    fn split(&mut self, len: usize) -> Result<Self, Error>;

    fn read_u8(&mut self) -> Result<u8, Error> {
        let byte = *self.bytes().first().ok_or(Error::UnexpectedEof)?;
        self.skip(1)?;
        Ok(byte)
    }

    fn read_u32(&mut self) -> Result<u32, Error> {
        let word = *self.bytes().first_chunk().ok_or(Error::UnexpectedEof)?;
        self.skip(4)?;
        Ok(u32::from_le_bytes(word))
    }

    fn read_uleb128(&mut self) -> Result<u64, Error> {
        let mut number = 0;
        let mut shift = 0;
        loop {
            let byte = self.read_u8()?;
            if shift == 63 && byte > 1 {
                return Err(Error::BadLeb128);
            }
            number |= u64::from(byte & 127) << shift;
            if byte < 128 {
                return Ok(number);
            }
            shift += 7;
        }
    }

    fn read_sleb128(&mut self) -> Result<i64, Error> {
        let mut number = 0;
        let mut shift = 0;
        loop {
            let byte = self.read_u8()?;
            if shift == 63 && byte != 0 && byte != 127 {
                return Err(Error::BadLeb128);
            }
            number |= i64::from(byte & 127) << shift;
            shift += 7;
            if byte < 128 {
                if shift < 64 && byte >= 64 {
                    number |= -1 << shift;
                }
                return Ok(number);
            }
        }
    }
}

#[derive(Clone)]
struct Borrowed<'a>(&'a [u8]);

impl Source for Borrowed<'_> {
    fn bytes(&self) -> &[u8] {
        self.0
    }

    fn skip(&mut self, len: usize) -> Result<(), Error> {
        self.0 = self.0.get(len..).ok_or(Error::UnexpectedEof)?;
        Ok(())
    }

    fn split(&mut self, len: usize) -> Result<Self, Error> {
        let (front, rest) = self.0.split_at_checked(len).ok_or(Error::UnexpectedEof)?;
        self.0 = rest;
        Ok(Borrowed(front))
    }
}

#[derive(Clone)]
struct Shared {
    block: Arc<Vec<u8>>,
    start: usize,
    end: usize,
}

impl Source for Shared {
    fn bytes(&self) -> &[u8] {
        &self.block[self.start..self.end]
    }

    fn skip(&mut self, len: usize) -> Result<(), Error> {
        if self.end - self.start < len {
            return Err(Error::UnexpectedEof);
        }
        self.start += len;
        Ok(())
    }

    fn split(&mut self, len: usize) -> Result<Self, Error> {
        let mut front = self.clone();
        self.skip(len)?;
        front.end = self.start;
        Ok(front)
    }
}

// What is left of a section or of a unit.
#[derive(Clone, Copy)]
struct Left<'a>(&'a [u8]);

impl<'a> Left<'a> {
    fn take(&mut self, len: usize) -> Option<&'a [u8]> {
        let (front, rest) = self.0.split_at_checked(len)?;
        self.0 = rest;
        Some(front)
    }

    fn number(&mut self, len: usize) -> Option<u64> {
        let mut bytes = [0; 8];
        bytes[..len].copy_from_slice(self.take(len)?);
        Some(u64::from_le_bytes(bytes))
    }

    fn uleb128(&mut self) -> Option<u64> {
        let mut number = 0;
        let mut shift = 0;
        loop {
            let (&byte, rest) = self.0.split_first()?;
            self.0 = rest;
            if shift == 63 && byte > 1 {
                return None;
            }
            number |= u64::from(byte & 127) << shift;
            if byte < 128 {
                return Some(number);
            }
            shift += 7;
        }
    }

    fn block(&mut self, len: u64) -> Option<()> {
        self.take(usize::try_from(len).ok()?).map(|_| ())
    }
}

struct Abbreviation {
    tag: u64,
    forms: Vec<u64>,
}

// The abbreviations of codes 1, 2, 3 and so on.
fn abbreviations(mut left: Left) -> Option<Vec<Abbreviation>> {
    let mut table = Vec::new();
    loop {
        let code = left.uleb128()?;
        if code == 0 {
            return Some(table);
        }
        if code != table.len() as u64 + 1 {
            return None;
        }
        let tag = left.uleb128()?;
        left.take(1)?;
        let mut forms = Vec::new();
        loop {
            let (name, form) = (left.uleb128()?, left.uleb128()?);
            if (name, form) == (0, 0) {
                break;
            }
            if form == 0x21 {
                left.uleb128()?;
            }
            forms.push(form);
        }
        table.push(Abbreviation { tag, forms });
    }
}

const VARIABLE: u8 = 255;

// The sizes of values by form, in a unit of addresses and offsets of these sizes.
fn sizes(address: u8, offset: u8) -> [u8; 48] {
    let mut sizes = [VARIABLE; 48];
    let fixed = [(0x19, 0), (0x21, 0), (0x0b, 1), (0x0c, 1), (0x11, 1), (0x25, 1), (0x29, 1), (0x05, 2), (0x12, 2), (0x26, 2),
        (0x2a, 2), (0x27, 3), (0x2b, 3), (0x06, 4), (0x13, 4), (0x1c, 4), (0x28, 4), (0x2c, 4), (0x07, 8), (0x14, 8),
        (0x20, 8), (0x24, 8), (0x1e, 16), (0x01, address), (0x0e, offset), (0x10, offset), (0x17, offset), (0x1d, offset),
        (0x1f, offset)];
    for (form, size) in fixed {
        sizes[form as usize] = size;
    }
    sizes
}

fn pass(left: &mut Left, form: u64) -> Option<()> {
    match form {
        0x08 => {
            let len = left.0.iter().position(|byte| *byte == 0)?;
            left.take(len + 1).map(|_| ())
        }
        0x09 | 0x18 => {
            let len = left.uleb128()?;
            left.block(len)
        }
        0x0a => {
            let len = left.number(1)?;
            left.block(len)
        }
        0x03 => {
            let len = left.number(2)?;
            left.block(len)
        }
        0x04 => {
            let len = left.number(4)?;
            left.block(len)
        }
        0x0d | 0x0f | 0x15 | 0x1a | 0x1b | 0x22 | 0x23 => left.uleb128().map(|_| ()),
        _ => None,
    }
}

// The checksum with the offsets and the tags of the entries of a unit that begins at `start`.
fn unit_entries(mut sum: u64, start: Left, mut left: Left, table: &[Abbreviation], sizes: &[u8; 48]) -> Option<u64> {
    while !left.0.is_empty() {
        let offset = (start.0.len() - left.0.len()) as u64;
        let code = left.uleb128()?;
        if code == 0 {
            continue;
        }
        let abbreviation = table.get(code as usize - 1)?;
        sum = mixed(sum, offset ^ abbreviation.tag);
        let mut run = 0;
        for form in &abbreviation.forms {
            match sizes.get(*form as usize) {
                Some(&size) if size != VARIABLE => run += usize::from(size),
                _ => {
                    left.take(run)?;
                    run = 0;
                    pass(&mut left, *form)?;
                }
            }
        }
        left.take(run)?;
    }
    Some(sum)
}

// The checksum of all entries of a file of three sections, each after its length.
fn entries(bytes: &[u8]) -> Option<u64> {
    let mut file = Left(bytes);
    let mut section = || {
        let len = file.number(8)?;
        Some(Left(file.take(usize::try_from(len).ok()?)?))
    };
    let (abbrev, _line, mut info) = (section()?, section()?, section()?);
    let mut sum = 0;
    while !info.0.is_empty() {
        let whole = info;
        let mut offset = 4;
        let mut len = info.number(4)?;
        if len == 0xffff_ffff {
            offset = 8;
            len = info.number(8)?;
        }
        let mut left = Left(info.take(usize::try_from(len).ok()?)?);
        let start = Left(&whole.0[..whole.0.len() - info.0.len()]);
        let version = left.number(2)?;
        let (address, table_offset);
        if version == 5 {
            if left.number(1)? != 1 {
                return None;
            }
            address = left.number(1)?;
            table_offset = left.number(offset)?;
        } else {
            table_offset = left.number(offset)?;
            address = left.number(1)?;
        }
        let table = abbreviations(Left(abbrev.0.get(usize::try_from(table_offset).ok()?..)?))?;
        sum = unit_entries(sum, start, left, &table, &sizes(address as u8, offset as u8))?;
    }
    Some(sum)
}

fn mixed(sum: u64, number: u64) -> u64 {
    sum.rotate_left(1) ^ number
}

fn checksum_of<S: Source>(way: &str, input: &mut S) -> Option<u64> {
    let mut sum = 0;
    match way {
        "u32" => {
            while let Ok(word) = input.read_u32() {
                sum = mixed(sum, u64::from(word));
            }
        }
        "uleb128" => {
            while let Ok(number) = input.read_uleb128() {
                sum = mixed(sum, number);
            }
        }
        "sleb128" => {
            while let Ok(number) = input.read_sleb128() {
                sum = mixed(sum, number as u64);
            }
        }
        "split" => {
            while let Ok(mut part) = input.split(4) {
                if let Ok(byte) = part.read_u8() {
                    sum = mixed(sum, u64::from(byte));
                }
            }
        }
        "duplicate" => loop {
            let mut copy = input.clone();
            if let Ok(byte) = copy.read_u8() {
                sum = mixed(sum, u64::from(byte));
            }
            if input.skip(4).is_err() {
                break;
            }
        },
        _ => return None,
    }
    Some(sum)
}

fn main() {
    let args: Vec<String> = std::env::args().collect();
    let bytes = std::fs::read(&args[2]).unwrap();
    let sum = match args[1].rsplit_once('-') {
        Some(("entries", _)) => entries(&bytes),
        Some((way, "slice")) => checksum_of(way, &mut Borrowed(&bytes)),
        Some((way, "bytes")) => {
            let end = bytes.len();
            checksum_of(way, &mut Shared { block: Arc::new(bytes), start: 0, end })
        }
        _ => Some(0),
    };
    println!("{}", sum.unwrap());
}
