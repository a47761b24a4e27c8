//! The checksums of crates/line_speed by a plain register loop, for versions 2 to 5 in little endian order with
//! addresses of 8 bytes and one operation an instruction.
//!
//! Arguments: a mode and a file, as there. `rows` adds the rows up. `cached` fills four columns a unit, and looks a
//! thousand addresses up in them. `records` makes one sorted vector of the rows of all units in place of columns, and
//! `lookups` looks a million addresses more up in that. `count` prints how many rows no next one at the same address
//! replaces.

use std::convert::TryInto;

struct Cursor<'a> {
    bytes: &'a [u8],
}

impl<'a> Cursor<'a> {
    fn take(&mut self, len: usize) -> Option<&'a [u8]> {
        if self.bytes.len() < len {
            return None;
        }
        let (front, rest) = self.bytes.split_at(len);
        self.bytes = rest;
        Some(front)
    }

    fn u8(&mut self) -> Option<u8> {
        let (first, rest) = self.bytes.split_first()?;
        self.bytes = rest;
        Some(*first)
    }

    fn u16(&mut self) -> Option<u16> {
        Some(u16::from_le_bytes(self.take(2)?.try_into().ok()?))
    }

    fn u32(&mut self) -> Option<u32> {
        Some(u32::from_le_bytes(self.take(4)?.try_into().ok()?))
    }

    fn u64(&mut self) -> Option<u64> {
        Some(u64::from_le_bytes(self.take(8)?.try_into().ok()?))
    }

    fn uleb128(&mut self) -> Option<u64> {
        let mut number = 0;
        let mut shift = 0;
        loop {
            let byte = self.u8()?;
            number |= u64::from(byte & 0x7f) << shift;
            if byte < 0x80 {
                return Some(number);
            }
            shift += 7;
            if shift > 63 {
                return None;
            }
        }
    }

    fn sleb128(&mut self) -> Option<i64> {
        let mut number = 0i64;
        let mut shift = 0;
        loop {
            let byte = self.u8()?;
            number |= i64::from(byte & 0x7f) << shift;
            shift += 7;
            if byte < 0x80 {
                if shift < 64 && byte & 0x40 != 0 {
                    number |= -1 << shift;
                }
                return Some(number);
            }
            if shift > 63 {
                return None;
            }
        }
    }
}

#[derive(Clone, Copy)]
struct Registers {
    address: u64,
    file: u64,
    line: u64,
    column: u64,
    dropping: bool,
}

const START: Registers = Registers { address: 0, file: 1, line: 1, column: 0, dropping: false };

impl Registers {
    fn advance(&mut self, operations: u64, length: u64) -> Option<()> {
        if !self.dropping {
            self.address = self.address.checked_add(operations.checked_mul(length)?)?;
        }
        Some(())
    }

    fn move_line(&mut self, by: i64) {
        self.line = if by >= 0 {
            self.line.wrapping_add(by as u64)
        } else {
            self.line.saturating_sub(by.unsigned_abs())
        };
    }

}

// What rows go to, one after another.
trait Rows {
    fn take(&mut self, registers: &Registers, end: bool);
}

impl Rows for u64 {
    fn take(&mut self, registers: &Registers, end: bool) {
        let marks = u64::from(end) + 2 * u64::from(registers.dropping);
        let fields = registers
            .address
            .wrapping_add(registers.line.wrapping_mul(3))
            .wrapping_add(registers.column.wrapping_mul(5))
            .wrapping_add(registers.file.wrapping_mul(7))
            .wrapping_add(marks.wrapping_mul(11));
        *self = mixed(*self, fields);
    }
}

fn mixed(sum: u64, number: u64) -> u64 {
    sum.wrapping_mul(31).wrapping_add(number)
}

// The file of an end row.
const END: u64 = u64::MAX;

#[derive(Default)]
struct Columns {
    addresses: Vec<u64>,
    files: Vec<u64>,
    lines: Vec<u32>,
    columns: Vec<u32>,
}

impl Rows for Columns {
    fn take(&mut self, registers: &Registers, end: bool) {
        self.addresses.push(registers.address);
        self.files.push(if end { END } else { registers.file });
        self.lines.push(registers.line as u32);
        self.columns.push(registers.column as u32);
    }
}

struct Record {
    address: u64,
    file: u64,
    line: u32,
    column: u32,
}

impl Rows for Vec<Record> {
    fn take(&mut self, registers: &Registers, end: bool) {
        self.push(Record {
            address: registers.address,
            file: if end { END } else { registers.file },
            line: registers.line as u32,
            column: registers.column as u32,
        });
    }
}

fn program(section: &mut Cursor, rows: &mut impl Rows) -> Option<()> {
    let mut length = u64::from(section.u32()?);
    let wide = length == 0xffff_ffff;
    if wide {
        length = section.u64()?;
    }
    let mut unit = Cursor { bytes: section.take(length as usize)? };
    let version = unit.u16()?;
    if version == 5 {
        unit.take(2)?;
    }
    let header_length = if wide { unit.u64()? } else { u64::from(unit.u32()?) };
    let mut header = Cursor { bytes: unit.take(header_length as usize)? };
    let min_length = u64::from(header.u8()?);
    if version >= 4 && header.u8()? != 1 {
        return None;
    }
    header.u8()?;
    let line_base = i64::from(header.u8()? as i8);
    let line_range = header.u8()?;
    let opcode_base = header.u8()?;
    let lengths = header.take(usize::from(opcode_base) - 1)?;
    let mut registers = START;
    while let Some(code) = unit.u8() {
        if code >= opcode_base {
            let special = code - opcode_base;
            registers.move_line(line_base + i64::from(special % line_range));
            registers.advance(u64::from(special / line_range), min_length)?;
            if !registers.dropping {
                rows.take(&registers, false);
            }
            continue;
        }
        match code {
            0 => {
                let size = unit.uleb128()?;
                let mut text = Cursor { bytes: unit.take(size as usize)? };
                match text.u8()? {
                    1 => {
                        rows.take(&registers, true);
                        registers = START;
                    }
                    2 => {
                        let address = text.u64()?;
                        if address >= u64::MAX - 1 || address < registers.address {
                            registers.dropping = true;
                        } else {
                            registers.address = address;
                            registers.dropping = false;
                        }
                    }
                    _ => {}
                }
            }
            1 => {
                if !registers.dropping {
                    rows.take(&registers, false);
                }
            }
            2 => registers.advance(unit.uleb128()?, min_length)?,
            3 => registers.move_line(unit.sleb128()?),
            4 => registers.file = unit.uleb128()?,
            5 => registers.column = unit.uleb128()?,
            8 => registers.advance(u64::from((255 - opcode_base) / line_range), min_length)?,
            9 => {
                let bytes = u64::from(unit.u16()?);
                registers.advance(bytes, 1)?;
            }
            _ => {
                for _ in 0..lengths[usize::from(code) - 1] {
                    unit.uleb128()?;
                }
            }
        }
    }
    Some(())
}

// Addresses that look like chance, between two.
struct Probes {
    begin: u64,
    span: u64,
    state: u64,
}

impl Iterator for Probes {
    type Item = u64;

    fn next(&mut self) -> Option<u64> {
        self.state = self.state.wrapping_mul(6_364_136_223_846_793_005).wrapping_add(1_442_695_040_888_963_407);
        Some(self.begin.wrapping_add((self.state >> 32).wrapping_mul(self.span) >> 32))
    }
}

// A sum with a row that is no end, where there is one.
fn with_row(sum: u64, file: u64, line: u32, column: u32) -> u64 {
    if file == END {
        return mixed(sum, 0);
    }
    let column = if line == 0 { 0 } else { column };
    mixed(sum, u64::from(line).wrapping_mul(3).wrapping_add(u64::from(column).wrapping_mul(5)).wrapping_add(1))
}

// The sum of the addresses that units cover, and the probes among them. Units stand by address, and have one sequence
// each.
fn covered(units: impl Iterator<Item = (u64, u64)>) -> (u64, Probes) {
    let (mut sum, mut begin, mut end) = (0, u64::MAX, 0);
    for unit in units {
        sum = mixed(mixed(sum, unit.0), unit.1);
        begin = begin.min(unit.0);
        end = end.max(unit.1);
    }
    (sum, Probes { begin, span: end.wrapping_sub(begin), state: 0 })
}

fn cached(mut lines: Cursor) -> u64 {
    let mut units = Vec::new();
    while !lines.bytes.is_empty() {
        let mut unit = Columns::default();
        program(&mut lines, &mut unit).expect("a program that this loop reads");
        units.push(unit);
    }
    let (mut sum, probes) = covered(units.iter().map(|unit| (unit.addresses[0], *unit.addresses.last().unwrap())));
    for probe in probes.take(1_000) {
        let unit = &units[units.partition_point(|unit| unit.addresses[0] <= probe) - 1];
        let place = unit.addresses.partition_point(|address| *address <= probe) - 1;
        sum = with_row(sum, unit.files[place], unit.lines[place], unit.columns[place]);
    }
    sum
}

fn lookups(mut lines: Cursor, count: usize) -> u64 {
    let mut records = Vec::new();
    let mut units = Vec::new();
    while !lines.bytes.is_empty() {
        let first = records.len();
        program(&mut lines, &mut records).expect("a program that this loop reads");
        units.push((records[first].address, records.last().unwrap().address));
    }
    let (mut sum, probes) = covered(units.into_iter());
    for probe in probes.take(count) {
        let record = &records[records.partition_point(|record| record.address <= probe) - 1];
        sum = with_row(sum, record.file, record.line, record.column);
    }
    sum
}

// The number of rows that are no end, and whose next row has another address or is an end.
fn count(mut lines: Cursor) -> usize {
    let mut records = Vec::new();
    while !lines.bytes.is_empty() {
        program(&mut lines, &mut records).expect("a program that this loop reads");
    }
    let is_last = |pair: &&[Record]| pair[0].file != END && (pair[1].file == END || pair[0].address != pair[1].address);
    records.windows(2).filter(is_last).count()
}

// The third of the sections, each after its length in eight bytes.
fn third(bytes: &[u8]) -> Cursor<'_> {
    let mut input = Cursor { bytes };
    for _ in 0..2 {
        let len = input.u64().expect("a length");
        input.take(len as usize).expect("a section");
    }
    let len = input.u64().expect("a length");
    Cursor { bytes: input.take(len as usize).expect("a section") }
}

fn main() {
    let words: Vec<String> = std::env::args().collect();
    let bytes = std::fs::read(&words[2]).expect("the file");
    let sum = match words[1].as_str() {
        "rows" => {
            let mut section = Cursor { bytes: &bytes };
            let mut sum = 0;
            while !section.bytes.is_empty() {
                program(&mut section, &mut sum).expect("a program that this loop reads");
            }
            sum
        }
        "cached" => cached(third(&bytes)),
        "records" => lookups(third(&bytes), 1_000),
        "lookups" => lookups(third(&bytes), 1_001_000),
        "count" => return println!("{}", count(third(&bytes))),
        _ => panic!("no such mode"),
    };
    println!("{sum:016x}");
}
