//! The checksums of crates/function_speed by a plain walk over entries, for versions 4 and 5 in little endian order
//! with addresses of 8 bytes.
//!
//! Arguments: a mode and a file, as there. `nothing` only reads the file. `units` reads abbreviations and root entries.
//! `functions` keeps the functions of all units, cut into segments, and looks up addresses; `details` keeps their names
//! and inlined entries too, and looks these up. `count` prints how many functions, segments, inlined entries and ranges
//! of these there are.

use std::cmp::Reverse;
use std::collections::{BTreeMap, BinaryHeap};
use std::convert::TryInto;

#[derive(Clone, Copy)]
struct Cursor<'a> {
    bytes: &'a [u8],
}

impl<'a> Cursor<'a> {
    fn at(section: &'a [u8], offset: u64) -> Option<Cursor<'a>> {
        Some(Cursor { bytes: section.get(offset as usize..)? })
    }

    #[inline]
    fn skip(&mut self, len: usize) -> Option<()> {
        self.bytes = self.bytes.get(len..)?;
        Some(())
    }

    #[inline]
    fn take(&mut self, len: usize) -> Option<&'a [u8]> {
        if self.bytes.len() < len {
            return None;
        }
        let (front, rest) = self.bytes.split_at(len);
        self.bytes = rest;
        Some(front)
    }

    #[inline]
    fn u8(&mut self) -> Option<u8> {
        let (first, rest) = self.bytes.split_first()?;
        self.bytes = rest;
        Some(*first)
    }

    #[inline]
    fn u16(&mut self) -> Option<u64> {
        Some(u64::from(u16::from_le_bytes(self.take(2)?.try_into().ok()?)))
    }

    #[inline]
    fn u24(&mut self) -> Option<u64> {
        let bytes = self.take(3)?;
        Some(u64::from(u32::from_le_bytes([bytes[0], bytes[1], bytes[2], 0])))
    }

    #[inline]
    fn u32(&mut self) -> Option<u64> {
        Some(u64::from(u32::from_le_bytes(self.take(4)?.try_into().ok()?)))
    }

    #[inline]
    fn u64(&mut self) -> Option<u64> {
        Some(u64::from_le_bytes(self.take(8)?.try_into().ok()?))
    }

    #[inline]
    fn offset(&mut self, wide: bool) -> Option<u64> {
        if wide { self.u64() } else { self.u32() }
    }

    #[inline]
    fn uleb128(&mut self) -> Option<u64> {
        let mut number = 0;
        let mut shift = 0;
        loop {
            let byte = self.u8()?;
            number |= u64::from(byte & 0x7f) << shift;
            if byte < 0x80 {
                return Some(number);
            }
            shift += 7;
            if shift > 63 {
                return None;
            }
        }
    }

    fn sleb128(&mut self) -> Option<i64> {
        let mut number = 0i64;
        let mut shift = 0;
        loop {
            let byte = self.u8()?;
            number |= i64::from(byte & 0x7f) << shift;
            shift += 7;
            if byte < 0x80 {
                if shift < 64 && byte & 0x40 != 0 {
                    number |= -1 << shift;
                }
                return Some(number);
            }
            if shift > 63 {
                return None;
            }
        }
    }

    // The bytes up to a zero byte.
    #[inline]
    fn text(&mut self) -> Option<&'a [u8]> {
        let text = std::ffi::CStr::from_bytes_until_nul(self.bytes).ok()?.to_bytes();
        self.bytes = &self.bytes[text.len() + 1..];
        Some(text)
    }
}

struct Sections<'a> {
    abbrev: &'a [u8],
    addr: &'a [u8],
    info: &'a [u8],
    line_str: &'a [u8],
    ranges: &'a [u8],
    rnglists: &'a [u8],
    str: &'a [u8],
    str_offsets: &'a [u8],
    // Past all code.
    limit: u64,
}

impl<'a> Sections<'a> {
    fn read(bytes: &'a [u8]) -> Option<Sections<'a>> {
        let mut input = Cursor { bytes };
        let mut next = || {
            let len = input.u64()?;
            input.take(len as usize)
        };
        let (abbrev, addr, info, _line) = (next()?, next()?, next()?, next()?);
        let (line_str, ranges, rnglists) = (next()?, next()?, next()?);
        let (str, str_offsets) = (next()?, next()?);
        let limit = input.u64()?;
        Some(Sections { abbrev, addr, info, line_str, ranges, rnglists, str, str_offsets, limit })
    }
}

const SUBPROGRAM: u64 = 0x2e;
const INLINED_SUBROUTINE: u64 = 0x1d;

const NAME: u64 = 0x03;
const LOW_PC: u64 = 0x11;
const HIGH_PC: u64 = 0x12;
const ABSTRACT_ORIGIN: u64 = 0x31;
const SPECIFICATION: u64 = 0x47;
const RANGES: u64 = 0x55;
const CALL_COLUMN: u64 = 0x57;
const CALL_FILE: u64 = 0x58;
const CALL_LINE: u64 = 0x59;
const LINKAGE_NAME: u64 = 0x6e;
const STR_OFFSETS_BASE: u64 = 0x72;
const ADDR_BASE: u64 = 0x73;
const RNGLISTS_BASE: u64 = 0x74;
const MIPS_LINKAGE_NAME: u64 = 0x2007;

// The sizes that values depend on.
#[derive(Clone, Copy)]
struct Encoding {
    version: u64,
    wide: bool,
}

#[derive(Clone, Copy)]
struct Attribute {
    name: u64,
    form: u64,
    constant: i64,
    // The number of bytes of the value, where the form says it.
    size: Option<u8>,
}

// How many bytes a value of a form has.
fn size_of(form: u64, encoding: Encoding) -> Option<u8> {
    let offset = if encoding.wide { 8 } else { 4 };
    Some(match form {
        0x19 | 0x21 => 0,
        0x0b | 0x0c | 0x11 | 0x25 | 0x29 => 1,
        0x05 | 0x12 | 0x26 | 0x2a => 2,
        0x27 | 0x2b => 3,
        0x06 | 0x13 | 0x1c | 0x28 | 0x2c => 4,
        0x01 | 0x07 | 0x14 | 0x20 | 0x24 => 8,
        0x1e => 16,
        0x0e | 0x10 | 0x17 | 0x1d | 0x1f => offset,
        _ => return None,
    })
}

// Bytes of known size, and after them a value of a form whose bytes say how many there are.
struct Step {
    bytes: usize,
    form: u64,
}

struct Abbreviation {
    code: u64,
    tag: u64,
    children: bool,
    // Whether an entry may have addresses.
    ranges: bool,
    attributes: Vec<Attribute>,
    steps: Vec<Step>,
    last: usize,
}

#[derive(Default)]
struct Abbreviations {
    table: Vec<Abbreviation>,
    // The places of those whose code isn't their place, counted from 1.
    displaced: BTreeMap<u64, usize>,
}

impl Abbreviations {
    fn parse(mut input: Cursor, encoding: Encoding) -> Option<Abbreviations> {
        let mut all = Abbreviations::default();
        loop {
            let code = input.uleb128()?;
            if code == 0 {
                return Some(all);
            }
            let tag = input.uleb128()?;
            let children = input.u8()? != 0;
            let (mut attributes, mut steps, mut last) = (Vec::new(), Vec::new(), 0);
            loop {
                let (name, form) = (input.uleb128()?, input.uleb128()?);
                if name == 0 && form == 0 {
                    break;
                }
                let constant = if form == 0x21 { input.sleb128()? } else { 0 };
                let size = size_of(form, encoding);
                match size {
                    Some(size) => last += usize::from(size),
                    None => steps.push(Step { bytes: std::mem::take(&mut last), form }),
                }
                attributes.push(Attribute { name, form, constant, size });
            }
            if code != all.table.len() as u64 + 1 {
                all.displaced.insert(code, all.table.len());
            }
            let ranges = attributes.iter().any(|attribute| matches!(attribute.name, LOW_PC | HIGH_PC | RANGES));
            all.table.push(Abbreviation { code, tag, children, ranges, attributes, steps, last });
        }
    }

    #[inline]
    fn get(&self, code: u64) -> Option<&Abbreviation> {
        match self.table.get(code.wrapping_sub(1) as usize) {
            Some(abbreviation) if abbreviation.code == code => Some(abbreviation),
            _ => self.table.get(*self.displaced.get(&code)?),
        }
    }
}

// A value, as far as this walk asks for it.
#[derive(Clone, Copy)]
enum Value<'a> {
    Address(u64),
    AddressIndex(u64),
    Constant(u64),
    Offset(u64),
    ListIndex(u64),
    UnitReference(u64),
    InfoReference(u64),
    Text(&'a [u8]),
    TextOffset(u64),
    LineTextOffset(u64),
    TextIndex(u64),
    Other,
}

#[inline]
fn value<'a>(input: &mut Cursor<'a>, attribute: &Attribute, encoding: Encoding) -> Option<Value<'a>> {
    Some(match attribute.form {
        0x01 => Value::Address(input.u64()?),
        0x1b => Value::AddressIndex(input.uleb128()?),
        0x29 => Value::AddressIndex(u64::from(input.u8()?)),
        0x2a => Value::AddressIndex(input.u16()?),
        0x2b => Value::AddressIndex(input.u24()?),
        0x2c => Value::AddressIndex(input.u32()?),
        0x0b => Value::Constant(u64::from(input.u8()?)),
        0x05 => Value::Constant(input.u16()?),
        0x06 => Value::Constant(input.u32()?),
        0x07 => Value::Constant(input.u64()?),
        0x0f => Value::Constant(input.uleb128()?),
        0x0d => signed(input.sleb128()?),
        0x21 => signed(attribute.constant),
        0x17 => Value::Offset(input.offset(encoding.wide)?),
        0x23 => Value::ListIndex(input.uleb128()?),
        0x11 => Value::UnitReference(u64::from(input.u8()?)),
        0x12 => Value::UnitReference(input.u16()?),
        0x13 => Value::UnitReference(input.u32()?),
        0x14 => Value::UnitReference(input.u64()?),
        0x15 => Value::UnitReference(input.uleb128()?),
        0x10 => Value::InfoReference(input.offset(encoding.wide)?),
        0x08 => Value::Text(input.text()?),
        0x0e => Value::TextOffset(input.offset(encoding.wide)?),
        0x1f => Value::LineTextOffset(input.offset(encoding.wide)?),
        0x1a => Value::TextIndex(input.uleb128()?),
        0x25 => Value::TextIndex(u64::from(input.u8()?)),
        0x26 => Value::TextIndex(input.u16()?),
        0x27 => Value::TextIndex(input.u24()?),
        0x28 => Value::TextIndex(input.u32()?),
        _ => {
            skip_value(input, attribute)?;
            Value::Other
        }
    })
}

fn signed<'a>(number: i64) -> Value<'a> {
    number.try_into().map_or(Value::Other, Value::Constant)
}

#[inline]
fn skip_value(input: &mut Cursor, attribute: &Attribute) -> Option<()> {
    match attribute.size {
        Some(size) => input.skip(usize::from(size)),
        None => skip_form(input, attribute.form),
    }
}

// Passes over a value whose bytes say how many there are.
#[inline]
fn skip_form(input: &mut Cursor, form: u64) -> Option<()> {
    match form {
        0x08 => input.text().map(|_| ()),
        0x09 | 0x18 => {
            let len = input.uleb128()?;
            input.skip(len as usize)
        }
        0x0a => {
            let len = input.u8()?;
            input.skip(usize::from(len))
        }
        0x03 => {
            let len = input.u16()?;
            input.skip(len as usize)
        }
        0x04 => {
            let len = input.u32()?;
            input.skip(len as usize)
        }
        0x0d | 0x0f | 0x15 | 0x1a | 0x1b | 0x22 | 0x23 => input.uleb128().map(|_| ()),
        _ => None,
    }
}

#[inline]
fn skip_entry(input: &mut Cursor, abbreviation: &Abbreviation) -> Option<()> {
    for step in &abbreviation.steps {
        input.skip(step.bytes)?;
        skip_form(input, step.form)?;
    }
    input.skip(abbreviation.last)
}

struct Unit<'a> {
    encoding: Encoding,
    // Where in the section the unit begins.
    offset: u64,
    // From its length on.
    bytes: &'a [u8],
    header_length: usize,
    abbreviations: Abbreviations,
    low_pc: u64,
    addr_base: u64,
    str_offsets_base: u64,
    rnglists_base: u64,
}

struct File<'a> {
    sections: Sections<'a>,
    units: Vec<Unit<'a>>,
}

fn read_unit<'a>(sections: &Sections<'a>, offset: u64, input: &mut Cursor<'a>) -> Option<Unit<'a>> {
    let whole = input.bytes;
    let mut length = input.u32()?;
    let wide = length == 0xffff_ffff;
    if wide {
        length = input.u64()?;
    }
    input.skip(length as usize)?;
    let bytes = &whole[..whole.len() - input.bytes.len()];
    let mut rest = Cursor { bytes: &bytes[if wide { 12 } else { 4 }..] };
    let version = rest.u16()?;
    let encoding = Encoding { version, wide };
    let abbrev_offset;
    if version == 5 {
        let kind = rest.u8()?;
        let address_size = rest.u8()?;
        abbrev_offset = rest.offset(wide)?;
        match kind {
            1 | 3 if address_size == 8 => {}
            2 if address_size == 8 => rest.skip(if wide { 16 } else { 12 })?,
            _ => return None,
        }
    } else {
        abbrev_offset = rest.offset(wide)?;
        if rest.u8()? != 8 {
            return None;
        }
    }
    let abbreviations = Abbreviations::parse(Cursor::at(sections.abbrev, abbrev_offset)?, encoding)?;
    let header_length = bytes.len() - rest.bytes.len();
    let mut unit = Unit {
        encoding,
        offset,
        bytes,
        header_length,
        abbreviations,
        low_pc: 0,
        addr_base: 0,
        str_offsets_base: 0,
        rnglists_base: 0,
    };
    let code = rest.uleb128()?;
    let mut low_pc = None;
    for attribute in &unit.abbreviations.get(code)?.attributes {
        let value = value(&mut rest, attribute, encoding)?;
        match (attribute.name, value) {
            (LOW_PC, _) => low_pc = Some(value),
            (STR_OFFSETS_BASE, Value::Offset(base)) => unit.str_offsets_base = base,
            (ADDR_BASE, Value::Offset(base)) => unit.addr_base = base,
            (RNGLISTS_BASE, Value::Offset(base)) => unit.rnglists_base = base,
            _ => {}
        }
    }
    if let Some(value) = low_pc {
        unit.low_pc = address(sections, &unit, value)?.unwrap_or(0);
    }
    Some(unit)
}

fn read_file(bytes: &[u8]) -> Option<File<'_>> {
    let sections = Sections::read(bytes)?;
    let mut units = Vec::new();
    let mut input = Cursor { bytes: sections.info };
    while !input.bytes.is_empty() {
        let offset = (sections.info.len() - input.bytes.len()) as u64;
        units.push(read_unit(&sections, offset, &mut input)?);
    }
    Some(File { sections, units })
}

fn indexed_address(sections: &Sections, unit: &Unit, index: u64) -> Option<u64> {
    Cursor::at(sections.addr, unit.addr_base.checked_add(index.checked_mul(8)?)?)?.u64()
}

// The address of a value, none of another value; none outside for a fault.
#[inline]
fn address(sections: &Sections, unit: &Unit, value: Value) -> Option<Option<u64>> {
    match value {
        Value::Address(address) => Some(Some(address)),
        Value::AddressIndex(index) => Some(Some(indexed_address(sections, unit, index)?)),
        _ => Some(None),
    }
}

// The text of a value, where it can be read.
#[inline]
fn text<'a>(sections: &Sections<'a>, unit: &Unit, value: Value<'a>) -> Option<&'a [u8]> {
    let offset = match value {
        Value::Text(text) => return Some(text),
        Value::LineTextOffset(offset) => return Cursor::at(sections.line_str, offset)?.text(),
        Value::TextOffset(offset) => offset,
        Value::TextIndex(index) => {
            let size = if unit.encoding.wide { 8 } else { 4 };
            let place = unit.str_offsets_base.checked_add(index.checked_mul(size)?)?;
            Cursor::at(sections.str_offsets, place)?.offset(unit.encoding.wide)?
        }
        _ => return None,
    };
    Cursor::at(sections.str, offset)?.text()
}

// What attributes say of an entry's addresses.
#[derive(Clone, Copy, Default)]
struct RangeAttributes {
    low_pc: Option<u64>,
    high_pc: Option<u64>,
    size: Option<u64>,
    list: Option<u64>,
}

impl RangeAttributes {
    #[inline]
    fn take(&mut self, file: &File, unit: &Unit, name: u64, value: Value) -> Option<()> {
        match name {
            LOW_PC => self.low_pc = address(&file.sections, unit, value)?.or(self.low_pc),
            HIGH_PC => match value {
                Value::Constant(size) => self.size = Some(size),
                _ => self.high_pc = address(&file.sections, unit, value)?.or(self.high_pc),
            },
            _ => {
                self.list = match value {
                    Value::Offset(offset) => Some(offset),
                    Value::ListIndex(index) => {
                        let size = if unit.encoding.wide { 8 } else { 4 };
                        let place = unit.rnglists_base.checked_add(index.checked_mul(size)?)?;
                        let offset = Cursor::at(file.sections.rnglists, place)?.offset(unit.encoding.wide)?;
                        Some(unit.rnglists_base.checked_add(offset)?)
                    }
                    _ => None,
                }
            }
        }
        Some(())
    }

    // Gives each range to a taker.
    #[inline]
    fn each(&self, file: &File, unit: &Unit, mut take: impl FnMut(u64, u64)) -> Option<()> {
        if let Some(offset) = self.list {
            return if unit.encoding.version == 5 {
                each_of_rnglist(file, unit, offset, take)
            } else {
                each_of_ranges(file, unit, offset, take)
            };
        }
        let Some(low) = self.low_pc else {
            return Some(());
        };
        let end = match (self.high_pc, self.size) {
            (Some(high), _) => high,
            (None, Some(size)) => low.wrapping_add(size),
            (None, None) => return Some(()),
        };
        if low < end {
            take(low, end);
        }
        Some(())
    }
}

// Whether an address stands for code that isn't there.
fn is_tombstone(address: u64) -> bool {
    address >= u64::MAX - 1
}

fn each_of_rnglist(file: &File, unit: &Unit, offset: u64, mut take: impl FnMut(u64, u64)) -> Option<()> {
    let mut input = Cursor::at(file.sections.rnglists, offset)?;
    let mut base = unit.low_pc;
    let indexed = |index| indexed_address(&file.sections, unit, index);
    loop {
        let (begin, end) = match input.u8()? {
            0 => return Some(()),
            1 => {
                base = indexed(input.uleb128()?)?;
                continue;
            }
            2 => (indexed(input.uleb128()?)?, indexed(input.uleb128()?)?),
            3 => {
                let begin = indexed(input.uleb128()?)?;
                (begin, begin.wrapping_add(input.uleb128()?))
            }
            4 => {
                let (begin, end) = (input.uleb128()?, input.uleb128()?);
                if is_tombstone(base) {
                    continue;
                }
                (base.wrapping_add(begin), base.wrapping_add(end))
            }
            5 => {
                base = input.u64()?;
                continue;
            }
            6 => (input.u64()?, input.u64()?),
            7 => {
                let begin = input.u64()?;
                (begin, begin.wrapping_add(input.uleb128()?))
            }
            _ => return None,
        };
        if begin < end && !is_tombstone(begin) {
            take(begin, end);
        }
    }
}

fn each_of_ranges(file: &File, unit: &Unit, offset: u64, mut take: impl FnMut(u64, u64)) -> Option<()> {
    let mut input = Cursor::at(file.sections.ranges, offset)?;
    let mut base = unit.low_pc;
    loop {
        let (begin, end) = (input.u64()?, input.u64()?);
        if begin == 0 && end == 0 {
            return Some(());
        }
        if begin == u64::MAX {
            base = end;
        } else if !is_tombstone(base) {
            let (begin, end) = (base.wrapping_add(begin), base.wrapping_add(end));
            if begin < end && !is_tombstone(begin) {
                take(begin, end);
            }
        }
    }
}

// A range of a function, or a piece of one.
#[derive(Clone, Copy)]
struct Segment {
    begin: u64,
    end: u64,
    function: usize,
}

// The functions of a unit.
struct Functions<'a> {
    // Where their entries begin.
    offsets: Vec<usize>,
    // Disjoint and sorted; where ranges overlap, the shortest counts.
    segments: Vec<Segment>,
    details: Vec<Detail<'a>>,
    inlined: Vec<Inlined<'a>>,
    ranges: Vec<InlinedRange>,
}

// The details of a function.
struct Detail<'a> {
    name: Option<&'a [u8]>,
    first_range: usize,
    last_range: usize,
}

struct Inlined<'a> {
    offset: usize,
    name: Option<&'a [u8]>,
    call_file: Option<u64>,
    call_line: u32,
    call_column: u32,
}

struct InlinedRange {
    depth: usize,
    begin: u64,
    end: u64,
    inlined: usize,
}

// Ranges sorted by begin, cut so that of those that overlap the shortest counts.
fn cut(ranges: &[Segment]) -> Vec<Segment> {
    let mut segments = Vec::with_capacity(ranges.len());
    let mut running = BinaryHeap::new();
    let mut at = 0;
    let mut close = |running: &mut BinaryHeap<Reverse<(u64, usize, u64)>>, at: &mut u64, limit: u64, last: bool| {
        while let Some(&Reverse((_, function, end))) = running.peek() {
            let until = end.min(limit);
            if *at < until {
                segments.push(Segment { begin: *at, end: until, function });
                *at = until;
            }
            if end > limit && !last {
                return;
            }
            running.pop();
        }
    };
    for range in ranges {
        close(&mut running, &mut at, range.begin, false);
        at = at.max(range.begin);
        running.push(Reverse((range.end - range.begin, range.function, range.end)));
    }
    close(&mut running, &mut at, u64::MAX, true);
    segments
}

fn read_functions<'a>(file: &File<'a>, unit: &Unit<'a>) -> Option<Functions<'a>> {
    let mut offsets = Vec::new();
    let mut ranges = Vec::new();
    let mut input = Cursor { bytes: &unit.bytes[unit.header_length..] };
    while !input.bytes.is_empty() {
        let offset = unit.bytes.len() - input.bytes.len();
        let code = input.uleb128()?;
        if code == 0 {
            continue;
        }
        let abbreviation = unit.abbreviations.get(code)?;
        if abbreviation.tag != SUBPROGRAM || !abbreviation.ranges {
            skip_entry(&mut input, abbreviation)?;
            continue;
        }
        let mut found = RangeAttributes::default();
        for attribute in &abbreviation.attributes {
            if let LOW_PC | HIGH_PC | RANGES = attribute.name {
                let value = value(&mut input, attribute, unit.encoding)?;
                found.take(file, unit, attribute.name, value)?;
            } else {
                skip_value(&mut input, attribute)?;
            }
        }
        let (before, function) = (ranges.len(), offsets.len());
        found.each(file, unit, |begin, end| ranges.push(Segment { begin, end, function }))?;
        if ranges.len() > before {
            offsets.push(offset);
        }
    }
    ranges.sort_unstable_by_key(|range| range.begin);
    Some(Functions { offsets, segments: cut(&ranges), details: Vec::new(), inlined: Vec::new(), ranges: Vec::new() })
}

// What attributes say of a name.
#[derive(Clone, Copy, Default)]
struct Named<'a> {
    linkage_name: Option<&'a [u8]>,
    name: Option<&'a [u8]>,
    origin: Option<Value<'a>>,
}

impl<'a> Named<'a> {
    #[inline]
    fn take(&mut self, file: &File<'a>, unit: &Unit<'a>, name: u64, value: Value<'a>) {
        match name {
            LINKAGE_NAME | MIPS_LINKAGE_NAME => self.linkage_name = text(&file.sections, unit, value),
            NAME => self.name = text(&file.sections, unit, value),
            _ => self.origin = Some(value),
        }
    }

    // The name, and by up to 16 entries that are referred to.
    #[inline]
    fn find(self, file: &File<'a>, unit: &Unit<'a>) -> Option<Option<&'a [u8]>> {
        let mut named = self;
        let mut unit = unit;
        for _ in 0..16 {
            if let Some(name) = named.linkage_name.or(named.name) {
                return Some(Some(name));
            }
            let Some(origin) = named.origin else {
                return Some(None);
            };
            (unit, named) = visit(file, unit, origin)?;
        }
        Some(named.linkage_name.or(named.name))
    }
}

fn visit<'f, 'a>(file: &'f File<'a>, unit: &'f Unit<'a>, origin: Value<'a>) -> Option<(&'f Unit<'a>, Named<'a>)> {
    let (unit, offset) = match origin {
        Value::UnitReference(offset) => (unit, offset),
        Value::InfoReference(offset) => {
            let unit = &file.units[file.units.partition_point(|unit| unit.offset <= offset).checked_sub(1)?];
            (unit, offset - unit.offset)
        }
        _ => return Some((unit, Named::default())),
    };
    let mut input = Cursor::at(unit.bytes, offset)?;
    let code = input.uleb128()?;
    let abbreviation = unit.abbreviations.get(code)?;
    let mut named = Named::default();
    for attribute in &abbreviation.attributes {
        if let NAME | LINKAGE_NAME | MIPS_LINKAGE_NAME | ABSTRACT_ORIGIN | SPECIFICATION = attribute.name {
            let value = value(&mut input, attribute, unit.encoding)?;
            named.take(file, unit, attribute.name, value);
            if named.linkage_name.is_some() {
                break;
            }
        } else {
            skip_value(&mut input, attribute)?;
        }
    }
    Some((unit, named))
}

fn low_bits(value: Value) -> u32 {
    match value {
        Value::Constant(number) => number as u32,
        _ => 0,
    }
}

fn read_inlined<'a>(
    file: &File<'a>,
    unit: &Unit<'a>,
    functions: &mut Functions<'a>,
    input: &mut Cursor<'a>,
    abbreviation: &Abbreviation,
    offset: usize,
    depth: usize,
) -> Option<()> {
    let (mut ranges, mut named) = (RangeAttributes::default(), Named::default());
    let (mut call_file, mut call_line, mut call_column) = (None, 0, 0);
    for attribute in &abbreviation.attributes {
        match attribute.name {
            LOW_PC | HIGH_PC | RANGES => {
                let value = value(input, attribute, unit.encoding)?;
                ranges.take(file, unit, attribute.name, value)?;
            }
            NAME | LINKAGE_NAME | MIPS_LINKAGE_NAME | ABSTRACT_ORIGIN | SPECIFICATION => {
                let value = value(input, attribute, unit.encoding)?;
                named.take(file, unit, attribute.name, value);
            }
            CALL_FILE => {
                if let Value::Constant(index) = value(input, attribute, unit.encoding)? {
                    if index > 0 || unit.encoding.version == 5 {
                        call_file = Some(index);
                    }
                }
            }
            CALL_LINE => call_line = low_bits(value(input, attribute, unit.encoding)?),
            CALL_COLUMN => call_column = low_bits(value(input, attribute, unit.encoding)?),
            _ => skip_value(input, attribute)?,
        }
    }
    let name = named.find(file, unit)?;
    let (before, inlined) = (functions.ranges.len(), functions.inlined.len());
    let all = &mut functions.ranges;
    ranges.each(file, unit, |begin, end| all.push(InlinedRange { depth, begin, end, inlined }))?;
    if all.len() > before {
        functions.inlined.push(Inlined { offset, name, call_file, call_line, call_column });
    }
    Some(())
}

fn read_detail<'a>(
    file: &File<'a>,
    unit: &Unit<'a>,
    functions: &mut Functions<'a>,
    offset: usize,
    open: &mut Vec<u64>,
) -> Option<()> {
    let mut input = Cursor { bytes: &unit.bytes[offset..] };
    let code = input.uleb128()?;
    let abbreviation = unit.abbreviations.get(code)?;
    let mut named = Named::default();
    for attribute in &abbreviation.attributes {
        if let NAME | LINKAGE_NAME | MIPS_LINKAGE_NAME | ABSTRACT_ORIGIN | SPECIFICATION = attribute.name {
            let value = value(&mut input, attribute, unit.encoding)?;
            named.take(file, unit, attribute.name, value);
        } else {
            skip_value(&mut input, attribute)?;
        }
    }
    let name = named.find(file, unit)?;
    let first_range = functions.ranges.len();
    let (mut inlined, mut subprograms) = (0, 0);
    open.clear();
    if abbreviation.children {
        open.push(0);
    }
    while !open.is_empty() {
        let offset = unit.bytes.len() - input.bytes.len();
        let code = input.uleb128()?;
        if code == 0 {
            match open.pop() {
                Some(INLINED_SUBROUTINE) => inlined -= 1,
                Some(SUBPROGRAM) => subprograms -= 1,
                _ => {}
            }
            continue;
        }
        let abbreviation = unit.abbreviations.get(code)?;
        if abbreviation.tag == INLINED_SUBROUTINE && subprograms == 0 {
            read_inlined(file, unit, functions, &mut input, abbreviation, offset, inlined)?;
        } else {
            skip_entry(&mut input, abbreviation)?;
        }
        if abbreviation.children {
            open.push(abbreviation.tag);
            match abbreviation.tag {
                INLINED_SUBROUTINE => inlined += 1,
                SUBPROGRAM => subprograms += 1,
                _ => {}
            }
        }
    }
    functions.ranges[first_range..].sort_unstable_by_key(|range| (range.depth, range.begin, range.end, range.inlined));
    functions.details.push(Detail { name, first_range, last_range: functions.ranges.len() });
    Some(())
}

fn mixed(sum: u64, number: u64) -> u64 {
    sum.wrapping_mul(31).wrapping_add(number)
}

fn name_length(name: Option<&[u8]>) -> u64 {
    name.map_or(0, |name| name.len() as u64 + 1)
}

// How many addresses are looked up in the functions of a unit.
const LOOKUPS: usize = 512;

// Addresses below a limit that look like chance.
fn probes(limit: u64) -> impl Iterator<Item = u64> {
    let mut state = 0u64;
    (0..LOOKUPS).map(move |_| {
        state = state.wrapping_mul(6_364_136_223_846_793_005).wrapping_add(1_442_695_040_888_963_407);
        (state >> 32).wrapping_mul(limit) >> 32
    })
}

impl Functions<'_> {
    // The function with the shortest range that holds an address.
    fn find(&self, probe: u64) -> Option<usize> {
        let past = self.segments.partition_point(|segment| segment.begin <= probe);
        let segment = &self.segments[past.checked_sub(1)?];
        (probe < segment.end).then_some(segment.function)
    }

    // The inlined entry of a depth whose range begins last at or below an address, of these the one that ends last, of
    // these the last one, where it holds the address.
    fn find_inlined(&self, detail: &Detail, depth: usize, probe: u64) -> Option<usize> {
        let ranges = &self.ranges[detail.first_range..detail.last_range];
        let past = ranges.partition_point(|range| (range.depth, range.begin) <= (depth, probe));
        let range = &ranges[past.checked_sub(1)?];
        (range.depth == depth && probe < range.end).then_some(range.inlined)
    }

    fn add_functions(&self, sum: u64, limit: u64) -> u64 {
        let sum = self.offsets.iter().fold(sum, |sum, offset| mixed(sum, *offset as u64));
        probes(limit).fold(sum, |sum, probe| mixed(sum, self.find(probe).map_or(0, |place| place as u64 + 1)))
    }

    fn add_inlined(&self, sum: u64) -> u64 {
        self.inlined.iter().fold(sum, |sum, inlined| {
            let fields = u64::from(inlined.call_line)
                .wrapping_mul(3)
                .wrapping_add(u64::from(inlined.call_column).wrapping_mul(5))
                .wrapping_add(inlined.call_file.unwrap_or(0).wrapping_mul(7))
                .wrapping_add((inlined.offset as u64).wrapping_mul(11))
                .wrapping_add(name_length(inlined.name).wrapping_mul(13));
            mixed(sum, fields)
        })
    }

    fn add_chain(&self, sum: u64, probe: u64) -> u64 {
        let Some(place) = self.find(probe) else {
            return sum;
        };
        let detail = &self.details[place];
        let chain: Vec<usize> = (0..).map_while(|depth| self.find_inlined(detail, depth, probe)).collect();
        let last = chain.last().map_or(0, |inlined| self.inlined[*inlined].offset as u64);
        mixed(mixed(sum, chain.len() as u64), last)
    }

    fn add_details(&self, sum: u64, limit: u64) -> u64 {
        let sum = self.details.iter().fold(sum, |sum, detail| mixed(sum, name_length(detail.name)));
        probes(limit).fold(self.add_inlined(sum), |sum, probe| self.add_chain(sum, probe))
    }
}

fn all_functions<'a>(file: &File<'a>, details: bool) -> Option<(u64, Vec<Functions<'a>>)> {
    let mut all = Vec::new();
    let mut open = Vec::new();
    let mut sum = 0;
    let limit = file.sections.limit;
    for unit in &file.units {
        let mut functions = read_functions(file, unit)?;
        sum = functions.add_functions(sum, limit);
        if details {
            for function in 0..functions.offsets.len() {
                let offset = functions.offsets[function];
                read_detail(file, unit, &mut functions, offset, &mut open)?;
            }
            sum = functions.add_details(sum, limit);
        }
        all.push(functions);
    }
    Some((sum, all))
}

fn told(mode: &str, bytes: &[u8]) -> Option<String> {
    if mode == "nothing" {
        return Some(format!("{:016x}", 0));
    }
    let file = read_file(bytes)?;
    let sum = match mode {
        "units" => file.units.len() as u64,
        "functions" => all_functions(&file, false)?.0,
        "details" => all_functions(&file, true)?.0,
        "count" => {
            let all = all_functions(&file, true)?.1;
            let total = |count: fn(&Functions) -> usize| all.iter().map(count).sum::<usize>();
            return Some(format!(
                "{} {} {} {}",
                total(|unit| unit.offsets.len()),
                total(|unit| unit.segments.len()),
                total(|unit| unit.inlined.len()),
                total(|unit| unit.ranges.len())
            ));
        }
        _ => return None,
    };
    Some(format!("{sum:016x}"))
}

fn main() {
    let words: Vec<String> = std::env::args().collect();
    let bytes = std::fs::read(&words[2]).expect("the file");
    println!("{}", told(&words[1], &bytes).expect("a mode, and a file that this walk reads"));
}
