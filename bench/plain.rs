//! Values and turns in plain Rust, beside which `bench/codec --beside` measures the codecs of dsd.
//!
//! Values are as in dsd (`crates/pv_value`): copies share what is inside, and short texts
//! stand in place. What docs/FORMATS.md refuses is refused, for the same fault at the same place.
//!
//! `plain` reads binary values up to the end of its input and writes the canonical form of each, as
//! `dsd canon` does; where a fault stands it tells that and writes nothing. `plain turns` does the
//! same with turns, of which it makes no values but those that are asserted or said. With `--thread`
//! it does so in a thread with the stack that dsd's has: memory costs more there than in a first
//! thread.

use std::cmp::Ordering;
use std::io::{self, Read, Write};
use std::process::ExitCode;
use std::sync::Arc;
use std::thread::Builder;

// ---- values

/// A value. The elements of sets and the keys of dictionaries ascend, by the order of the kinds and
/// then by what is inside.
#[derive(Clone, PartialEq, Eq, PartialOrd, Ord)]
pub enum Value {
    Bool(bool),
    /// The bits of a double, as `ordered` makes them.
    Double(i64),
    Int(i128),
    Str(Text),
    Bytes(Arc<[u8]>),
    Sym(Text),
    Rec(Arc<Rec>),
    Seq(Arc<Vec<Value>>),
    Set(Arc<Vec<Value>>),
    Dict(Arc<Vec<(Value, Value)>>),
    Emb(Arc<Value>),
}

#[derive(PartialEq, Eq, PartialOrd, Ord)]
pub struct Rec {
    label: Value,
    fields: Vec<Value>,
}

/// Makes a number of a double's bits that orders them by totalOrder of IEEE 754, and bits of that.
fn ordered(bits: i64) -> i64 {
    bits ^ ((bits >> 63) as u64 >> 1) as i64
}

/// The most bytes of a text that stands in place.
const SHORT: usize = 22;

/// A text. A short one stands in place, and copies share a longer one.
#[derive(Clone, PartialEq, Eq)]
pub struct Text(Kept);

#[derive(Clone, PartialEq, Eq)]
enum Kept {
    /// How many bytes there are, and these, with zeros behind them.
    Short(u8, [u8; SHORT]),
    Long(Arc<str>),
}

impl Text {
    fn new(text: &str) -> Text {
        let count = text.len();
        if count > SHORT {
            return Text(Kept::Long(text.into()));
        }
        let mut bytes = [0; SHORT];
        bytes[..count].copy_from_slice(text.as_bytes());
        Text(Kept::Short(count as u8, bytes))
    }

    fn as_bytes(&self) -> &[u8] {
        match &self.0 {
            Kept::Short(count, bytes) => &bytes[..usize::from(*count)],
            Kept::Long(text) => text.as_bytes(),
        }
    }
}

impl Ord for Text {
    fn cmp(&self, other: &Text) -> Ordering {
        self.as_bytes().cmp(other.as_bytes())
    }
}

impl PartialOrd for Text {
    fn partial_cmp(&self, other: &Text) -> Option<Ordering> {
        Some(self.cmp(other))
    }
}

// ---- reading

const FALSE: u8 = 0x80;
const TRUE: u8 = 0x81;
const END: u8 = 0x84;
const EMBEDDED: u8 = 0x86;
const DOUBLE: u8 = 0x87;
const INTEGER: u8 = 0xB0;
const STRING: u8 = 0xB1;
const BYTE_STRING: u8 = 0xB2;
const SYMBOL: u8 = 0xB3;
const RECORD: u8 = 0xB4;
const SEQUENCE: u8 = 0xB5;
const SET: u8 = 0xB6;
const DICTIONARY: u8 = 0xB7;

/// How many levels deep a value that is read may nest.
const LEVELS: u32 = 64;

/// Why bytes are no value, by the names of docs/FORMATS.md.
#[derive(Clone, Copy, Debug)]
pub enum Kind {
    Truncated,
    BadTag,
    LongVarint,
    LongInteger,
    TooWide,
    BadUtf8,
    Duplicate,
    TooDeep,
    BadPacket,
}

/// A fault, and the offset at which it stands.
pub struct Fault(Kind, usize);

/// The value that the bytes begin with, and how many bytes spell it. Bytes may follow.
pub fn read(bytes: &[u8]) -> Result<(Value, usize), Fault> {
    let mut reader = Reader { bytes, at: 0 };
    let value = reader.value(LEVELS)?;
    Ok((value, reader.at))
}

/// Bytes, and how many of them were read.
struct Reader<'a> {
    bytes: &'a [u8],
    at: usize,
}

impl<'a> Reader<'a> {
    fn byte(&mut self) -> Result<u8, Kind> {
        let byte = self.bytes.get(self.at).ok_or(Kind::Truncated)?;
        self.at += 1;
        Ok(*byte)
    }

    fn take(&mut self, count: u64) -> Result<&'a [u8], Kind> {
        let rest = &self.bytes[self.at..];
        let taken = rest.get(..count as usize).ok_or(Kind::Truncated)?;
        self.at += taken.len();
        Ok(taken)
    }

    /// A count in its shortest form. The tenth byte of one holds its last bit.
    fn count(&mut self) -> Result<u64, Kind> {
        let (mut count, mut shift) = (0, 0);
        loop {
            let byte = self.byte()?;
            if (byte == 0 && shift > 0) || (byte != 1 && shift == 63) {
                return Err(Kind::LongVarint);
            }
            count |= u64::from(byte & 127) << shift;
            if byte < 128 {
                return Ok(count);
            }
            shift += 7;
        }
    }

    fn counted(&mut self) -> Result<&'a [u8], Kind> {
        let count = self.count()?;
        self.take(count)
    }

    fn text(&mut self) -> Result<Text, Kind> {
        let text = std::str::from_utf8(self.counted()?).map_err(|_| Kind::BadUtf8)?;
        Ok(Text::new(text))
    }

    fn integer(&mut self) -> Result<i128, Kind> {
        let count = self.count()?;
        if count > 16 {
            return Err(Kind::TooWide);
        }
        let digits = self.take(count)?;
        let sign = match digits {
            [0] | [0, 0..=127, ..] | [255, 128..=255, ..] => return Err(Kind::LongInteger),
            [128..=255, ..] => 255,
            _ => 0,
        };
        let mut bytes = [sign; 16];
        bytes[16 - digits.len()..].copy_from_slice(digits);
        Ok(i128::from_be_bytes(bytes))
    }

    fn double(&mut self) -> Result<i64, Kind> {
        if self.byte()? != 8 {
            return Err(Kind::BadTag);
        }
        let bits = self.take(8)?.try_into().map_err(|_| Kind::Truncated)?;
        Ok(ordered(i64::from_be_bytes(bits)))
    }

    /// A value that nests at most so many levels deep.
    fn value(&mut self, levels: u32) -> Result<Value, Fault> {
        let place = self.at;
        let at_tag = |kind| Fault(kind, place);
        let tag = self.byte().map_err(at_tag)?;
        if tag != EMBEDDED && !(RECORD..=DICTIONARY).contains(&tag) {
            return self.atom(tag).map_err(at_tag);
        }
        if levels == 0 {
            return Err(at_tag(Kind::TooDeep));
        }
        self.compound(tag, place, levels - 1)
    }

    fn atom(&mut self, tag: u8) -> Result<Value, Kind> {
        match tag {
            FALSE | TRUE => Ok(Value::Bool(tag == TRUE)),
            DOUBLE => Ok(Value::Double(self.double()?)),
            INTEGER => Ok(Value::Int(self.integer()?)),
            STRING => Ok(Value::Str(self.text()?)),
            BYTE_STRING => Ok(Value::Bytes(self.counted()?.into())),
            SYMBOL => Ok(Value::Sym(self.text()?)),
            _ => Err(Kind::BadTag),
        }
    }

    /// What stands behind the tag of a compound, in which values nest at most so many levels deep.
    fn compound(&mut self, tag: u8, place: usize, levels: u32) -> Result<Value, Fault> {
        let duplicate = Fault(Kind::Duplicate, place);
        if tag == EMBEDDED {
            return Ok(Value::Emb(Arc::new(self.value(levels)?)));
        }
        if tag == RECORD {
            let label = self.value(levels)?;
            let fields = self.up_to_end(|it| it.value(levels))?;
            return Ok(Value::Rec(Arc::new(Rec { label, fields })));
        }
        if tag == DICTIONARY {
            let entries = self.up_to_end(|it| Ok((it.value(levels)?, it.value(levels)?)))?;
            let entries = ascending(entries, |it| &it.0).ok_or(duplicate)?;
            return Ok(Value::Dict(entries));
        }
        let items = self.up_to_end(|it| it.value(levels))?;
        if tag == SET {
            return Ok(Value::Set(ascending(items, |it| it).ok_or(duplicate)?));
        }
        Ok(Value::Seq(Arc::new(items)))
    }

    /// What stands up to the end, which is passed.
    fn up_to_end<T, E>(&mut self, part: impl Fn(&mut Self) -> Result<T, E>) -> Result<Vec<T>, E> {
        let mut list = Vec::new();
        while self.bytes.get(self.at) != Some(&END) {
            list.push(part(self)?);
        }
        self.at += 1;
        Ok(list)
    }
}

/// The same elements by ascending keys; none where two keys are equal.
fn ascending<T>(mut list: Vec<T>, key: impl Fn(&T) -> &Value) -> Option<Arc<Vec<T>>> {
    let do_ascend = |list: &[T]| list.is_sorted_by(|a, b| key(a) < key(b));
    if !do_ascend(&list) {
        list.sort_unstable_by(|a, b| key(a).cmp(key(b)));
        if !do_ascend(&list) {
            return None;
        }
    }
    Some(Arc::new(list))
}

// ---- writing

/// Appends the canonical form of a value.
pub fn write(out: &mut Vec<u8>, value: &Value) {
    match value {
        Value::Bool(is) => out.push(if *is { TRUE } else { FALSE }),
        Value::Double(number) => {
            out.extend_from_slice(&[DOUBLE, 8]);
            out.extend_from_slice(&ordered(*number).to_be_bytes());
        }
        Value::Int(number) => push_integer(out, *number),
        Value::Str(text) => push_counted(out, STRING, text.as_bytes()),
        Value::Bytes(bytes) => push_counted(out, BYTE_STRING, bytes),
        Value::Sym(text) => push_counted(out, SYMBOL, text.as_bytes()),
        Value::Rec(record) => {
            out.push(RECORD);
            write(out, &record.label);
            push_list(out, &record.fields);
        }
        Value::Seq(items) => {
            out.push(SEQUENCE);
            push_list(out, items);
        }
        Value::Set(items) => push_sorted(out, SET, items.iter().map(|it| (it, None))),
        Value::Dict(entries) => {
            let parts = entries.iter().map(|(key, value)| (key, Some(value)));
            push_sorted(out, DICTIONARY, parts);
        }
        Value::Emb(inside) => {
            out.push(EMBEDDED);
            write(out, inside);
        }
    }
}

fn push_counted(out: &mut Vec<u8>, tag: u8, bytes: &[u8]) {
    out.push(tag);
    let mut count = bytes.len();
    while count >= 128 {
        out.push(count as u8 | 128);
        count >>= 7;
    }
    out.push(count as u8);
    out.extend_from_slice(bytes);
}

/// An integer in the fewest bytes; 0 has none.
fn push_integer(out: &mut Vec<u8>, number: i128) {
    let bits = 128 - (number ^ (number >> 127)).leading_zeros() as usize;
    let count = if number == 0 { 0 } else { bits / 8 + 1 };
    push_counted(out, INTEGER, &number.to_be_bytes()[16 - count..]);
}

fn push_list(out: &mut Vec<u8>, items: &[Value]) {
    for item in items {
        write(out, item);
    }
    out.push(END);
}

/// An element, or a key and its value.
type Part<'a> = (&'a Value, Option<&'a Value>);

/// Where a part begins, where its key ends, and where it ends.
type Place = (usize, usize, usize);

/// Elements in the order of the bytes of their forms, or entries in that of their keys' forms.
fn push_sorted<'a>(out: &mut Vec<u8>, tag: u8, parts: impl Iterator<Item = Part<'a>> + Clone) {
    out.push(tag);
    let start = out.len();
    let (mut last, mut do_rise) = (start..start, true);
    for part in parts.clone() {
        let (begin, behind_key, _) = push_part(out, part);
        do_rise &= begin == start || out[last] < out[begin..behind_key];
        last = begin..behind_key;
    }
    if !do_rise {
        out.truncate(start);
        sort_parts(out, start, parts);
    }
    out.push(END);
}

fn push_part(out: &mut Vec<u8>, (key, value): Part) -> Place {
    let begin = out.len();
    write(out, key);
    let behind_key = out.len();
    value.inspect(|it| write(out, it));
    (begin, behind_key, out.len())
}

/// Appends the parts, and puts them in order.
fn sort_parts<'a>(out: &mut Vec<u8>, start: usize, parts: impl Iterator<Item = Part<'a>>) {
    let mut places: Vec<Place> = parts.map(|it| push_part(out, it)).collect();
    let key_of = |it: &Place| &out[it.0..it.1];
    places.sort_unstable_by(|a, b| key_of(a).cmp(key_of(b)));
    let parts: Vec<&[u8]> = places.iter().map(|it| &out[it.0..it.2]).collect();
    let sorted = parts.concat();
    out[start..].copy_from_slice(&sorted);
}

// ---- turns

/// Events that happen together, each with the number of its object.
pub struct Turn {
    events: Vec<(u64, Event)>,
}

/// An assertion and its handle, the handle of one that is taken back, a message, or the peer that
/// asks for an answer.
pub enum Event {
    Assert(Value, u64),
    Retract(u64),
    Message(Value),
    Sync(Value),
}

/// The turn that the bytes begin with, and how many bytes spell it.
pub fn read_turn(bytes: &[u8]) -> Result<(Turn, usize), Fault> {
    let mut reader = Reader { bytes, at: 0 };
    match reader.turn() {
        Some(turn) => Ok((turn, reader.at)),
        None => read(bytes).and(Err(Fault(Kind::BadPacket, 0))),
    }
}

/// The parts of a turn; none where a fault or something else stands there.
impl Reader<'_> {
    fn turn(&mut self) -> Option<Turn> {
        self.pass(&[SEQUENCE])?;
        let events = self.up_to_end(|reader| reader.event().ok_or(())).ok()?;
        Some(Turn { events })
    }

    fn event(&mut self) -> Option<(u64, Event)> {
        self.pass(&[SEQUENCE])?;
        let oid = self.number()?;
        self.pass(&[RECORD, SYMBOL, 1])?;
        let event = match self.byte().ok()? {
            b'A' => Event::Assert(self.wired()?, self.number()?),
            b'R' => Event::Retract(self.number()?),
            b'M' => Event::Message(self.wired()?),
            b'S' => Event::Sync(self.wired().filter(|it| matches!(it, Value::Emb(_)))?),
            _ => return None,
        };
        self.pass(&[END, END])?;
        Some((oid, event))
    }

    fn pass(&mut self, bytes: &[u8]) -> Option<()> {
        self.bytes[self.at..].starts_with(bytes).then_some(())?;
        self.at += bytes.len();
        Some(())
    }

    /// An oid or a handle.
    fn number(&mut self) -> Option<u64> {
        self.pass(&[INTEGER])?;
        number_of(self.integer().ok()?)
    }

    /// A value whose embedded values are references. Three levels are open around it.
    fn wired(&mut self) -> Option<Value> {
        self.value(LEVELS - 3).ok().filter(is_wired)
    }
}

fn number_of(number: i128) -> Option<u64> {
    i64::try_from(number).ok()?.try_into().ok()
}

fn is_wired(value: &Value) -> bool {
    match value {
        Value::Emb(inside) => matches!(&**inside, Value::Seq(items) if is_reference(items)),
        Value::Rec(record) => is_wired(&record.label) && record.fields.iter().all(is_wired),
        Value::Seq(items) | Value::Set(items) => items.iter().all(is_wired),
        Value::Dict(entries) => entries.iter().all(|it| is_wired(&it.0) && is_wired(&it.1)),
        _ => true,
    }
}

/// `[0 oid]`, or `[1 oid caveat ..]`.
fn is_reference(items: &[Value]) -> bool {
    use Value::Int;
    matches!(items, [Int(0), Int(oid)] | [Int(1), Int(oid), ..] if number_of(*oid).is_some())
}

/// Appends the canonical form of a turn.
pub fn write_turn(out: &mut Vec<u8>, turn: &Turn) {
    out.push(SEQUENCE);
    for (oid, event) in &turn.events {
        out.push(SEQUENCE);
        push_integer(out, i128::from(*oid));
        let (name, value, handle) = match event {
            Event::Assert(value, handle) => (b'A', Some(value), Some(*handle)),
            Event::Retract(handle) => (b'R', None, Some(*handle)),
            Event::Message(body) => (b'M', Some(body), None),
            Event::Sync(peer) => (b'S', Some(peer), None),
        };
        out.extend_from_slice(&[RECORD, SYMBOL, 1, name]);
        value.inspect(|it| write(out, it));
        handle.inspect(|it| push_integer(out, i128::from(*it)));
        out.extend_from_slice(&[END, END]);
    }
    out.push(END);
}

// ---- the program

/// What is written of all that the bytes spell, one behind another.
fn written<T>(
    bytes: &[u8],
    read: impl Fn(&[u8]) -> Result<(T, usize), Fault>,
    write: impl Fn(&mut Vec<u8>, &T),
) -> Result<Vec<u8>, Fault> {
    let (mut out, mut at) = (Vec::new(), 0);
    while at < bytes.len() {
        let (item, count) = read(&bytes[at..]).map_err(|it| Fault(it.0, at + it.1))?;
        write(&mut out, &item);
        at += count;
    }
    Ok(out)
}

/// How many bytes of stack a thread has.
const STACK: usize = 256 << 20;

fn main() -> io::Result<ExitCode> {
    let has = |word: &str| std::env::args().any(|it| it == word);
    let are_turns = has("turns");
    if !has("--thread") {
        return read_and_write(are_turns);
    }
    let work = Builder::new().stack_size(STACK).spawn(move || read_and_write(are_turns))?;
    work.join().unwrap_or(Ok(ExitCode::FAILURE))
}

fn read_and_write(are_turns: bool) -> io::Result<ExitCode> {
    let mut bytes = Vec::new();
    io::stdin().read_to_end(&mut bytes)?;
    let answer = match are_turns {
        true => written(&bytes, read_turn, write_turn),
        false => written(&bytes, read, write),
    };
    match answer {
        Ok(out) => io::stdout().write_all(&out).map(|()| ExitCode::SUCCESS),
        Err(Fault(kind, place)) => {
            eprintln!("plain: {kind:?} at {place}");
            Ok(ExitCode::FAILURE)
        }
    }
}
