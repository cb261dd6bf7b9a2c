// The plain match that the proved reading of values is measured against: it draws the same values and adds them up.
// Build: rustc -O --edition 2021 -C target-cpu=x86-64-v2 bench/plain/values.rs -o values. Run: values COUNT.
use draws::Draws;
use std::env;

#[path = "shared/draws.rs"]
mod draws;

const ATTRIBUTES: u32 = 64;
const TURNS: u64 = 64;

#[derive(Clone, Copy)]
struct Attribute {
    form: u64,
    constant: i64,
}

#[derive(Clone, Copy)]
pub struct Span {
    // Where the bytes begin; what is added up is their length alone.
    #[allow(dead_code)]
    at: usize,
    len: usize,
}

#[derive(Clone, Copy)]
pub enum Value {
    Address(u64),
    AddressIndex(u64),
    Signed(i64),
    Unsigned(u64),
    Wide(Span),
    Flag(bool),
    Block(Span),
    Expression(Span),
    LocalReference(u64),
    SectionReference(u64),
    Signature(u64),
    SupplementaryReference(u64),
    Text(Span),
    StringOffset(u64),
    LineStringOffset(u64),
    SupplementaryString(u64),
    StringIndex(u64),
    Offset(u64),
    LocationIndex(u64),
    RangeIndex(u64),
}

pub struct Read {
    pub value: Value,
    pub end: usize,
}

fn drawn_form(draws: &mut Draws) -> u64 {
    match draws.below(32) {
        0..=3 => 0x0e,
        4..=8 => 0x0b,
        9..=10 => 0x05,
        11 => 0x06,
        12 => 0x0f,
        13 => 0x0d,
        14..=19 => 0x13,
        20 => 0x01,
        21..=23 => 0x18,
        24 => 0x08,
        25..=27 => 0x19,
        28..=29 => 0x17,
        _ => 0x21,
    }
}

fn push_bytes(bytes: &mut Vec<u8>, draws: &mut Draws, count: u32) {
    for _ in 0..count {
        bytes.push(draws.below(256) as u8);
    }
}

fn push_value(bytes: &mut Vec<u8>, draws: &mut Draws, form: u64) {
    match form {
        0x0b => push_bytes(bytes, draws, 1),
        0x05 => push_bytes(bytes, draws, 2),
        0x06 | 0x0e | 0x13 | 0x17 => push_bytes(bytes, draws, 4),
        0x01 => push_bytes(bytes, draws, 8),
        0x0d | 0x0f => {
            for _ in 0..draws.below(3) {
                bytes.push(128 + draws.below(128) as u8);
            }
            bytes.push(draws.below(128) as u8);
        }
        0x08 => {
            for _ in 0..=draws.below(12) {
                bytes.push(b'a' + draws.below(26) as u8);
            }
            bytes.push(0);
        }
        0x18 => {
            let count = 1 + draws.below(6);
            bytes.push(count as u8);
            push_bytes(bytes, draws, count);
        }
        _ => (),
    }
}

fn number<const N: usize>(bytes: &[u8], at: usize) -> Option<(u64, usize)> {
    let mut all = [0; 8];
    all[..N].copy_from_slice(bytes.get(at..at + N)?);
    Some((u64::from_le_bytes(all), at + N))
}

pub fn uleb(bytes: &[u8], mut at: usize) -> Option<(u64, usize)> {
    let mut value = 0u64;
    let mut shift = 0;
    loop {
        let byte = *bytes.get(at)?;
        at += 1;
        if shift < 64 {
            value |= u64::from(byte & 127) << shift;
        }
        if byte < 128 {
            return Some((value, at));
        }
        shift += 7;
    }
}

pub fn sleb(bytes: &[u8], mut at: usize) -> Option<(i64, usize)> {
    let mut value = 0i64;
    let mut shift = 0;
    loop {
        let byte = *bytes.get(at)?;
        at += 1;
        if shift < 64 {
            value |= i64::from(byte & 127) << shift;
        }
        shift += 7;
        if byte < 128 {
            if shift < 64 && byte & 64 != 0 {
                value |= -1 << shift;
            }
            return Some((value, at));
        }
    }
}

// The bytes of a count that ends at a place.
fn counted(bytes: &[u8], (count, at): (u64, usize)) -> Option<(Span, usize)> {
    let end = at.checked_add(usize::try_from(count).ok()?)?;
    let len = bytes.get(at..end)?.len();
    Some((Span { at, len }, end))
}

fn text(bytes: &[u8], at: usize) -> Option<(Span, usize)> {
    let len = bytes.get(at..)?.iter().position(|byte| *byte == 0)?;
    Some((Span { at, len }, at + len + 1))
}

fn made<T>((held, end): (T, usize), value: impl Fn(T) -> Value) -> Option<Read> {
    Some(Read { value: value(held), end })
}

pub fn read_value(bytes: &[u8], at: usize, form: u64, constant: i64) -> Option<Read> {
    match form {
        0x01 => made(number::<8>(bytes, at)?, Value::Address),
        0x03 => made(counted(bytes, number::<2>(bytes, at)?)?, Value::Block),
        0x04 => made(counted(bytes, number::<4>(bytes, at)?)?, Value::Block),
        0x05 => made(number::<2>(bytes, at)?, Value::Unsigned),
        0x06 => made(number::<4>(bytes, at)?, Value::Unsigned),
        0x07 => made(number::<8>(bytes, at)?, Value::Unsigned),
        0x08 => made(text(bytes, at)?, Value::Text),
        0x09 => made(counted(bytes, uleb(bytes, at)?)?, Value::Block),
        0x0a => made(counted(bytes, number::<1>(bytes, at)?)?, Value::Block),
        0x0b => made(number::<1>(bytes, at)?, Value::Unsigned),
        0x0c => made(number::<1>(bytes, at)?, |number| Value::Flag(number != 0)),
        0x0d => made(sleb(bytes, at)?, Value::Signed),
        0x0e => made(number::<4>(bytes, at)?, Value::StringOffset),
        0x0f => made(uleb(bytes, at)?, Value::Unsigned),
        0x10 => made(number::<4>(bytes, at)?, Value::SectionReference),
        0x11 => made(number::<1>(bytes, at)?, Value::LocalReference),
        0x12 => made(number::<2>(bytes, at)?, Value::LocalReference),
        0x13 => made(number::<4>(bytes, at)?, Value::LocalReference),
        0x14 => made(number::<8>(bytes, at)?, Value::LocalReference),
        0x15 => made(uleb(bytes, at)?, Value::LocalReference),
        0x17 => made(number::<4>(bytes, at)?, Value::Offset),
        0x18 => made(counted(bytes, uleb(bytes, at)?)?, Value::Expression),
        0x19 => made((true, at), Value::Flag),
        0x1a => made(uleb(bytes, at)?, Value::StringIndex),
        0x1b => made(uleb(bytes, at)?, Value::AddressIndex),
        0x1c => made(number::<4>(bytes, at)?, Value::SupplementaryReference),
        0x1d => made(number::<4>(bytes, at)?, Value::SupplementaryString),
        0x1e => made(counted(bytes, (16, at))?, Value::Wide),
        0x1f => made(number::<4>(bytes, at)?, Value::LineStringOffset),
        0x20 => made(number::<8>(bytes, at)?, Value::Signature),
        0x21 => made((constant, at), Value::Signed),
        0x22 => made(uleb(bytes, at)?, Value::LocationIndex),
        0x23 => made(uleb(bytes, at)?, Value::RangeIndex),
        0x24 => made(number::<8>(bytes, at)?, Value::SupplementaryReference),
        0x25 => made(number::<1>(bytes, at)?, Value::StringIndex),
        0x26 => made(number::<2>(bytes, at)?, Value::StringIndex),
        0x27 => made(number::<3>(bytes, at)?, Value::StringIndex),
        0x28 => made(number::<4>(bytes, at)?, Value::StringIndex),
        0x29 => made(number::<1>(bytes, at)?, Value::AddressIndex),
        0x2a => made(number::<2>(bytes, at)?, Value::AddressIndex),
        0x2b => made(number::<3>(bytes, at)?, Value::AddressIndex),
        0x2c => made(number::<4>(bytes, at)?, Value::AddressIndex),
        _ => None,
    }
}

pub fn held(value: Value) -> u64 {
    match value {
        Value::Signed(number) => number as u64,
        Value::Flag(is_set) => u64::from(is_set),
        Value::Wide(span) | Value::Block(span) | Value::Expression(span) | Value::Text(span) => span.len as u64,
        Value::Address(number)
        | Value::AddressIndex(number)
        | Value::Unsigned(number)
        | Value::LocalReference(number)
        | Value::SectionReference(number)
        | Value::Signature(number)
        | Value::SupplementaryReference(number)
        | Value::StringOffset(number)
        | Value::LineStringOffset(number)
        | Value::SupplementaryString(number)
        | Value::StringIndex(number)
        | Value::Offset(number)
        | Value::LocationIndex(number)
        | Value::RangeIndex(number) => number,
    }
}

// One turn: where the values end, and their sum with that of the turns before.
fn turn(attributes: &[Attribute], bytes: &[u8], count: u64, mut sum: u64) -> Option<(usize, u64)> {
    let mut at = 0;
    for index in 0..count {
        let attribute = attributes[(index % 64) as usize];
        let read = read_value(bytes, at, attribute.form, attribute.constant)?;
        sum = sum.wrapping_add(held(read.value));
        at = read.end;
    }
    Some((at, sum))
}

fn main() {
    let count: u64 = env::args().nth(1).expect("a count").parse().expect("a number");
    let mut draws = Draws(0);
    let mut attributes = Vec::new();
    for _ in 0..ATTRIBUTES {
        let form = drawn_form(&mut draws);
        attributes.push(Attribute { form, constant: i64::from(draws.below(256)) });
    }
    let mut bytes = Vec::new();
    for index in 0..count {
        push_value(&mut bytes, &mut draws, attributes[(index % 64) as usize].form);
    }
    let (mut read, mut sum) = (0, 0);
    for _ in 0..TURNS {
        let (end, more) = turn(&attributes, &bytes, count, sum).expect("values");
        read += end;
        sum = more;
    }
    println!("{} values, {read} bytes, sum {sum}", count * TURNS);
}
