// The plain reading and writing that the proved operations of expressions are measured against: it draws the same expressions, reads
// each into a list of operations, and writes it with new references.
// Build: rustc -O --edition 2021 -C target-cpu=x86-64-v2 bench/plain/expressions.rs -o expressions. Run: expressions COUNT.
use draws::Draws;
use std::env;

#[path = "shared/draws.rs"]
mod draws;

const DRAWN: u32 = 4096;
const MOST_WITH_BRANCH: usize = 4096;
const DEEPEST: u32 = 8;

#[derive(Clone, Copy)]
pub struct Op {
    pub at: u64,
    pub code: u8,
    pub a: u64,
    pub s: i64,
    pub jump: u32,
    pub bytes: (u64, u64),
    pub inner: u32,
}

#[derive(Clone, Copy)]
enum Kind {
    None,
    Fixed(usize),
    Signed(usize),
    Uleb,
    Sleb,
    TwoUlebs,
    UlebSleb,
    FixedSleb,
    Block,
    EntryValue,
    ConstType,
    UlebReference,
    ByteReference,
}

fn kind_of(code: u8) -> Option<Kind> {
    Some(match code {
        0x06 | 0x12..=0x14 | 0x16..=0x22 | 0x24..=0x27 | 0x29..=0x2e | 0x30..=0x6f => Kind::None,
        0x96 | 0x97 | 0x9b | 0x9c | 0x9f | 0xe0 | 0xf0 => Kind::None,
        0x03 | 0x0e => Kind::Fixed(8),
        0x08 | 0x15 | 0x94 | 0x95 => Kind::Fixed(1),
        0x0a | 0x98 => Kind::Fixed(2),
        0x0c | 0x99 | 0x9a | 0xfa | 0xfd => Kind::Fixed(4),
        0x09 => Kind::Signed(1),
        0x0b | 0x28 | 0x2f => Kind::Signed(2),
        0x0d => Kind::Signed(4),
        0x0f => Kind::Signed(8),
        0x10 | 0x23 | 0x90 | 0x93 | 0xa1 | 0xa2 | 0xa8 | 0xa9 => Kind::Uleb,
        0x11 | 0x70..=0x8f | 0x91 => Kind::Sleb,
        0x92 => Kind::UlebSleb,
        0x9d => Kind::TwoUlebs,
        0x9e => Kind::Block,
        0xa0 => Kind::FixedSleb,
        0xa3 => Kind::EntryValue,
        0xa4 => Kind::ConstType,
        0xa5 => Kind::UlebReference,
        0xa6 | 0xa7 => Kind::ByteReference,
        _ => return None,
    })
}

fn uleb(bytes: &[u8], at: &mut usize) -> Option<u64> {
    let (mut value, mut shift) = (0u64, 0);
    loop {
        let byte = *bytes.get(*at)?;
        *at += 1;
        let digit = u64::from(byte & 0x7f);
        if shift > 63 || (shift == 63 && digit > 1) {
            if digit != 0 {
                return None;
            }
        } else {
            value |= digit << shift;
        }
        if byte < 0x80 {
            return Some(value);
        }
        shift += 7;
    }
}

fn sleb(bytes: &[u8], at: &mut usize) -> Option<i64> {
    let (mut value, mut shift) = (0i64, 0);
    loop {
        let byte = *bytes.get(*at)?;
        *at += 1;
        if shift < 64 {
            value |= i64::from(byte & 0x7f) << shift;
        }
        shift += 7;
        if byte < 0x80 {
            if shift < 64 && byte & 0x40 != 0 {
                value |= -1 << shift;
            }
            return Some(value);
        }
    }
}

fn fixed(bytes: &[u8], at: &mut usize, size: usize) -> Option<u64> {
    let part = bytes.get(*at..*at + size)?;
    *at += size;
    let mut whole = [0; 8];
    whole[..size].copy_from_slice(part);
    Some(u64::from_le_bytes(whole))
}

fn signed(number: u64, size: usize) -> i64 {
    let shift = 64 - 8 * size;
    ((number << shift) as i64) >> shift
}

fn block(bytes: &[u8], at: &mut usize, len: u64) -> Option<(u64, u64)> {
    let from = *at;
    *at = from.checked_add(usize::try_from(len).ok()?)?;
    bytes.get(from..*at)?;
    Some((from as u64, len))
}

// The operations of an expression, of which all but the last bytes stand before `from`.
fn read(bytes: &[u8], from: usize, end: usize, deep: u32, ops: &mut Vec<Op>) -> Option<()> {
    let first = ops.len();
    let all = &bytes[..end];
    let mut starts: Vec<(usize, usize, usize)> = Vec::new();
    let mut branches = false;
    let mut at = from;
    while at < end {
        let start = at;
        let number = ops.len();
        let code = all[at];
        at += 1;
        let mut op = Op { at: start as u64, code, a: 0, s: 0, jump: 0, bytes: (0, 0), inner: 0 };
        match kind_of(code)? {
            Kind::None => {}
            Kind::Fixed(size) => op.a = fixed(all, &mut at, size)?,
            Kind::Signed(size) => op.s = signed(fixed(all, &mut at, size)?, size),
            Kind::Uleb => op.a = uleb(all, &mut at)?,
            Kind::Sleb => op.s = sleb(all, &mut at)?,
            Kind::TwoUlebs => {
                op.a = uleb(all, &mut at)?;
                op.s = uleb(all, &mut at)? as i64;
            }
            Kind::UlebSleb => {
                op.a = uleb(all, &mut at)?;
                op.s = sleb(all, &mut at)?;
            }
            Kind::FixedSleb => {
                op.a = fixed(all, &mut at, 4)?;
                op.s = sleb(all, &mut at)?;
            }
            Kind::Block | Kind::EntryValue => {
                let len = uleb(all, &mut at)?;
                op.bytes = block(all, &mut at, len)?;
            }
            Kind::ConstType => {
                op.a = uleb(all, &mut at)?;
                let len = fixed(all, &mut at, 1)?;
                op.bytes = block(all, &mut at, len)?;
            }
            Kind::UlebReference => {
                op.s = uleb(all, &mut at)? as i64;
                op.a = uleb(all, &mut at)?;
            }
            Kind::ByteReference => {
                op.s = fixed(all, &mut at, 1)? as i64;
                op.a = uleb(all, &mut at)?;
            }
        }
        if code == 0x98 {
            op.code = 0x99;
        }
        branches |= code == 0x28 || code == 0x2f;
        starts.push((start, number - first, at));
        ops.push(op);
        if code == 0xa3 {
            if deep == 0 {
                return None;
            }
            let (held, len) = op.bytes;
            ops[number].bytes = (0, 0);
            read(bytes, held as usize, (held + len) as usize, deep - 1, ops)?;
            ops[number].inner = (ops.len() - number - 1) as u32;
        }
    }
    if branches {
        if end - from > MOST_WITH_BRANCH {
            return None;
        }
        let count = ops.len() - first;
        for &(_, number, behind) in &starts {
            let op = &mut ops[first + number];
            if op.code == 0x28 || op.code == 0x2f {
                let to = behind as i64 + op.s;
                op.s = 0;
                op.jump = if to == end as i64 {
                    count as u32
                } else {
                    let place = usize::try_from(to).ok()?;
                    let i = starts.binary_search_by_key(&place, |start| start.0).ok()?;
                    starts[i].1 as u32
                };
            }
        }
    }
    Some(())
}

fn has_reference(code: u8) -> bool {
    matches!(code, 0xa4..=0xa9 | 0x99 | 0xfa | 0x9a | 0xfd | 0xa0)
}

fn len_u(value: u64) -> usize {
    (64 - (value | 1).leading_zeros() as usize).div_ceil(7)
}

fn len_s(value: i64) -> usize {
    len_u(((if value < 0 { !value } else { value }) as u64) << 1)
}

fn put_u(out: &mut Vec<u8>, mut value: u64) {
    while value > 0x7f {
        out.push(value as u8 | 0x80);
        value >>= 7;
    }
    out.push(value as u8);
}

fn put_s(out: &mut Vec<u8>, mut value: i64) {
    loop {
        let byte = (value & 0x7f) as u8;
        value >>= 7;
        if (value == 0 && byte & 0x40 == 0) || (value == -1 && byte & 0x40 != 0) {
            out.push(byte);
            return;
        }
        out.push(byte | 0x80);
    }
}

fn is_generic(op: &Op) -> bool {
    op.code >= 0xa8 && op.a == 0
}

// A call has two bytes or four.
fn call_size(op: &Op) -> usize {
    if op.a < 65536 { 2 } else { 4 }
}

// The bytes of an operation, without those that it holds, which have so many.
fn own_size(op: &Op, held: usize) -> usize {
    1 + match kind_of(op.code) {
        Some(Kind::None) | None => 0,
        Some(Kind::Fixed(_)) if op.code == 0x99 => call_size(op),
        Some(Kind::Fixed(size)) | Some(Kind::Signed(size)) => size,
        Some(Kind::Uleb) => len_u(op.a),
        Some(Kind::Sleb) => len_s(op.s),
        Some(Kind::TwoUlebs) => len_u(op.a) + len_u(op.s as u64),
        Some(Kind::UlebSleb) => len_u(op.a) + len_s(op.s),
        Some(Kind::FixedSleb) => 4 + len_s(op.s),
        Some(Kind::Block) => len_u(op.bytes.1) + op.bytes.1 as usize,
        Some(Kind::EntryValue) => len_u(held as u64),
        Some(Kind::ConstType) => len_u(op.a) + 1 + op.bytes.1 as usize,
        Some(Kind::UlebReference) => len_u(op.s as u64) + len_u(op.a),
        Some(Kind::ByteReference) => 1 + len_u(op.a),
    }
}

// The sizes of all operations, and what each entry_value holds.
fn sizes_of(ops: &[Op]) -> (Vec<usize>, Vec<usize>) {
    let (mut sizes, mut held) = (vec![0; ops.len()], vec![0; ops.len()]);
    for k in (0..ops.len()).rev() {
        held[k] = sizes[k + 1..k + 1 + ops[k].inner as usize].iter().sum();
        sizes[k] = own_size(&ops[k], held[k]);
    }
    (sizes, held)
}

fn put(out: &mut Vec<u8>, op: &Op, held: usize, bytes: &[u8]) {
    if op.code == 0x99 && call_size(op) == 2 {
        out.push(0x98);
        out.extend_from_slice(&op.a.to_le_bytes()[..2]);
        return;
    }
    out.push(op.code);
    let (from, len) = (op.bytes.0 as usize, op.bytes.1 as usize);
    match kind_of(op.code) {
        Some(Kind::None) | None => {}
        Some(Kind::Fixed(size)) => out.extend_from_slice(&op.a.to_le_bytes()[..size]),
        Some(Kind::Signed(size)) => out.extend_from_slice(&op.s.to_le_bytes()[..size]),
        Some(Kind::Uleb) => put_u(out, op.a),
        Some(Kind::Sleb) => put_s(out, op.s),
        Some(Kind::TwoUlebs) => {
            put_u(out, op.a);
            put_u(out, op.s as u64);
        }
        Some(Kind::UlebSleb) => {
            put_u(out, op.a);
            put_s(out, op.s);
        }
        Some(Kind::FixedSleb) => {
            out.extend_from_slice(&op.a.to_le_bytes()[..4]);
            put_s(out, op.s);
        }
        Some(Kind::Block) => {
            put_u(out, op.bytes.1);
            out.extend_from_slice(&bytes[from..from + len]);
        }
        Some(Kind::EntryValue) => put_u(out, held as u64),
        Some(Kind::ConstType) => {
            put_u(out, op.a);
            out.push(op.bytes.1 as u8);
            out.extend_from_slice(&bytes[from..from + len]);
        }
        Some(Kind::UlebReference) => {
            put_u(out, op.s as u64);
            put_u(out, op.a);
        }
        Some(Kind::ByteReference) => {
            out.push(op.s as u8);
            put_u(out, op.a);
        }
    }
}

fn write(out: &mut Vec<u8>, ops: &[Op], refs: &[u64], bytes: &[u8]) {
    let nested = ops.iter().any(|op| matches!(op.code, 0x28 | 0x2f | 0xa3));
    let mut next = refs.iter();
    let mut renewed = |op: &Op| {
        let mut op = *op;
        if has_reference(op.code) {
            let number = *next.next().unwrap_or(&0);
            if !is_generic(&op) {
                op.a = number;
            }
        }
        op
    };
    if !nested {
        for op in ops {
            let op = renewed(op);
            put(out, &op, 0, bytes);
        }
        return;
    }
    let ops: Vec<Op> = ops.iter().map(renewed).collect();
    let (sizes, held) = sizes_of(&ops);
    let mut places = vec![0i64];
    for size in &sizes {
        places.push(places[places.len() - 1] + *size as i64);
    }
    let mut firsts = vec![0usize; ops.len()];
    for k in 0..ops.len() {
        firsts[k + 1..k + 1 + ops[k].inner as usize].fill(k + 1);
    }
    for (k, op) in ops.iter().enumerate() {
        let mut op = *op;
        if op.code == 0x28 || op.code == 0x2f {
            op.s = places[firsts[k] + op.jump as usize] - places[k + 1];
        }
        put(out, &op, held[k], bytes);
    }
}

fn push_leb(bytes: &mut Vec<u8>, draws: &mut Draws) {
    if draws.below(2) == 0 {
        bytes.push(128 + draws.below(128) as u8);
    }
    bytes.push(1 + draws.below(63) as u8);
}

fn push_operation(bytes: &mut Vec<u8>, draws: &mut Draws) {
    let code = match draws.below(8) {
        0 | 1 => 0x91,
        2 => {
            bytes.push(0x03);
            for _ in 0..8 {
                bytes.push(draws.below(256) as u8);
            }
            return;
        }
        3 => 0x77,
        4 => 0x23,
        5 => 0xa8,
        6 => return bytes.push(0x9f),
        _ => return bytes.push(0x50),
    };
    bytes.push(code);
    push_leb(bytes, draws);
}

fn main() {
    let count: u64 = env::args().nth(1).and_then(|word| word.parse().ok()).expect("usage: expressions COUNT");
    let mut draws = Draws(0);
    let (mut all, mut ends) = (Vec::new(), Vec::new());
    for _ in 0..DRAWN {
        for _ in 0..=draws.below(3) {
            push_operation(&mut all, &mut draws);
        }
        match draws.below(16) {
            0 => all.extend_from_slice(&[0xa3, 1, 0x55]),
            1 => all.extend_from_slice(&[0x2f, 0, 0]),
            _ => {}
        }
        ends.push(all.len());
    }
    let (mut operations, mut written, mut sum) = (0u64, 0u64, 0u64);
    let (mut ops, mut refs, mut out) = (Vec::new(), Vec::new(), Vec::new());
    'turns: loop {
        let mut from = 0;
        for &end in &ends {
            if operations >= count {
                break 'turns;
            }
            let bytes = &all[from..end];
            from = end;
            ops.clear();
            out.clear();
            refs.clear();
            read(bytes, 0, bytes.len(), DEEPEST, &mut ops).expect("no expression");
            for op in &ops {
                if has_reference(op.code) {
                    refs.push(op.a.wrapping_add(operations) % (1 << 32));
                }
            }
            write(&mut out, &ops, &refs, bytes);
            operations += ops.len() as u64;
            written += out.len() as u64;
            for &byte in &out {
                sum = sum.wrapping_mul(31).wrapping_add(u64::from(byte));
            }
        }
    }
    println!("{operations} operations, {written} bytes, sum {sum}");
}
