// The plain loop that the proved cursor is measured against: it reads the same programs and adds up the same rows.
// Build: rustc -O --edition 2021 -C target-cpu=x86-64-v2 bench/plain/lines.rs -o lines. Run: lines FILE, with the bytes of a .debug_line section.
use std::env;
use std::fs;

#[derive(Clone, Copy)]
struct Registers {
    address: u64,
    line: i64,
    file: u64,
    column: u64,
    isa: u64,
    discriminator: u64,
    stmt: bool,
    block: bool,
    prologue: bool,
    epilogue: bool,
}

impl Registers {
    fn start(stmt: bool) -> Self {
        Registers {
            address: 0,
            line: 1,
            file: 1,
            column: 0,
            isa: 0,
            discriminator: 0,
            stmt,
            block: false,
            prologue: false,
            epilogue: false,
        }
    }

    fn clear(&mut self) {
        self.discriminator = 0;
        self.block = false;
        self.prologue = false;
        self.epilogue = false;
    }
}

#[derive(Default)]
struct Sums {
    rows: u64,
    addresses: u64,
    lines: u64,
    others: u64,
}

impl Sums {
    fn add(&mut self, r: &Registers) {
        self.rows += 1;
        self.addresses = self.addresses.wrapping_add(r.address);
        self.lines = self.lines.wrapping_add(r.line as u64);
        let flags = u64::from(r.stmt) + u64::from(r.block) + u64::from(r.prologue) + u64::from(r.epilogue);
        self.others = self
            .others
            .wrapping_add(r.file)
            .wrapping_add(r.column)
            .wrapping_add(r.isa)
            .wrapping_add(r.discriminator)
            .wrapping_add(flags);
    }
}

fn uleb(bytes: &[u8], at: &mut usize) -> Option<u64> {
    let mut value = 0u64;
    let mut shift = 0;
    loop {
        let byte = *bytes.get(*at)?;
        *at += 1;
        if shift < 64 {
            value |= u64::from(byte & 127) << shift;
        }
        if byte < 128 {
            return Some(value);
        }
        shift += 7;
    }
}

fn sleb(bytes: &[u8], at: &mut usize) -> Option<i64> {
    let mut value = 0i64;
    let mut shift = 0;
    loop {
        let byte = *bytes.get(*at)?;
        *at += 1;
        if shift < 64 {
            value |= i64::from(byte & 127) << shift;
        }
        shift += 7;
        if byte < 128 {
            if shift < 64 && byte & 64 != 0 {
                value |= -1 << shift;
            }
            return Some(value);
        }
    }
}

fn u32_at(bytes: &[u8], at: usize) -> Option<usize> {
    Some(u32::from_le_bytes(bytes.get(at..at + 4)?.try_into().ok()?) as usize)
}

fn program(unit: &[u8], sums: &mut Sums) -> Option<()> {
    let min = u64::from(*unit.get(12)?);
    let stmt = *unit.get(14)? != 0;
    let base = i64::from(*unit.get(15)? as i8);
    let range = *unit.get(16)?;
    let opcode_base = *unit.get(17)?;
    let mut at = 12 + u32_at(unit, 8)?;
    let mut r = Registers::start(stmt);
    while at < unit.len() {
        let opcode = unit[at];
        at += 1;
        if opcode >= opcode_base {
            let s = opcode - opcode_base;
            r.address = r.address.wrapping_add(u64::from(s / range) * min);
            r.line += base + i64::from(s % range);
            sums.add(&r);
            r.clear();
            continue;
        }
        match opcode {
            0 => {
                let len = uleb(unit, &mut at)? as usize;
                match *unit.get(at)? {
                    1 => {
                        sums.rows += 1;
                        sums.addresses = sums.addresses.wrapping_add(r.address);
                        r = Registers::start(stmt);
                    }
                    2 => r.address = u64::from_le_bytes(unit.get(at + 1..at + 9)?.try_into().ok()?),
                    4 => {
                        let mut operand = at + 1;
                        r.discriminator = uleb(unit, &mut operand)?;
                    }
                    _ => return None,
                }
                at += len;
            }
            1 => {
                sums.add(&r);
                r.clear();
            }
            2 => r.address = r.address.wrapping_add(uleb(unit, &mut at)?.wrapping_mul(min)),
            3 => r.line += sleb(unit, &mut at)?,
            4 => r.file = uleb(unit, &mut at)?,
            5 => r.column = uleb(unit, &mut at)?,
            6 => r.stmt = !r.stmt,
            7 => r.block = true,
            8 => r.address = r.address.wrapping_add(u64::from((255 - opcode_base) / range) * min),
            9 => {
                let operand = u16::from_le_bytes(unit.get(at..at + 2)?.try_into().ok()?);
                r.address = r.address.wrapping_add(u64::from(operand));
                at += 2;
            }
            10 => r.prologue = true,
            11 => r.epilogue = true,
            12 => r.isa = uleb(unit, &mut at)?,
            _ => return None,
        }
    }
    Some(())
}

fn all(section: &[u8], sums: &mut Sums) -> Option<()> {
    let mut at = 0;
    while at < section.len() {
        let end = at + 4 + u32_at(section, at)?;
        program(section.get(at..end)?, sums)?;
        at = end;
    }
    Some(())
}

fn main() {
    let section = fs::read(env::args().nth(1).expect("a file")).expect("the file's bytes");
    let mut sums = Sums::default();
    all(&section, &mut sums).expect("line programs");
    println!("{} rows, sums {} {} {}", sums.rows, sums.addresses, sums.lines, sums.others);
}
