// The plain reader that the proved reading of units is measured against: it keeps the same of each entry and adds it up.
// Build: rustc -O --edition 2021 -C target-cpu=x86-64-v2 bench/plain/entries.rs -o entries. Run: entries FILE, where FILE has
// the bytes of .debug_info and FILE.abbrev those of the table of all units.
use std::collections::HashMap;
use std::{env, fs};
use values::{held, read_value, sleb, uleb, Value};

#[allow(dead_code)]
#[path = "values.rs"]
mod values;

struct Column {
    form: u64,
    constant: i64,
}

struct Declaration {
    children: bool,
    columns: Vec<Column>,
}

struct Table {
    declarations: Vec<Declaration>,
    codes: Vec<u64>,
    others: HashMap<u64, u32>,
}

impl Table {
    fn by_code(&self, code: u64) -> Option<u32> {
        if code > 0 && self.codes.get(code as usize - 1) == Some(&code) {
            return Some(code as u32 - 1);
        }
        self.others.get(&code).copied()
    }
}

fn read_table(bytes: &[u8]) -> Option<Table> {
    let mut table = Table { declarations: Vec::new(), codes: Vec::new(), others: HashMap::new() };
    let mut at = 0;
    loop {
        let (code, next) = uleb(bytes, at)?;
        if code == 0 {
            return Some(table);
        }
        let (_, next) = uleb(bytes, next)?;
        let children = *bytes.get(next)? == 1;
        at = next + 1;
        let mut columns = Vec::new();
        loop {
            let (name, next) = uleb(bytes, at)?;
            let (form, next) = uleb(bytes, next)?;
            at = next;
            if name == 0 {
                break;
            }
            let mut constant = 0;
            if form == 0x21 {
                (constant, at) = sleb(bytes, at)?;
            }
            columns.push(Column { form, constant });
        }
        table.others.insert(code, table.declarations.len() as u32);
        table.codes.push(code);
        table.declarations.push(Declaration { children, columns });
    }
}

#[allow(dead_code)]
struct Entry {
    at: u64,
    len: u64,
    depth: u32,
    declaration: u32,
    first: u32,
    count: u32,
}

struct ChainEnd {
    entry: u32,
    at: u64,
}

#[derive(Default)]
struct Forest {
    entries: Vec<Entry>,
    values: Vec<Value>,
    ends: Vec<ChainEnd>,
}

// The entries of a unit, read up to its end.
fn read_entries(unit: &[u8], table: &Table) -> Option<Forest> {
    let mut forest = Forest::default();
    let mut chains: Vec<u32> = Vec::new();
    let mut at = 12;
    loop {
        let (code, mut next) = uleb(unit, at)?;
        if code == 0 {
            forest.ends.push(ChainEnd { entry: chains.pop()?, at: at as u64 });
        } else {
            let declaration = table.by_code(code)?;
            let first = forest.values.len() as u32;
            for column in &table.declarations[declaration as usize].columns {
                let read = read_value(unit, next, column.form, column.constant)?;
                forest.values.push(read.value);
                next = read.end;
            }
            let id = forest.entries.len() as u32;
            forest.entries.push(Entry {
                at: at as u64,
                len: (next - at) as u64,
                depth: chains.len() as u32,
                declaration,
                first,
                count: forest.values.len() as u32 - first,
            });
            if table.declarations[declaration as usize].children {
                chains.push(id);
            }
        }
        at = next;
        if chains.is_empty() {
            return unit[at..].iter().all(|byte| *byte == 0).then_some(forest);
        }
    }
}

fn main() {
    let file = env::args().nth(1).expect("a file");
    let info = fs::read(&file).expect("a section");
    let table = read_table(&fs::read(file + ".abbrev").expect("a table")).expect("a table");
    let (mut entries, mut values, mut sum) = (0u64, 0u64, 0u64);
    let mut at = 0;
    while at < info.len() {
        let length = u32::from_le_bytes(info[at..at + 4].try_into().unwrap()) as usize;
        let unit = &info[at..at + 4 + length];
        let forest = read_entries(unit, &table).expect("a unit");
        entries += forest.entries.len() as u64;
        values += forest.values.len() as u64;
        for entry in &forest.entries {
            sum = sum.wrapping_add(at as u64 + entry.at).wrapping_add(u64::from(entry.depth));
        }
        for value in &forest.values {
            sum = sum.wrapping_add(held(*value));
        }
        for end in &forest.ends {
            sum = sum.wrapping_add(at as u64 + end.at).wrapping_add(u64::from(end.entry));
        }
        at += 4 + length;
    }
    println!("{entries} entries, {values} values, sum {sum}");
}
