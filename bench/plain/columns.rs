// The plain sums that the proved choice of forms is measured against: it draws the same rows, and sums each column in each
// form that spells its values.
// Build: rustc -O --edition 2021 -C target-cpu=x86-64-v2 bench/plain/columns.rs -o columns. Run: columns COUNT.
use draws::Draws;
use std::env;

#[path = "shared/draws.rs"]
mod draws;

const IMPLICIT_CONST: u64 = 0x21;

#[derive(Clone, Copy)]
pub enum Value {
    Address(u64),
    AddressIndex(u64),
    Int(i128),
    // The width of a constant that tells no sign.
    Fixed(u8),
    Wide,
    Flag(bool),
    // The bytes of a block, and of a text without its end.
    Block(u64),
    Expression,
    LocalReference(u64),
    SectionReference(u64),
    Signature,
    SupplementaryReference(u8),
    Text(u64),
    StringOffset(u64),
    LineStringOffset(u64),
    SupplementaryString(u64),
    StringIndex(u64),
    Offset(u64),
    LocationIndex(u64),
    RangeIndex(u64),
}

// The bytes of a number of fixed size, where it fits.
fn fixed(bytes: u32, number: u64) -> Option<u64> {
    (number >> (8 * bytes) == 0).then_some(u64::from(bytes))
}

// The bytes of a constant of fixed size, where it fits and tells its sign.
fn signed(bytes: u32, number: i128) -> Option<u64> {
    (number >> (8 * bytes - 1) == 0).then_some(u64::from(bytes))
}

fn uleb(number: u64) -> u64 {
    u64::from((64 - (number | 1).leading_zeros()).div_ceil(7))
}

fn sleb(number: i64) -> u64 {
    let magnitude = if number < 0 { !number } else { number };
    u64::from((65 - magnitude.leading_zeros()).div_ceil(7))
}

// The bytes of a value in a form that spells it.
fn size_in(form: u64, constant: i64, value: Value) -> Option<u64> {
    match (form, value) {
        (0x01, Value::Address(_)) => Some(8),
        (0x03, Value::Block(len)) => Some(fixed(2, len)? + len),
        (0x04, Value::Block(len)) => Some(fixed(4, len)? + len),
        (0x05, Value::Int(number)) => signed(2, number),
        (0x05, Value::Fixed(2)) => Some(2),
        (0x06, Value::Int(number)) => signed(4, number),
        (0x06, Value::Fixed(4)) => Some(4),
        (0x07, Value::Int(number)) => signed(8, number),
        (0x07, Value::Fixed(8)) => Some(8),
        (0x08, Value::Text(len)) => Some(len + 1),
        (0x09, Value::Block(len)) => Some(uleb(len) + len),
        (0x0a, Value::Block(len)) => Some(fixed(1, len)? + len),
        (0x0b, Value::Int(number)) => signed(1, number),
        (0x0b, Value::Fixed(1)) => Some(1),
        (0x0c, Value::Flag(_)) => Some(1),
        (0x0d, Value::Int(number)) => Some(sleb(i64::try_from(number).ok()?)),
        (0x0e, Value::StringOffset(place)) => fixed(4, place),
        (0x0f, Value::Int(number)) => Some(uleb(u64::try_from(number).ok()?)),
        (0x10, Value::SectionReference(place)) => fixed(4, place),
        (0x15, Value::LocalReference(_)) => Some(0),
        (0x17, Value::Offset(place)) => fixed(4, place),
        (0x18, Value::Expression) => Some(0),
        (0x19, Value::Flag(true)) => Some(0),
        (0x1a, Value::StringIndex(number)) => Some(uleb(number)),
        (0x1b, Value::AddressIndex(number)) => Some(uleb(number)),
        (0x1c, Value::SupplementaryReference(4)) => Some(4),
        (0x1d, Value::SupplementaryString(place)) => fixed(4, place),
        (0x1e, Value::Wide) => Some(16),
        (0x1f, Value::LineStringOffset(place)) => fixed(4, place),
        (0x20, Value::Signature) => Some(8),
        (0x21, Value::Int(number)) => (number == i128::from(constant)).then_some(0),
        (0x22, Value::LocationIndex(number)) => Some(uleb(number)),
        (0x23, Value::RangeIndex(number)) => Some(uleb(number)),
        (0x24, Value::SupplementaryReference(8)) => Some(8),
        (0x25, Value::StringIndex(number)) => fixed(1, number),
        (0x26, Value::StringIndex(number)) => fixed(2, number),
        (0x27, Value::StringIndex(number)) => fixed(3, number),
        (0x28, Value::StringIndex(number)) => fixed(4, number),
        (0x29, Value::AddressIndex(number)) => fixed(1, number),
        (0x2a, Value::AddressIndex(number)) => fixed(2, number),
        (0x2b, Value::AddressIndex(number)) => fixed(3, number),
        (0x2c, Value::AddressIndex(number)) => fixed(4, number),
        _ => None,
    }
}

// A form that spells the first value of a column, the bytes of the values in it, and whether it spells them all.
#[derive(Clone, Copy)]
struct Candidate {
    form: u64,
    size: u64,
    admits: bool,
}

struct Column {
    candidates: Vec<Candidate>,
    constant: i64,
}

impl Column {
    fn new(value: Value) -> Column {
        let constant = match value {
            Value::Int(number) => i64::try_from(number).unwrap_or(0),
            _ => 0,
        };
        let sized = |form| Some(Candidate { form, size: size_in(form, constant, value)?, admits: true });
        Column { candidates: (0x01..=0x2c).filter_map(sized).collect(), constant }
    }

    fn add(&mut self, value: Value) {
        for candidate in &mut self.candidates {
            match size_in(candidate.form, self.constant, value) {
                Some(size) => candidate.size += size,
                None => candidate.admits = false,
            }
        }
    }

    // The form with the fewest bytes: among equals the column's own, or else the one with the lowest code.
    fn best(&self, form: u64) -> u64 {
        let bytes = |candidate: &Candidate| {
            candidate.size + if candidate.form == IMPLICIT_CONST { sleb(self.constant) } else { 0 }
        };
        let rank = |candidate: &&Candidate| (bytes(candidate), candidate.form != form, candidate.form);
        self.candidates.iter().filter(|candidate| candidate.admits).min_by_key(rank).map_or(form, |candidate| candidate.form)
    }
}

// The sums of all columns of a table, of which some may have no value.
struct Columns(Vec<Option<Column>>);

impl Columns {
    fn add_row(&mut self, first: usize, row: &[Value]) {
        for (column, value) in self.0[first..first + row.len()].iter_mut().zip(row) {
            match column {
                Some(column) => column.add(*value),
                None => *column = Some(Column::new(*value)),
            }
        }
    }
}

// The forms of the columns at first.
const FORMS: [u64; 8] = [0x06, 0x07, 0x0d, 0x0c, 0x0c, 0x0e, 0x1a, 0x0b];

fn drawn_row(draws: &mut Draws) -> [Value; 8] {
    [
        Value::Int(i128::from(draws.below(1 << 7))),
        Value::Int(i128::from(draws.below(1 << 15))),
        Value::Int(-1 - i128::from(draws.below(1 << 12))),
        Value::Flag(draws.below(2) == 1),
        Value::Flag(true),
        Value::StringOffset(u64::from(draws.below(1 << 24))),
        Value::StringIndex(u64::from(draws.below(1000))),
        Value::Int(7),
    ]
}

fn main() {
    let count: u64 = env::args().nth(1).expect("a count").parse().expect("a number");
    let mut draws = Draws(0);
    let mut columns = Columns(FORMS.iter().map(|_| None).collect());
    let rows = count / FORMS.len() as u64;
    for _ in 0..rows {
        columns.add_row(0, &drawn_row(&mut draws));
    }
    print!("{} values, forms", rows * FORMS.len() as u64);
    for (column, form) in columns.0.iter().zip(FORMS) {
        print!(" {}", column.as_ref().map_or(form, |column| column.best(form)));
    }
    println!();
}
