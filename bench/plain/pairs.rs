// The plain search that the proved least pairs are measured against: it draws the same programs and looks for their pairs
// and for the runs of their records.
// Build: rustc -O --edition 2021 -C target-cpu=x86-64-v2 bench/plain/pairs.rs -o pairs. Run: pairs COUNT.
use costs::{len_s, line_bytes, operand_bytes};
use draws::Draws;
use std::collections::HashMap;
use std::env;

#[path = "shared/costs.rs"]
mod costs;
#[path = "shared/draws.rs"]
mod draws;

impl Draws {
    fn near_or_far(&mut self, near: u32, far: u32) -> u32 {
        let bound = if self.below(8) == 0 { far } else { near };
        self.below(bound)
    }
}

const LAST_SPECIAL: u8 = 242;
const LINES: u32 = 1_000_000;

#[derive(Clone, Copy, PartialEq, Eq, Hash)]
enum Step {
    Row(i64, u64),
    End(u64),
}

// The least bytes that advance the address: over so many fixed_advance_pc and const_add_pc, with one advance_pc.
fn advance(range: u8, min: u8, distance: u64) -> u32 {
    if distance == 0 {
        return 0;
    }
    let scale = u64::from(min);
    let unit = u64::from(LAST_SPECIAL / range) * scale;
    let reach = 10 * unit + 3 * 65_535;
    let whole = distance / scale;
    let exact = whole * scale == distance;
    let mut least = if exact { operand_bytes(whole).min(11) } else { 11 };
    if exact && whole < 128 {
        return if distance == unit { 1 } else { 2 };
    }
    if distance > reach && exact && operand_bytes((distance - reach - 1) / scale + 1) >= least {
        return least;
    }
    for fixed_adds in 0..4u32 {
        if 3 * fixed_adds >= least {
            break;
        }
        for const_adds in 0..11u32 {
            let so_far = const_adds + 3 * fixed_adds;
            let taken = u64::from(const_adds) * unit;
            if so_far >= least || taken > distance {
                break;
            }
            let rest = distance - taken;
            let limit = u64::from(65_535 * fixed_adds);
            let operand = if rest <= limit { 0 } else { (rest - limit).div_ceil(scale) };
            if operand <= rest / scale {
                least = least.min(so_far + operand_bytes(operand));
            }
        }
    }
    least
}

// Special opcodes that add each number from 0 to `most` to line_base, and the bytes of the address before them.
#[derive(Clone, Copy)]
struct Window {
    most: u8,
    address: u32,
}

fn address_before(range: u8, min: u8, distance: u64, part: u8) -> u32 {
    advance(range, min, distance.wrapping_sub(u64::from(part) * u64::from(min)))
}

fn windows(range: u8, min: u8, distance: u64) -> [Window; 2] {
    let parts = LAST_SPECIAL / range;
    let last = |part| Window { most: LAST_SPECIAL % range, address: address_before(range, min, distance, part) };
    if parts == 0 {
        return [last(0); 2];
    }
    let scale = u64::from(min);
    if distance % scale == 0 && distance / scale < u64::from(parts) {
        return [Window { most: range - 1, address: 0 }; 2];
    }
    let mut address = address_before(range, min, distance, 0);
    for part in 1..parts {
        if address == 0 {
            break;
        }
        address = address.min(address_before(range, min, distance, part));
    }
    let wide = Window { most: range - 1, address };
    if address == 0 {
        [wide; 2]
    } else {
        [wide, last(parts)]
    }
}

// The bytes of a line distance that may be lessened by a number up to `most`, and the least distance with as many.
fn line_run(line: i64, most: u8) -> (u32, i64) {
    let most = i64::from(most);
    if line < 0 {
        let len = len_s(line);
        (1 + len, -(1 << (7 * len - 1)))
    } else if line <= most {
        (0, 0)
    } else {
        let len = len_s(line - most);
        let least = if len == 1 { 1 } else { 1 << (7 * len - 8) };
        (1 + len, most + least)
    }
}

fn add_row(sums: &mut [u64; 256], range: u8, min: u8, line: i64, distance: u64, count: u32) {
    let [wide, last] = windows(range, min, distance);
    let copy = 1 + line_bytes(line) + advance(range, min, distance);
    let top = line + 128;
    let mut from = 0;
    while from < 256 {
        let left = top - from as i64;
        let (wide_bytes, wide_low) = line_run(left, wide.most);
        let (last_bytes, last_low) = line_run(left, last.most);
        let bytes = copy.min(1 + wide.address + wide_bytes).min(1 + last.address + last_bytes);
        let low = wide_low.max(last_low);
        let to = (top - low + 1).min(256) as usize;
        for sum in &mut sums[from..to] {
            *sum += u64::from(count) * u64::from(bytes);
        }
        from = to;
    }
}

fn add_step(sums: &mut [u64; 256], range: u8, min: u8, step: Step, count: u32) {
    match step {
        Step::Row(line, distance) => add_row(sums, range, min, line, distance, count),
        Step::End(distance) => {
            let bytes = 3 + advance(range, min, distance);
            for sum in sums {
                *sum += u64::from(count) * u64::from(bytes);
            }
        }
    }
}

fn counts(steps: impl Iterator<Item = Step>) -> Vec<(Step, u32)> {
    let mut places = HashMap::new();
    let mut counted: Vec<(Step, u32)> = Vec::new();
    for step in steps {
        let place = *places.entry(step).or_insert(counted.len());
        if place == counted.len() {
            counted.push((step, 1));
        } else {
            counted[place].1 += 1;
        }
    }
    counted.sort_by(|a, b| b.1.cmp(&a.1));
    counted
}

// A pair of line_base and line_range, and the bytes of the steps under it.
#[derive(Clone, Copy)]
struct Choice {
    base: i8,
    range: u8,
    bytes: u64,
}

fn sums_of(range: u8, min: u8, counted: &[(Step, u32)]) -> [u64; 256] {
    let mut sums = [0; 256];
    for &(step, count) in counted {
        add_step(&mut sums, range, min, step, count);
    }
    sums
}

fn first_least(sums: &[u64; 256], range: u8) -> Choice {
    let least = *sums.iter().min().expect("256 sums");
    let place = sums.iter().position(|&sum| sum == least).expect("the least one");
    Choice { base: (place as i64 - 128) as i8, range, bytes: least }
}

// The pair to begin with: that of the head, or a better one of some line_ranges.
fn first_choice(base: i8, range: u8, min: u8, counted: &[(Step, u32)]) -> Choice {
    let own = sums_of(range, min, counted)[(i64::from(base) + 128) as usize];
    let mut best = Choice { base, range, bytes: own };
    for range in [12, 14, 18, 22, 242] {
        let other = first_least(&sums_of(range, min, counted), range);
        if other.bytes < best.bytes {
            best = other;
        }
    }
    best
}

fn row_bytes(step: Step, count: u32) -> u64 {
    let each = if matches!(step, Step::Row(..)) { 1 } else { 3 };
    each * u64::from(count)
}

fn give(numbers: &mut [u32; 256], sums: &[u64; 256], all: u32, number: u32, rest: u64, bytes: u64) {
    for (own, sum) in numbers.iter_mut().zip(sums) {
        if *own == all && sum + rest >= bytes {
            *own = number;
        }
    }
}

// The numbers of the pairs of a line_range, or a better choice.
fn try_range(own: (i8, u8), range: u8, min: u8, counted: &[(Step, u32)], total: u64, best: Choice) -> Result<[u32; 256], Choice> {
    let all = counted.len() as u32;
    let mut numbers = [all; 256];
    let mut sums = [0; 256];
    let mut rest = total;
    let may_come = range <= best.range && (best.base, best.range) != own;
    let limit = best.bytes + u64::from(may_come);
    for (index, &(step, count)) in counted.iter().enumerate() {
        let round = index == 0 || index.is_power_of_two();
        if round {
            give(&mut numbers, &sums, all, index as u32, rest, best.bytes);
        }
        if (round || index % 32 == 0) && sums.iter().all(|sum| sum + rest >= limit) {
            let next = if index == 0 { 0 } else { index.next_power_of_two().min(counted.len()) };
            give(&mut numbers, &sums, all, next as u32, rest, best.bytes);
            return Ok(numbers);
        }
        add_step(&mut sums, range, min, step, count);
        rest -= row_bytes(step, count);
    }
    let other = first_least(&sums, range);
    let comes_first = may_come && (range < best.range || other.base < best.base);
    if other.bytes < best.bytes || (other.bytes == best.bytes && comes_first) {
        Err(other)
    } else {
        Ok(numbers)
    }
}

// Runs of pairs with equal numbers, each with its length, against a choice; or a better choice.
fn try_ranges(own: (i8, u8), min: u8, counted: &[(Step, u32)], best: Choice) -> Result<Vec<(u32, u32)>, Choice> {
    let total = counted.iter().map(|&(step, count)| row_bytes(step, count)).sum();
    let mut runs: Vec<(u32, u32)> = Vec::new();
    for range in 1..=255 {
        for number in try_range(own, range, min, counted, total, best)? {
            match runs.last_mut() {
                Some((len, last)) if *last == number => *len += 1,
                _ => runs.push((1, number)),
            }
        }
    }
    Ok(runs)
}

// The least pair, the first one where it is as good as any, then the least range, then the least base; and its runs.
fn least_pair(base: i8, range: u8, min: u8, counted: &[(Step, u32)]) -> (Choice, Vec<(u32, u32)>) {
    let mut best = first_choice(base, range, min, counted);
    loop {
        match try_ranges((base, range), min, counted, best) {
            Ok(runs) => return (best, runs),
            Err(better) => best = better,
        }
    }
}

fn drawn_steps(draws: &mut Draws, count: u32, min: u8) -> Vec<Step> {
    let mut steps = Vec::new();
    let (mut line, mut before, mut address) = (0u32, 1i64, 0u64);
    for _ in 0..count {
        let instructions = 1 + draws.near_or_far(24, 400);
        let lines = draws.near_or_far(12, 200);
        line = (line % LINES + LINES - 4 + lines) % LINES;
        steps.push(Step::Row(i64::from(line) - before, u64::from(instructions) * u64::from(min)));
        before = i64::from(line);
        address += u64::from(instructions) * u64::from(min);
    }
    let _ = address;
    steps.push(Step::End(0));
    steps
}

fn main() {
    let count: u32 = env::args().nth(1).expect("a count").parse().expect("a number");
    let mut draws = Draws(0);
    let mut sum = 0u64;
    for _ in 0..count {
        let min = if draws.below(2) == 0 { 1 } else { 4 };
        let steps = drawn_steps(&mut draws, 200, min);
        let (pair, runs) = least_pair(-5, 14, min, &counts(steps.into_iter()));
        let numbers = u64::from(pair.range) + (i64::from(pair.base) + 128) as u64 + runs.len() as u64;
        sum = sum.wrapping_mul(31).wrapping_add(numbers);
    }
    println!("{count} pairs, sum {sum}");
}
