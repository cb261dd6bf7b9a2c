// The plain search that the proved costs of steps are measured against: it draws the same steps and adds up their bytes.
// Build: rustc -O --edition 2021 -C target-cpu=x86-64-v2 bench/plain/steps.rs -o steps. Run: steps COUNT.
use costs::{len_s, line_bytes, operand_bytes};
use draws::Draws;
use std::env;

#[path = "shared/costs.rs"]
mod costs;
#[path = "shared/draws.rs"]
mod draws;

// The least bytes that advance the address: over so many fixed_advance_pc and const_add_pc, with one advance_pc. It tries
// all 44 of them, as the proved search does; to leave the loops early instead takes half of the time.
fn advance(range: u8, min: u8, distance: u64) -> u32 {
    let scale = u64::from(min);
    let unit = u64::from(242 / range) * scale;
    let mut least = 11;
    for fixed_adds in 0..4u32 {
        for const_adds in 0..11u32 {
            let so_far = const_adds + 3 * fixed_adds;
            let taken = u64::from(const_adds) * unit;
            if so_far >= least || taken > distance {
                continue;
            }
            let rest = distance - taken;
            let limit = u64::from(65_535 * fixed_adds);
            let operand = if rest <= limit { 0 } else { (rest - limit).div_ceil(scale) };
            if operand <= rest / scale {
                least = least.min(so_far + operand_bytes(operand));
            }
        }
    }
    least
}

// What a special opcode adds to line_base so that the rest of the line distance takes the fewest bytes.
fn remainder_for(line: i64, most: i64) -> i64 {
    if line <= 0 {
        return 0;
    }
    if line <= most {
        return line;
    }
    let greatest = (1 << (7 * len_s(line - most) - 1)) - 1;
    (line - greatest).max(0)
}

// The least bytes of a step: by copy, or by a special opcode that advances the address by some instructions.
fn step(base: i8, range: u8, min: u8, line: i64, distance: u64) -> u32 {
    let mut least = 1 + line_bytes(line) + advance(range, min, distance);
    let line = line - i64::from(base);
    for part in 0..=242 / range {
        let most = (range - 1).min(242 - part * range);
        let bytes = 1 + line_bytes(line - remainder_for(line, i64::from(most)));
        if bytes < least {
            let rest = distance.wrapping_sub(u64::from(part) * u64::from(min));
            least = least.min(bytes + advance(range, min, rest));
        }
    }
    least
}

fn drawn_step(draws: &mut Draws) -> u32 {
    let base = 10 - draws.below(64) as i8;
    let range = draws.below(255) as u8 + 1;
    let min = draws.below(4) as u8 + 1;
    let (lines, addresses) = if draws.below(16) == 0 { (1 << 31, 1 << 31) } else { (400, 8192) };
    let line = i64::from(draws.below(lines)) - i64::from(lines / 4);
    let distance = u64::from(draws.below(addresses));
    step(base, range, min, line, distance)
}

fn main() {
    let count: u64 = env::args().nth(1).expect("a count").parse().expect("a number");
    let mut draws = Draws(0);
    let mut sum = 0u64;
    for _ in 0..count {
        sum = sum.wrapping_add(u64::from(drawn_step(&mut draws)));
    }
    println!("{count} steps, sum {sum}");
}
