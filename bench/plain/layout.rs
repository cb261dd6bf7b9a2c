// The plain rounds that the proved layout is measured against: it draws the same slots and finds their least sizes.
// Build: rustc -O --edition 2021 -C target-cpu=x86-64-v2 bench/plain/layout.rs -o layout. Run: layout COUNT.
use draws::Draws;
use std::env;

#[path = "shared/draws.rs"]
mod draws;

#[derive(Clone, Copy)]
struct Slot {
    is_call: bool,
    fixed: u64,
    from: u32,
    to: u32,
}

fn drawn_slots(count: u32) -> Vec<Slot> {
    let mut draws = Draws(0);
    let mut slots = Vec::new();
    for index in 0..count {
        let to = draws.below(count + 1);
        slots.push(Slot { is_call: index % 16 == 15, fixed: 12 + 11 * u64::from(to), from: 0, to });
    }
    slots
}

fn need(slot: Slot, number: u64) -> u8 {
    if slot.is_call {
        if number < 65_536 {
            2
        } else {
            4
        }
    } else {
        (64 - (number | 1).leading_zeros()).div_ceil(7) as u8
    }
}

fn steps(slot: Slot, size: u8) -> usize {
    if slot.is_call {
        usize::from(size == 4)
    } else {
        usize::from(size) - 1
    }
}

// One round: the sums of the sizes before each slot, and then the sizes that the slots need by them.
fn grow(slots: &[Slot], rank: u32, starts: &mut [u32], sizes: &mut [u8], ranks: &mut [[u32; 4]]) -> bool {
    let mut start = 0;
    for (place, size) in starts.iter_mut().zip(sizes.iter()) {
        *place = start;
        start += u32::from(*size);
    }
    starts[slots.len()] = start;
    let mut is_raised = false;
    for ((slot, size), ranks) in slots.iter().zip(sizes).zip(ranks) {
        let number = slot.fixed + u64::from(starts[slot.to as usize] - starts[slot.from as usize]);
        let more = need(*slot, number);
        if more > *size {
            ranks[steps(*slot, *size)..steps(*slot, more)].fill(rank);
            *size = more;
            is_raised = true;
        }
    }
    is_raised
}

fn main() {
    let count: u32 = env::args().nth(1).expect("a count").parse().expect("a number");
    let slots = drawn_slots(count);
    let mut sizes: Vec<u8> = slots.iter().map(|slot| if slot.is_call { 2 } else { 1 }).collect();
    let mut starts = vec![0u32; slots.len() + 1];
    let mut kept = vec![[0u32; 4]; slots.len()];
    let mut rank = 0;
    while grow(&slots, rank, &mut starts, &mut sizes, &mut kept) {
        rank += 1;
    }
    let mut ranks = Vec::new();
    for ((slot, size), kept) in slots.iter().zip(&sizes).zip(&kept) {
        ranks.extend(kept[..steps(*slot, *size)].iter().map(|rank| u64::from(*rank)));
    }
    let sum: u64 = sizes.iter().map(|size| u64::from(*size)).sum();
    println!("{count} slots, sum {sum}, last rank {}", ranks.iter().max().unwrap_or(&0));
}
