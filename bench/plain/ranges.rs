// The plain search that the proved shortest range lists are measured against: it draws the same functions, and plans the same
// lists in the same way: gains of bases in runs from the last range to the first, then entries from the first to the last.
// Build: rustc -O --edition 2021 -C target-cpu=x86-64-v2 bench/plain/ranges.rs -o ranges. Run: ranges SHAPE COUNT.
use draws::Draws;
use std::env;

#[path = "shared/draws.rs"]
mod draws;

const FUNCTIONS: u32 = 100_000;
const LONGEST: u32 = 50;

#[derive(Clone, Copy)]
struct Range {
    start: u64,
    end: u64,
}

fn len_u(value: u64) -> u64 {
    u64::from((64 - (value | 1).leading_zeros()).div_ceil(7))
}

// The addresses of a table in their order, with their indexes; over these a tree of minima by halves.
struct AddressMap {
    table: Vec<u64>,
    sorted: Vec<(u64, u64)>,
    tree: Vec<u64>,
}

impl AddressMap {
    fn new(table: Vec<u64>) -> AddressMap {
        let mut sorted: Vec<(u64, u64)> = (0..).zip(&table).map(|(index, &address)| (address, index)).collect();
        sorted.sort_unstable();
        let mut tree: Vec<u64> = sorted.iter().map(|&(_, index)| index).collect();
        for i in 0..sorted.len().saturating_sub(1) {
            tree.push(tree[2 * i].min(tree[2 * i + 1]));
        }
        AddressMap { table, sorted, tree }
    }

    fn index_of(&self, address: u64) -> Option<u64> {
        let i = self.sorted.partition_point(|&(at, _)| at < address);
        self.sorted.get(i).filter(|&&(at, _)| at == address).map(|&(_, index)| index)
    }

    // The least index of the addresses from one up to another.
    fn least_between(&self, from: u64, to: u64) -> Option<u64> {
        let mut low = self.sorted.partition_point(|&(at, _)| at < from);
        let mut high = self.sorted.partition_point(|&(at, _)| at <= to);
        if low >= high {
            return None;
        }
        let mut best = u64::MAX;
        while low < high {
            best = best.min(self.tree[low]).min(self.tree[high - 1]);
            low = self.sorted.len() + low.div_ceil(2);
            high = self.sorted.len() + high / 2;
        }
        Some(best)
    }
}

// A range, the least indexes of its addresses, and its bytes by entries that need no base.
#[derive(Clone, Copy)]
struct Costs {
    start: u64,
    end: u64,
    first: Option<u64>,
    last: Option<u64>,
    free: u64,
}

// The least base from which an offset to an address has no more than so many bytes.
fn lowest_base(address: u64, len: u64) -> u64 {
    if len >= 10 {
        0
    } else {
        address.saturating_sub((1 << (7 * len)) - 1)
    }
}

impl Costs {
    fn new(range: Range, map: &AddressMap) -> Costs {
        let Range { start, end } = range;
        let (first, last) = (map.index_of(start), map.index_of(end));
        let pair = first.zip(last).map_or(16, |(first, last)| (len_u(first) + len_u(last)).min(16));
        let by_length =
            if start > end { 16 } else { first.map_or(8, |index| len_u(index).min(8)) + len_u(end - start) };
        Costs { start, end, first, last, free: 1 + pair.min(by_length) }
    }

    // The bytes under a base, and the lowest base below it under which they are as many.
    fn piece(&self, top: u64) -> (u64, u64) {
        let low = self.start.min(self.end);
        if top > low {
            return (self.free, low + 1);
        }
        let (first, second) = (len_u(self.start - top), len_u(self.end - top));
        let cost = 1 + first + second;
        if cost >= self.free {
            return (self.free, 0);
        }
        (cost, top.min(lowest_base(self.start, first).max(lowest_base(self.end, second))))
    }

    fn under(&self, base: u64) -> u64 {
        self.piece(base).0
    }

    // The lowest code with which the range has its fewest bytes under a base, and the operands.
    fn pick(&self, base: u64) -> Pick {
        let Costs { start, end, first, last, .. } = *self;
        let bytes = self.under(base);
        if let (Some(first), Some(last)) = (first, last) {
            if 1 + len_u(first) + len_u(last) <= bytes {
                return Pick { code: 2, a: first, b: last };
            }
        }
        if let Some(first) = first {
            if start <= end && 1 + len_u(first) + len_u(end - start) <= bytes {
                return Pick { code: 3, a: first, b: end - start };
            }
        }
        if base <= start.min(end) && 1 + len_u(start - base) + len_u(end - base) <= bytes {
            return Pick { code: 4, a: start - base, b: end - base };
        }
        if bytes >= 17 {
            Pick { code: 6, a: start, b: end }
        } else {
            Pick { code: 7, a: start, b: end - start }
        }
    }
}

struct Pick {
    code: u8,
    a: u64,
    b: u64,
}

// Under the bases from `upto` down to the next run, what is left has `gain` bytes fewer than without a base.
#[derive(Clone, Copy)]
struct Run {
    upto: u64,
    gain: u64,
}

fn push(runs: &mut Vec<Run>, run: Run) {
    if runs.last().map_or(true, |last| last.gain != run.gain) {
        runs.push(run);
    }
}

fn lowest_of(runs: &[Run], i: usize) -> u64 {
    runs.get(i + 1).map_or(0, |next| next.upto + 1)
}

// A base that is set, by its index or by its address, and the bytes from there on.
#[derive(Clone, Copy)]
struct Choice {
    bytes: u64,
    base: u64,
    index: Option<u64>,
}

impl Choice {
    // The shortest entry that sets a base from one up to another.
    fn between(map: &AddressMap, from: u64, to: u64) -> Choice {
        match map.least_between(from, to) {
            Some(index) if 1 + len_u(index) <= 9 => {
                Choice { bytes: 1 + len_u(index), base: map.table[index as usize], index: Some(index) }
            }
            _ => Choice { bytes: 9, base: to, index: None },
        }
    }

    fn is_better(&self, before: &Choice) -> bool {
        if self.bytes != before.bytes {
            return self.bytes < before.bytes;
        }
        match (self.index, before.index) {
            (Some(index), Some(other)) => index < other,
            (None, None) => self.base > before.base,
            (index, _) => index.is_some(),
        }
    }
}

// The runs, and room for a copy of those that change.
struct Runs {
    all: Vec<Run>,
    rest: Vec<Run>,
}

impl Runs {
    fn new() -> Runs {
        Runs { all: vec![Run { upto: u64::MAX, gain: 0 }], rest: Vec::new() }
    }

    // The runs behind a range become those from it on, and the best base is that which is set before it.
    fn go_before(&mut self, costs: &Costs, under: u64, map: &AddressMap, best: &mut Choice) {
        let low = costs.start.min(costs.end);
        let mut from = self.all.len() - 1;
        while from > 0 && self.all[from].upto <= low {
            from -= 1;
        }
        self.rest.clear();
        self.rest.extend_from_slice(&self.all[from..]);
        self.all.truncate(from);
        for i in 0..self.rest.len() {
            let Run { upto, gain } = self.rest[i];
            let lowest = lowest_of(&self.rest, i);
            let mut top = upto;
            loop {
                let (cost, bottom) = costs.piece(top);
                let bottom = bottom.max(lowest);
                let gain = gain + (costs.free - cost);
                push(&mut self.all, Run { upto: top, gain });
                if bottom == lowest {
                    break;
                }
                top = bottom - 1;
            }
            if costs.piece(upto) == (costs.free, 0) {
                self.all.extend_from_slice(&self.rest[i + 1..]);
                break;
            }
        }
        for i in from..self.all.len() {
            let Run { upto, gain } = self.all[i];
            let lowest = lowest_of(&self.all, i);
            let (cost, bottom) = costs.piece(upto);
            if cost < costs.free || bottom > lowest {
                let mut choice = Choice::between(map, lowest, upto);
                choice.bytes += under - gain;
                if choice.is_better(best) {
                    *best = choice;
                }
            } else if bottom == 0 {
                break;
            }
        }
    }

    fn lower(&mut self, by: u64) {
        if by == 0 {
            return;
        }
        for run in &mut self.all {
            run.gain = run.gain.saturating_sub(by);
        }
        self.all.dedup_by_key(|run| run.gain);
    }

    fn gain_under(&self, base: u64) -> u64 {
        self.all[self.all.partition_point(|run| run.upto >= base) - 1].gain
    }
}

struct Plan {
    picks: Vec<Pick>,
    potentials: Vec<u64>,
    size: u64,
}

// For each item the bytes from the base on that is best set before it, and the bytes of the list.
fn choices_of(costs: &[Costs], first_base: u64, map: &AddressMap) -> (Vec<Choice>, u64) {
    let mut choices = Vec::with_capacity(costs.len());
    let mut runs = Runs::new();
    let mut best = Choice::between(map, 0, u64::MAX);
    best.bytes += 1;
    let mut under = 1;
    for item in costs.iter().rev() {
        under += item.free;
        best.bytes += item.free;
        runs.go_before(item, under, map, &mut best);
        choices.push(best);
        let by = under.saturating_sub(best.bytes);
        runs.lower(by);
        under -= by;
    }
    choices.reverse();
    (choices, under - runs.gain_under(first_base))
}

// Fills in the bytes that are left under a base from an item on, the last first, and answers where it ends: where a base is set at
// any rate.
fn fill(left: &mut Vec<u64>, costs: &[Costs], choices: &[Choice], base: u64, from: usize) -> usize {
    let mut to = costs.len();
    let (mut sum, mut best) = (0, u64::MAX);
    for (i, (item, choice)) in costs.iter().zip(choices).enumerate().skip(from) {
        let here = sum + choice.bytes;
        if here > best.saturating_add(9) {
            to = i;
            break;
        }
        best = best.min(here);
        sum += item.under(base);
    }
    let mut last = choices.get(to).map_or(1, |choice| choice.bytes);
    left.clear();
    left.push(last);
    for i in (from..to).rev() {
        last = choices[i].bytes.min(last + costs[i].under(base));
        left.push(last);
    }
    to
}

fn is_set_before(item: &Costs, base: u64, choice: &Choice, here: u64, next: u64) -> bool {
    choice.bytes <= here && (next + item.under(base) > here || choice.index.is_some() || item.pick(base).code >= 6)
}

fn picks_of(costs: &[Costs], choices: &[Choice], first_base: u64) -> Vec<Pick> {
    let mut picks = Vec::with_capacity(costs.len() + 1);
    let mut left = Vec::new();
    let mut base = first_base;
    let mut to = fill(&mut left, costs, choices, base, 0);
    for (i, (item, choice)) in costs.iter().zip(choices).enumerate() {
        if i == to || is_set_before(item, base, choice, left[to - i], left[to - i - 1]) {
            picks.push(match choice.index {
                Some(index) => Pick { code: 1, a: index, b: 0 },
                None => Pick { code: 5, a: choice.base, b: 0 },
            });
            base = choice.base;
            to = fill(&mut left, costs, choices, base, i + 1);
        }
        picks.push(item.pick(base));
    }
    picks
}

fn plan(ranges: &[Range], first_base: u64, map: &AddressMap) -> Plan {
    let costs: Vec<Costs> = ranges.iter().map(|&range| Costs::new(range, map)).collect();
    let (choices, size) = choices_of(&costs, first_base, map);
    let picks = picks_of(&costs, &choices, first_base);
    Plan { picks, potentials: choices.iter().map(|choice| choice.bytes).collect(), size }
}

fn drawn_functions(draws: &mut Draws, count: u32) -> Vec<Range> {
    let mut start = 0x40_1000;
    (0..count)
        .map(|_| {
            let most = if draws.below(8) == 0 { 400 } else { 24 };
            let size = 16 * (1 + draws.below(most));
            let range = Range { start, end: start + u64::from(size - draws.below(16)) };
            start += u64::from(size);
            range
        })
        .collect()
}

#[derive(Default)]
struct Sums {
    sizes: u64,
    potentials: u64,
    picks: u64,
}

impl Sums {
    fn add(&mut self, plan: &Plan) {
        self.sizes += plan.size;
        self.potentials += plan.potentials.iter().sum::<u64>();
        for pick in &plan.picks {
            for number in [u64::from(pick.code), pick.a, pick.b] {
                self.picks = self.picks.wrapping_mul(31).wrapping_add(number);
            }
        }
    }
}

fn main() {
    let words: Vec<String> = env::args().skip(1).collect();
    let [shape, count] = &words[..] else { panic!("a shape and a count") };
    let count: u32 = count.parse().expect("a number");
    let (is_one, has_table) = match shape.as_str() {
        "lists" => (false, false),
        "indexed-lists" => (false, true),
        "list" => (true, false),
        "indexed-list" => (true, true),
        _ => panic!("a shape"),
    };
    let mut draws = Draws(0);
    let functions = drawn_functions(&mut draws, if is_one { count } else { FUNCTIONS });
    let table = if has_table { functions.iter().map(|function| function.start).collect() } else { Vec::new() };
    let map = AddressMap::new(table);
    let mut sums = Sums::default();
    if is_one {
        sums.add(&plan(&functions, 0, &map));
    } else {
        let mut left = count;
        while left > 0 {
            let first = draws.below(FUNCTIONS - LONGEST) as usize;
            let len = (1 + draws.below(LONGEST)).min(left);
            sums.add(&plan(&functions[first..first + len as usize], 0, &map));
            left -= len;
        }
    }
    println!("{count} items, sizes {}, potentials {}, picks {}", sums.sizes, sums.potentials, sums.picks);
}
