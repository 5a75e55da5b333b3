//! A plain Rust loop that judges the moves that crates/judge_bench judges, over the same file.
use std::{env, fs};

const MILLION: u64 = 1_000_000;
/// Rates of boundaries between three zones, and the part of an amount that counts in each zone.
const RATES: [[u64; 3]; 3] = [[0, 500_000, 500_000], [500_000, 0, 250_000], [500_000, 250_000, 0]];
const FRACTIONS: [u64; 3] = [0, 500_000, 1_000_000];

/// A list for each unit, one behind the other.
struct Groups {
    starts: Vec<usize>,
    items: Vec<(u32, u64)>,
}

impl Groups {
    fn new(lists: Vec<Vec<(u32, u64)>>) -> Groups {
        let mut groups = Groups { starts: vec![0], items: Vec::new() };
        for list in lists {
            groups.items.extend(list);
            groups.starts.push(groups.items.len());
        }
        groups
    }

    fn at(&self, unit: usize) -> &[(u32, u64)] {
        &self.items[self.starts[unit]..self.starts[unit + 1]]
    }
}

struct Region {
    units: usize,
    costs: Vec<u64>,
    neighbours: Groups,
    targets: Vec<(u64, u64)>,
    touches: Groups,
    /// Whether some penalty's product doesn't fit 64 bits.
    great: bool,
}

impl Region {
    fn read(text: &str) -> Region {
        let mut numbers = text.split_ascii_whitespace().map(|word| word.parse::<u64>().unwrap());
        let mut next = || numbers.next().unwrap();
        let units = next() as usize;
        let costs = (0..units * 3).map(|_| next()).collect();
        let mut neighbours = vec![Vec::new(); units];
        for _ in 0..next() {
            let (first, second, len) = (next(), next(), next());
            neighbours[first as usize].push((second as u32, len));
            neighbours[second as usize].push((first as u32, len));
        }
        let targets: Vec<(u64, u64)> = (0..next()).map(|_| (next(), next())).collect();
        let great = targets.iter().any(|(level, weight)| level.checked_mul(2 * weight).is_none_or(|p| p > u64::MAX / 2));
        let mut touches = vec![Vec::new(); units];
        for _ in 0..next() {
            let (unit, feature, amount) = (next(), next(), next());
            touches[unit as usize].push((feature as u32, amount));
        }
        let neighbours = Groups::new(neighbours);
        let touches = Groups::new(touches);
        Region { units, costs, neighbours, targets, touches, great }
    }

    fn penalty(&self, row: u32, held: u64) -> u64 {
        let (level, weight) = self.targets[row as usize];
        let missing = level.saturating_sub(held);
        if missing == 0 {
            0
        } else if self.great {
            ((2 * weight as u128 * missing as u128 + level as u128) / (2 * level as u128)) as u64
        } else {
            (2 * weight * missing + level) / (2 * level)
        }
    }

    /// The change of score where a unit of the plan gets the zone.
    fn change(&self, plan: &[u8], totals: &[u64], unit: usize, new: usize) -> i64 {
        let old = plan[unit] as usize;
        let mut change = self.costs[unit * 3 + new] as i64 - self.costs[unit * 3 + old] as i64;
        for (neighbour, len) in self.neighbours.at(unit) {
            let zone = plan[*neighbour as usize] as usize;
            change += part(*len, RATES[new][zone]) as i64 - part(*len, RATES[old][zone]) as i64;
        }
        for (row, amount) in self.touches.at(unit) {
            let before = totals[*row as usize];
            let after = before + part(*amount, FRACTIONS[new]) - part(*amount, FRACTIONS[old]);
            if after != before {
                change += self.penalty(*row, after) as i64 - self.penalty(*row, before) as i64;
            }
        }
        change
    }
}

/// A number by a number of millionths, rounded half up.
fn part(value: u64, millionths: u64) -> u64 {
    (value * millionths + MILLION / 2) / MILLION
}

/// The random words of a seat: Pcg32.
struct Words {
    state: u64,
    increment: u64,
}

impl Words {
    fn new(seed: u64, stream: u64) -> Words {
        let increment = stream << 1 | 1;
        let mut words = Words { state: seed.wrapping_add(increment), increment };
        words.step();
        words
    }

    fn step(&mut self) {
        self.state = self.state.wrapping_mul(6_364_136_223_846_793_005).wrapping_add(self.increment);
    }

    fn next(&mut self) -> u32 {
        let state = self.state;
        self.step();
        ((((state >> 18) ^ state) >> 27) as u32).rotate_right((state >> 59) as u32)
    }

    fn pick(&mut self, m: usize) -> usize {
        (self.next() as u64 * m as u64 >> 32) as usize
    }
}

fn main() {
    let words: Vec<String> = env::args().collect();
    let region = Region::read(&fs::read_to_string(&words[1]).unwrap());
    let count: u32 = words[2].parse().unwrap();
    let plan: Vec<u8> = (0..region.units).map(|unit| (unit * 7 % 3) as u8).collect();
    let mut totals = vec![0; region.targets.len()];
    for unit in 0..region.units {
        for (row, amount) in region.touches.at(unit) {
            totals[*row as usize] += part(*amount, FRACTIONS[plan[unit] as usize]);
        }
    }
    let mut draws = Words::new(7, 64);
    let mut sum: i128 = 0;
    for _ in 0..count {
        let unit = draws.pick(region.units);
        let shift = 1 + draws.pick(2);
        draws.next();
        let new = (plan[unit] as usize + shift) % 3;
        sum += region.change(&plan, &totals, unit, new) as i128;
    }
    println!("judged {count} sum {sum}");
}
