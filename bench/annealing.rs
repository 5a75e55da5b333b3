//! A plain Rust annealer over the projects that bench/annealing.py makes: it draws, judges the drawn
//! unit's neighbourhood in 64 bits, accepts and updates, on one thread, as one worker of the program does.
//! It decides the same history, so both write the same best plan.
use std::collections::HashMap;
use std::time::Instant;
use std::{env, fs};

const MILLION: u64 = 1_000_000;
const UNIT: u64 = 10_000;
const ZONES: usize = 3;
/// The rates of boundaries between the zones, and the part of an amount that counts in each zone.
const RATES: [[u64; ZONES]; ZONES] = [[0, 500_000, 500_000], [500_000, 0, 250_000], [500_000, 250_000, 0]];
const FRACTIONS: [u64; ZONES] = [0, 500_000, 1_000_000];
/// The feature and the zone of the one target in a single zone.
const ZONE_FEATURE: usize = 0;
const FULL: usize = 2;
const SAMPLE_SEAT: u64 = 61;
const SAMPLES: usize = 1000;
/// The temperature of one score unit: a thousand of its ten-thousandths.
const DEGREE: u128 = 10_000_000;

struct Pcg32 {
    state: u64,
    increment: u64,
}

impl Pcg32 {
    fn new(state: u64, stream: u64) -> Pcg32 {
        let increment = stream << 1 | 1;
        let mut pcg = Pcg32 { state: state.wrapping_add(increment), increment };
        pcg.step();
        pcg
    }

    fn step(&mut self) {
        self.state = self.state.wrapping_mul(6_364_136_223_846_793_005).wrapping_add(self.increment);
    }

    fn word(&mut self) -> u32 {
        let state = self.state;
        self.step();
        ((((state >> 18) ^ state) >> 27) as u32).rotate_right((state >> 59) as u32)
    }
}

fn pick(choices: usize, word: u32) -> usize {
    (choices as u64 * u64::from(word) >> 32) as usize
}

fn round(product: u64, divisor: u64) -> u64 {
    (2 * product + divisor) / (2 * divisor)
}

/// A list for each unit, one behind the other.
struct Groups {
    starts: Vec<usize>,
    items: Vec<(u32, u64)>,
}

impl Groups {
    fn new(lists: Vec<Vec<(u32, u64)>>) -> Groups {
        let mut groups = Groups { starts: vec![0], items: Vec::new() };
        for list in lists {
            groups.items.extend(list);
            groups.starts.push(groups.items.len());
        }
        groups
    }

    fn at(&self, unit: usize) -> &[(u32, u64)] {
        &self.items[self.starts[unit]..self.starts[unit + 1]]
    }
}

/// A target row: all zones but the first count for it by their fractions, or the full zone alone.
struct Target {
    level: u64,
    weight: u64,
    full_alone: bool,
}

struct Region {
    costs: Vec<[u64; ZONES]>,
    allowed: Vec<Vec<u8>>,
    free: Vec<u32>,
    neighbours: Groups,
    touches: Groups,
    targets: Vec<Target>,
    /// Whether some penalty's product doesn't fit 64 bits.
    great: bool,
}

struct Draw {
    unit: usize,
    shift: usize,
    word: u32,
}

struct State {
    plan: Vec<u8>,
    totals: Vec<u64>,
    score: u64,
}

fn numbers(folder: &str, file: &str) -> Vec<Vec<u64>> {
    let text = fs::read_to_string(format!("{folder}/{file}")).unwrap();
    text.lines().skip(1).map(|line| line.split(',').map(|field| field.parse().unwrap()).collect()).collect()
}

fn keys(folder: &str) -> HashMap<String, i64> {
    let text = fs::read_to_string(format!("{folder}/input.dat")).unwrap();
    let pairs = text.lines().filter_map(|line| line.split_once(' '));
    pairs.filter_map(|(key, value)| Some((key.to_string(), value.parse().ok()?))).collect()
}

/// The cost of the units that reach the level, in the order of their costs per amount.
fn base(costs: &[u64], holders: &[(u32, u64)], level: u64) -> u64 {
    let mut order: Vec<_> = holders.iter().map(|&(unit, amount)| (costs[unit as usize], amount, unit)).collect();
    order.sort_by(|a, b| (u128::from(a.0) * u128::from(b.1), a.2).cmp(&(u128::from(b.0) * u128::from(a.1), b.2)));
    let (mut cost, mut held) = (0, 0);
    for (own, amount, _) in order {
        if held >= level {
            break;
        }
        cost += own;
        held += amount;
    }
    cost.max(10_000)
}

impl Region {
    fn read(folder: &str) -> Region {
        let raw: Vec<u64> = numbers(folder, "pu.dat").iter().map(|row| row[1] * UNIT).collect();
        let units = raw.len();
        let mut allowed = vec![vec![0, 1, 2]; units];
        for row in numbers(folder, "puzone.dat") {
            let zones = &mut allowed[row[0] as usize - 1];
            if zones.len() == ZONES {
                zones.clear();
            }
            zones.push(row[1] as u8 - 1);
        }
        for row in numbers(folder, "pulock.dat") {
            allowed[row[0] as usize - 1] = vec![row[1] as u8 - 1];
        }
        let mut neighbours = vec![Vec::new(); units];
        for row in numbers(folder, "bound.dat") {
            let (first, second, length) = (row[0] as usize - 1, row[1] as usize - 1, row[2] * UNIT);
            neighbours[first].push((second as u32, length));
            neighbours[second].push((first as u32, length));
        }
        let mut holders: Vec<Vec<(u32, u64)>> = Vec::new();
        let mut touches = vec![Vec::new(); units];
        for row in numbers(folder, "amounts.dat") {
            let (feature, unit, amount) = (row[0] as usize - 1, row[1] as usize - 1, row[2] * UNIT);
            if holders.len() <= feature {
                holders.resize(feature + 1, Vec::new());
            }
            holders[feature].push((unit as u32, amount));
            touches[unit].push((feature as u32, amount));
        }
        let zone_row = holders.len() as u32;
        for list in &mut touches {
            if let Some(&(feature, amount)) = list.first().filter(|touch| touch.0 as usize == ZONE_FEATURE) {
                debug_assert_eq!(feature as usize, ZONE_FEATURE);
                list.push((zone_row, amount));
            }
        }
        let level = |feature: usize, part: u64| round(holders[feature].iter().map(|h| h.1).sum::<u64>() * part, MILLION);
        let mut targets = Vec::new();
        for feature in 0..holders.len() {
            let level = level(feature, 300_000);
            targets.push(Target { level, weight: base(&raw, &holders[feature], level), full_alone: false });
        }
        let level = level(ZONE_FEATURE, 100_000);
        targets.push(Target { level, weight: base(&raw, &holders[ZONE_FEATURE], level), full_alone: true });
        let great = targets.iter().any(|t| t.level.checked_mul(2 * t.weight).is_none_or(|p| p > u64::MAX / 2));
        let free = (0..units as u32).filter(|&unit| allowed[unit as usize].len() > 1).collect();
        let costs = raw.iter().map(|&cost| [0, cost / 2, cost]).collect();
        let (neighbours, touches) = (Groups::new(neighbours), Groups::new(touches));
        Region { costs, allowed, free, neighbours, touches, targets, great }
    }

    fn gain(&self, row: usize, amount: u64, zone: usize) -> u64 {
        if self.targets[row].full_alone {
            if zone == FULL { amount } else { 0 }
        } else {
            round(amount * FRACTIONS[zone], MILLION)
        }
    }

    fn penalty(&self, row: usize, held: u64) -> u64 {
        let Target { level, weight, .. } = self.targets[row];
        let missing = level.saturating_sub(held);
        if missing == 0 {
            0
        } else if self.great {
            ((2 * u128::from(weight) * u128::from(missing) + u128::from(level)) / (2 * u128::from(level))) as u64
        } else {
            round(weight * missing, level)
        }
    }

    fn draw(&self, words: &mut Pcg32) -> Draw {
        let unit = self.free[pick(self.free.len(), words.word())] as usize;
        let shift = 1 + pick(self.allowed[unit].len() - 1, words.word());
        Draw { unit, shift, word: words.word() }
    }

    /// The zone that a draw moves its unit to.
    fn moved(&self, plan: &[u8], draw: &Draw) -> usize {
        let zones = &self.allowed[draw.unit];
        let place = zones.iter().position(|&zone| zone == plan[draw.unit]).unwrap();
        usize::from(zones[(place + draw.shift) % zones.len()])
    }

    /// The change of score where a unit of the plan gets the zone.
    fn change(&self, state: &State, unit: usize, new: usize) -> i64 {
        let old = usize::from(state.plan[unit]);
        let mut change = self.costs[unit][new] as i64 - self.costs[unit][old] as i64;
        for &(neighbour, length) in self.neighbours.at(unit) {
            let zone = usize::from(state.plan[neighbour as usize]);
            change += round(length * RATES[new][zone], MILLION) as i64;
            change -= round(length * RATES[old][zone], MILLION) as i64;
        }
        for &(row, amount) in self.touches.at(unit) {
            let row = row as usize;
            let held = state.totals[row];
            let after = held + self.gain(row, amount, new) - self.gain(row, amount, old);
            if after != held {
                change += self.penalty(row, after) as i64 - self.penalty(row, held) as i64;
            }
        }
        change
    }

    fn accept(&self, state: &mut State, unit: usize, new: usize, change: i64) {
        let old = usize::from(state.plan[unit]);
        for &(row, amount) in self.touches.at(unit) {
            let row = row as usize;
            state.totals[row] = state.totals[row] + self.gain(row, amount, new) - self.gain(row, amount, old);
        }
        state.plan[unit] = new as u8;
        state.score = state.score.wrapping_add_signed(change);
    }

    /// The plan that rests in the available zone wherever it may.
    fn start(&self) -> State {
        let plan: Vec<u8> = self.allowed.iter().map(|zones| zones[0]).collect();
        let totals = self.totals(&plan);
        let score = self.sums(&plan, &totals).iter().take(3).sum();
        State { plan, totals, score }
    }

    /// What a plan holds for each target row.
    fn totals(&self, plan: &[u8]) -> Vec<u64> {
        let mut totals = vec![0; self.targets.len()];
        for (unit, &zone) in plan.iter().enumerate() {
            for &(row, amount) in self.touches.at(unit) {
                totals[row as usize] += self.gain(row as usize, amount, usize::from(zone));
            }
        }
        totals
    }

    /// Cost, boundary, penalty and shortfall of a whole plan.
    fn sums(&self, plan: &[u8], totals: &[u64]) -> [u64; 4] {
        let (mut cost, mut boundary) = (0, 0);
        for (unit, &zone) in plan.iter().enumerate() {
            let zone = usize::from(zone);
            cost += self.costs[unit][zone];
            for &(neighbour, length) in self.neighbours.at(unit).iter().filter(|n| n.0 as usize > unit) {
                boundary += round(length * RATES[zone][usize::from(plan[neighbour as usize])], MILLION);
            }
        }
        let penalty = (0..totals.len()).map(|row| self.penalty(row, totals[row])).sum();
        let shortfall = (0..totals.len()).map(|row| self.targets[row].level.saturating_sub(totals[row])).sum();
        [cost, boundary, penalty, shortfall]
    }
}

/// The temperatures of the levels, by the changes of the sample's draws on the starting plan.
fn found_temperatures(region: &Region, state: &State, seed: u64, levels: usize) -> Vec<u128> {
    let mut words = Pcg32::new(seed, 64 + SAMPLE_SEAT);
    let sizes: Vec<u64> = (0..SAMPLES)
        .map(|_| {
            let draw = region.draw(&mut words);
            region.change(state, draw.unit, region.moved(&state.plan, &draw)).unsigned_abs()
        })
        .collect();
    let first = 1000 * u128::from(sizes.iter().copied().max().unwrap_or(0).max(1));
    let end = (100 * u128::from(sizes.iter().copied().filter(|&size| size > 0).min().unwrap_or(0))).max(1);
    let last = |factor: u128| (0..levels).fold(first, |t, _| (t * factor / 1_000_000_000).max(1));
    let (mut low, mut high) = (0, 1_000_000_000);
    while low + 1 < high {
        let middle = (low + high) / 2;
        if last(middle) <= end {
            low = middle;
        } else {
            high = middle;
        }
    }
    let next = |t: &u128| Some((t * low / 1_000_000_000).max(1));
    std::iter::successors(Some(first), next).take(levels).collect()
}

fn staircase() -> Vec<u64> {
    let step = |g: &u64| Some(g - g / 64);
    std::iter::successors(Some(1 << 32), step).take(1408).collect()
}

fn is_accepted(stairs: &[u64], change: i64, temperature: u128, word: u32) -> bool {
    if change <= 0 {
        return true;
    }
    let step = 64_000 * change as u128 / temperature;
    step < 1408 && u64::from(word) < stairs[step as usize]
}

fn main() {
    let folder = env::args().nth(1).expect("a folder");
    let keys = keys(&folder);
    let (seed, levels) = (keys["RANDSEED"] as u64, keys["NUMTEMP"] as usize);
    let proposals = keys["NUMITNS"] as usize;
    let region = Region::read(&folder);
    let mut state = region.start();
    let began = Instant::now();
    // One that is given stays, since the projects of the bench give no factor.
    let temperatures = match u128::try_from(keys["STARTTEMP"]) {
        Ok(given) => vec![given * DEGREE; levels],
        Err(_) => found_temperatures(&region, &state, seed, levels),
    };
    let stairs = staircase();
    let mut words = Pcg32::new(seed, 64);
    let mut accepted = 0;
    for position in 0..proposals {
        let draw = region.draw(&mut words);
        let new = region.moved(&state.plan, &draw);
        let change = region.change(&state, draw.unit, new);
        let temperature = temperatures[position * levels / proposals];
        if is_accepted(&stairs, change, temperature, draw.word) {
            region.accept(&mut state, draw.unit, new, change);
            accepted += 1;
        }
    }
    let nanoseconds = began.elapsed().as_nanos();
    let sums = region.sums(&state.plan, &region.totals(&state.plan));
    let mut text = String::from("planning_unit,zone\n");
    for (unit, zone) in state.plan.iter().enumerate() {
        text += &format!("{},{}\n", unit + 1, zone + 1);
    }
    let numbers = std::iter::once(state.score).chain(sums);
    for (name, number) in ["score", "cost", "boundary", "penalty", "shortfall"].iter().zip(numbers) {
        text += &format!("{name},{}.{:04}\n", number / UNIT, number % UNIT);
    }
    fs::write(format!("{folder}/plain_best.csv"), text).unwrap();
    println!("{nanoseconds} {}.{:04} {accepted}", state.score / UNIT, state.score % UNIT);
}
