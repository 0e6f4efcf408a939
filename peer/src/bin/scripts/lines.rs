//! Single good lines, chosen with a look at the schedule as it stands.

use crate::lists;
use crate::messages;
use crate::random::Random;
use crate::ranges;
use crate::tidies;
use peer::image::image;
use peer::reports::Report;
use peer::schedule::{Connection, Schedule, BLOCK_US, GREATEST_INTERVAL, GUARD_US};
use peer::schedule::{LARGEST_K, LEAST_INTERVAL, SLOTS};

/// Numbers at which a block counter, a sample or a handle may go wrong.
const EDGES: [i64; 16] = [
    0,
    1,
    63,
    64,
    65,
    127,
    128,
    255,
    256,
    511,
    512,
    513,
    65_535,
    65_536,
    2_147_483_648,
    4_294_967_295,
];

/// Intervals at and beside each 6 × 2^k, and at which a refusal begins.
const INTERVALS: [i64; 38] = [
    0,
    1,
    5,
    6,
    7,
    11,
    12,
    13,
    23,
    24,
    25,
    47,
    48,
    49,
    95,
    96,
    97,
    191,
    192,
    193,
    383,
    384,
    385,
    767,
    768,
    769,
    1_535,
    1_536,
    1_537,
    3_071,
    3_072,
    3_073,
    3_199,
    3_200,
    3_201,
    4_096,
    65_542,
    4_294_967_295,
];

/// A live handle and its connection.
pub fn live(random: &mut Random, schedule: &Schedule) -> Option<(usize, Connection)> {
    let all: Vec<_> = schedule.live().map(|(handle, c)| (handle, c.clone())).collect();
    if all.is_empty() {
        None
    } else {
        Some(random.pick(&all))
    }
}

/// A handle that is not live, if there is one.
pub fn idle_handle(random: &mut Random, schedule: &Schedule) -> Option<usize> {
    let idle: Vec<usize> = (0..64).filter(|&h| schedule.connections[h].is_none()).collect();
    if idle.is_empty() {
        None
    } else {
        Some(random.pick(&idle))
    }
}

/// Mostly a live handle, sometimes another one.
fn some_handle(random: &mut Random, schedule: &Schedule) -> i64 {
    match live(random, schedule) {
        Some((handle, _)) if random.chance(92) => handle as i64,
        _ if random.chance(85) => random.between(0, 63),
        _ => random.pick(&EDGES),
    }
}

/// Mostly an idle handle, sometimes another one.
fn new_handle(random: &mut Random, schedule: &Schedule) -> i64 {
    match idle_handle(random, schedule) {
        Some(handle) if random.chance(94) => handle as i64,
        _ if random.chance(80) => random.between(0, 63),
        _ => random.pick(&EDGES),
    }
}

/// The line of an admission by a range. Where the smallest is 6, it is either form.
pub fn admission(
    random: &mut Random,
    handle: i64,
    (smallest, largest): (i64, i64),
    (floor, ceiling): (i64, i64),
) -> String {
    if smallest == LEAST_INTERVAL && random.chance(80) {
        format!("admit {handle} {largest} {floor} {ceiling}")
    } else {
        format!("admit {handle} {smallest} {largest} {floor} {ceiling}")
    }
}

/// The k of one interval, 0 if it is below 6.
pub fn k_of(interval: i64) -> i64 {
    (0..LARGEST_K).take_while(|k| SLOTS << (k + 1) <= interval).count() as i64
}

/// Mostly 6; otherwise up to this interval's 6 × 2^k, and now and then above it.
fn smallest_for(random: &mut Random, largest: i64) -> i64 {
    let at = SLOTS << k_of(largest);
    match random.between(0, 19) {
        0..=14 => LEAST_INTERVAL,
        15 | 16 => at,
        17 | 18 => random.between(LEAST_INTERVAL, at),
        _ => random.between(LEAST_INTERVAL, largest),
    }
}

/// Any interval with this k.
fn interval_of(random: &mut Random, k: i64) -> i64 {
    let low = SLOTS << k;
    let high = if k == LARGEST_K { GREATEST_INTERVAL } else { 2 * low - 1 };
    random.between(low, high)
}

/// The most that a ceiling is to be with this factor: mostly half of it (1 for F 1), and now and
/// then so much that 20 or 5 may refuse it.
fn highest(random: &mut Random, factor: i64, beyond: i64) -> i64 {
    if random.chance(90) {
        (factor / 2).max(1)
    } else {
        beyond
    }
}

/// A logger as one would meet it: a long interval, a small floor and ceiling.
pub fn join(random: &mut Random, schedule: &Schedule) -> String {
    let handle = new_handle(random, schedule);
    let k = random.pick(&[1, 2, 3, 3, 4, 4, 5, 5, 5, 6, 6, 6, 7, 7, 7, 8, 8, 8, 8, 8, 8]);
    let interval = match random.between(0, 9) {
        0 => random.pick(&[6, 12, 24, 48, 80, 160, 400, 800, 1_600, 3_072, 3_200]),
        1 => random.between(6, 3_200),
        _ => interval_of(random, k),
    };
    let smallest = smallest_for(random, interval);
    let floor = random.pick(&[1, 1, 1, 1, 1, 1, 2, 2, 3, 4]);
    let ceiling = floor + random.pick(&[0, 0, 1, 1, 2, 3, 4, 6]);
    let most = highest(random, 1 << k_of(interval), ceiling);
    admission(random, handle, (smallest, interval), (floor.min(most), ceiling.min(most)))
}

/// An admission that takes much: any factor from 2^low to 2^high, up to a
/// `share` (in hundredths) of the cycle, room to grow.
pub fn crowd(random: &mut Random, schedule: &Schedule, low: i64, high: i64, share: i64) -> String {
    let handle = new_handle(random, schedule);
    let k = random.between(low, high);
    let factor = 1 << k;
    let interval = interval_of(random, k);
    let smallest = smallest_for(random, interval);
    let most = highest(random, factor, factor);
    let floor = random.between(1, (factor * share / 100).clamp(1, most));
    let ceiling = match random.between(0, 3) {
        0 => floor,
        1 => most,
        _ => random.between(floor, most),
    };
    admission(random, handle, (smallest, interval), (floor, ceiling))
}

/// An admission with numbers at the edges of the checks.
pub fn edge_admission(random: &mut Random, schedule: &Schedule) -> String {
    let handle = match random.between(0, 9) {
        0..=5 => new_handle(random, schedule),
        6 | 7 => some_handle(random, schedule),
        _ => random.pick(&EDGES),
    };
    let smallest = if random.chance(50) { LEAST_INTERVAL } else { edge_interval(random) };
    let largest = edge_interval(random);
    let factor = 1 << k_of(largest);
    let half = factor / 2;
    let floor = random.pick(&[
        0,
        0,
        1,
        1,
        1,
        1,
        2,
        half,
        half,
        half + 1,
        factor,
        factor + 1,
        65_537,
        4_294_967_295,
    ]);
    let ceiling = random.pick(&[
        0,
        1,
        floor,
        floor,
        floor - 1,
        floor + 1,
        half - 1,
        half,
        half,
        half + 1,
        half + 1,
        factor,
        factor + 1,
        65_537,
        4_294_967_295,
    ]);
    // The sums above may leave the numbers of the language by one.
    let within = |number: i64| number.clamp(0, 4_294_967_295);
    let share = (within(floor), within(ceiling));
    admission(random, handle, (smallest, largest), share)
}

fn edge_interval(random: &mut Random) -> i64 {
    if random.chance(60) {
        random.pick(&INTERVALS)
    } else {
        random.between(0, 3_300)
    }
}

/// An admission by a range of any kind.
pub fn ranged(random: &mut Random, schedule: &Schedule) -> String {
    let handle = new_handle(random, schedule);
    let which = random.place(ranges::RANGES);
    let (smallest, largest) = ranges::of_kind(random, which);
    let refusal = random.pick(&[None, None, None, Some(20), Some(5)]);
    let share = ranges::share(random, 1 << k_of(largest), refusal);
    admission(random, handle, (smallest, largest), share)
}

/// An admission with this k and ceiling, by one interval or by a range, with a floor of 1 or as
/// large as the ceiling.
pub fn with_ceiling(random: &mut Random, handle: i64, k: i64, ceiling: i64) -> String {
    let interval = interval_of(random, k);
    let smallest = random.pick(&[LEAST_INTERVAL, SLOTS << k]);
    let floor = random.pick(&[1, 1, ceiling]);
    admission(random, handle, (smallest, interval), (floor, ceiling))
}

pub fn report(random: &mut Random, schedule: &Schedule) -> String {
    said(aimed(random, schedule))
}

fn said(report: Report) -> String {
    format!("report {} {}", report.handle, report.sample)
}

/// A report. Many samples aim at the very edge of growing or shrinking.
pub fn aimed(random: &mut Random, schedule: &Schedule) -> Report {
    let handle = some_handle(random, schedule);
    let connection = usize::try_from(handle)
        .ok()
        .and_then(|handle| schedule.connections.get(handle))
        .and_then(|place| place.clone());
    let Some(c) = connection else {
        let sample = if random.chance(50) { random.between(0, 9_000) } else { random.pick(&EDGES) };
        return Report { handle, sample };
    };
    let most = c.length * BLOCK_US;
    // The sample (one of eight) that moves the estimate to just this value.
    let moving_to = |random: &mut Random, estimate: i64| {
        c.estimate + 8 * (estimate - c.estimate) + random.between(0, 7)
    };
    let sample = match random.between(0, 13) {
        0..=3 => most,
        4 => most - random.between(0, 40),
        5 => 0,
        6 => random.between(0, most / 4),
        7 => c.estimate + random.between(-20, 20),
        8 => moving_to(random, most - GUARD_US),
        9 => moving_to(random, most - GUARD_US + 1),
        10 => {
            let edge = most - BLOCK_US - GUARD_US + random.between(0, 1);
            moving_to(random, edge)
        }
        11 => random.pick(&[most, most + 1, most + 1, 4_294_967_295, 0]),
        _ => random.between(0, most),
    };
    let sample = if sample > most + 1 && sample < 4_294_967_295 { most } else { sample };
    Report { handle, sample: sample.max(0) }
}

pub fn plausible_report(random: &mut Random, schedule: &Schedule) -> String {
    match live(random, schedule) {
        Some((handle, c)) if random.chance(95) => said(plausible(random, handle, &c)),
        _ => report(random, schedule),
    }
}

/// A report as a logger would send it: near what its run holds.
pub fn plausible(random: &mut Random, handle: usize, c: &Connection) -> Report {
    let most = c.length * BLOCK_US;
    let low = if random.chance(30) { 0 } else { most / 2 };
    Report { handle: handle as i64, sample: random.between(low, most) }
}

/// A drop; often of a run that goes round the end of its cycle, if there is one.
pub fn leave(random: &mut Random, schedule: &Schedule) -> String {
    let round_the_end: Vec<usize> = schedule
        .live()
        .filter(|(_, c)| c.anchor + c.length > c.factor())
        .map(|(handle, _)| handle)
        .collect();
    if !round_the_end.is_empty() && random.chance(40) {
        format!("drop {}", random.pick(&round_the_end))
    } else {
        format!("drop {}", some_handle(random, schedule))
    }
}

fn some_block(random: &mut Random, schedule: &Schedule) -> i64 {
    match (random.between(0, 5), live(random, schedule)) {
        (0, _) => random.pick(&EDGES),
        (1, _) => random.between(0, 4_294_967_295),
        // Round the ends of a run, in any of its periods.
        (2 | 3, Some((_, c))) => {
            let period = random.between(0, 600) * c.factor();
            let end = if random.chance(50) { 0 } else { c.length };
            (period + c.anchor + end + random.between(-2, 1)).max(0)
        }
        _ => random.between(0, 511),
    }
}

pub fn question(random: &mut Random, schedule: &Schedule) -> String {
    let block = some_block(random, schedule);
    if random.chance(60) {
        format!("owner {block}")
    } else {
        format!("anchor {} {block}", some_handle(random, schedule))
    }
}

/// A save into a lent buffer: none, too short, just right or with room left.
pub fn lent_save(random: &mut Random, schedule: &Schedule) -> String {
    let exact = image(schedule).len() as i64;
    let more = random.between(2, 60);
    let size = random.pick(&[
        exact - 1,
        exact,
        exact,
        exact + 1,
        exact + more,
        exact + more,
        exact / 2,
        0,
        1,
        137,
        138,
        139,
    ]);
    format!("save {size}")
}

/// A line that shows what the schedule holds.
pub fn show(random: &mut Random, schedule: &Schedule) -> String {
    match random.between(0, 9) {
        0..=5 => "state".to_string(),
        6 | 7 => "save".to_string(),
        _ => lent_save(random, schedule),
    }
}

/// Any good line but `fresh` and `load`.
pub fn any(random: &mut Random, schedule: &Schedule) -> String {
    match random.between(0, 23) {
        0 | 1 => join(random, schedule),
        2 | 3 => crowd(random, schedule, 3, 8, 15),
        4 => edge_admission(random, schedule),
        5..=10 => report(random, schedule),
        11 => leave(random, schedule),
        12..=16 => question(random, schedule),
        17 => lists::any(random, schedule),
        18 => ranged(random, schedule),
        19 => messages::any(random),
        20 => tidies::any(random, schedule),
        _ => show(random, schedule),
    }
}
