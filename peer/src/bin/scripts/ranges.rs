//! Ranges of intervals, smallest and largest, for admissions.

use crate::random::Random;
use peer::schedule::{GREATEST_INTERVAL, LARGEST_K, LEAST_INTERVAL, SLOTS};

/// 6 × 2^k, or beside it.
fn near(random: &mut Random, k: i64) -> i64 {
    (SLOTS << k) + random.between(-1, 1)
}

/// A connection interval.
fn inside(random: &mut Random) -> i64 {
    random.between(LEAST_INTERVAL, GREATEST_INTERVAL)
}

fn below(random: &mut Random) -> i64 {
    let any = random.between(0, LEAST_INTERVAL - 1);
    random.pick(&[0, LEAST_INTERVAL - 1, LEAST_INTERVAL - 1, any])
}

fn above(random: &mut Random) -> i64 {
    let least = GREATEST_INTERVAL + 1;
    random.pick(&[least, least, 6_144, 65_542, 4_294_967_295])
}

/// How many kinds of ranges there are.
pub const RANGES: usize = 10;

pub fn of_kind(random: &mut Random, which: usize) -> (i64, i64) {
    // 6 × 2^9 is an interval too, of which there is no factor.
    let k = random.between(0, LARGEST_K + 1);
    // The next interval above 6 × 2^k, and the last before the next that has a factor.
    let next = (SLOTS << k.min(LARGEST_K)) + 1;
    let last = if k < LARGEST_K { (SLOTS << (k + 1)) - 1 } else { GREATEST_INTERVAL };
    match which % RANGES {
        // Both ends at or beside one 6 × 2^k.
        0 => (near(random, k), near(random, k)),
        // At or beside two of them.
        1 => {
            let higher = random.between(k, LARGEST_K + 1);
            (near(random, k), near(random, higher))
        }
        // All that is between two of them, or above the last.
        2 => (next, last),
        // A part of that.
        3 => {
            let smallest = random.between(next, last);
            (smallest, random.between(smallest, last))
        }
        // One number.
        4 => {
            let one = near(random, k).max(LEAST_INTERVAL);
            (one, one)
        }
        5 => (LEAST_INTERVAL, near(random, k).max(LEAST_INTERVAL)),
        6 => (below(random), inside(random)),
        7 => (inside(random), above(random)),
        // Both outside.
        8 => match random.between(0, 2) {
            0 => (below(random), above(random)),
            1 => (0, below(random)),
            _ => (GREATEST_INTERVAL + 1, above(random)),
        },
        // In the wrong order.
        _ => {
            let largest = random.between(LEAST_INTERVAL, GREATEST_INTERVAL - 1);
            let any = random.between(largest + 1, GREATEST_INTERVAL);
            (random.pick(&[largest + 1, any, any]), largest)
        }
    }
}

/// A share, floor and ceiling, that 5 refuses with this factor, or 20, or none of the two. With F 1
/// there is none that 20 lets pass.
pub fn share(random: &mut Random, factor: i64, refusal: Option<u32>) -> (i64, i64) {
    let half = (factor / 2).max(1);
    let above = factor / 2 + 1;
    match refusal {
        Some(5) => {
            let more = factor + 1;
            // The last five would be for 20 too.
            random.pick(&[
                (0, 0),
                (0, 1),
                (2, 1),
                (0, above),
                (more, factor),
                (1, more),
                (1, more),
                (more, more),
            ])
        }
        Some(_) => {
            random.pick(&[(1, above), (1, above), (above, above), (1, factor), (factor, factor)])
        }
        None => random.pick(&[(1, 1), (1, 1), (1, half), (half, half)]),
    }
}

#[cfg(test)]
mod tests {
    use super::*;
    use crate::lines::k_of;
    use peer::fault::Fault;
    use peer::schedule::Schedule;

    #[test]
    fn every_kind_gets_its_answer() {
        for round in 0..400 {
            let mut random = Random::new(round, 0);
            for which in 0..RANGES {
                let (smallest, largest) = of_kind(&mut random, which);
                let factor = 1 << k_of(largest);
                let mut answer = |refusal: Option<u32>| {
                    let (floor, ceiling) = share(&mut random, factor, refusal);
                    let mut schedule = Schedule::fresh(Fault::None);
                    schedule.admit(0, smallest, largest, floor, ceiling).map(|(f, a, _)| (f, a))
                };
                let good = answer(None);
                match which {
                    2 | 3 => assert_eq!(good, Err(15), "{smallest} to {largest}"),
                    5 if factor == 1 => assert_eq!(good, Err(20), "{smallest} to {largest}"),
                    5 => assert_eq!(good, Ok((factor, 0)), "{smallest} to {largest}"),
                    6..=9 => assert_eq!(good, Err(4), "{smallest} to {largest}"),
                    _ => {}
                }
                for refusal in [5, 20] {
                    let expected = match good {
                        Ok(_) | Err(20) => Err(refusal),
                        before => before,
                    };
                    assert_eq!(answer(Some(refusal)), expected, "{smallest} to {largest}");
                }
            }
        }
    }
}
