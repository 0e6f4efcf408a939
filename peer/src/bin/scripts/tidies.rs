//! Lines that tidy the schedule as it stands, with lists of all lengths.

use crate::random::Random;
use peer::schedule::Schedule;
use peer::script::LONGEST_MOVES;
use peer::tidy::{tidy, MOVE_WIDTH};

/// How many moves a tidy has, if it finds an anchor for all.
pub fn moves(schedule: &Schedule) -> Option<usize> {
    let mut list = [0; LONGEST_MOVES as usize];
    tidy(&mut schedule.clone(), &mut list).ok()
}

/// So many kinds of lists are too short, if anything moves.
pub const SHORT: usize = 4;
/// So many are long enough.
pub const ENOUGH: usize = 6;

/// The kinds that are too short come first. Where an anchor is missing, a list is as for a few
/// moves.
pub fn of_kind(random: &mut Random, schedule: &Schedule, which: usize) -> String {
    let many = moves(schedule).unwrap_or(random.place(9));
    let need = MOVE_WIDTH * many;
    let longest = LONGEST_MOVES as usize;
    let size = match which % (SHORT + ENOUGH) {
        0 => 0,
        // Short by an entry, by a number, by any.
        1 => need.saturating_sub(MOVE_WIDTH),
        2 => need.saturating_sub(1),
        3 => random.place(need),
        // Exact, and with one number or two over.
        4 => need,
        5 => need + 1,
        6 => need + 2,
        // With entries over.
        7 => need + MOVE_WIDTH + random.place(3),
        8 => need + random.place(24),
        _ => random.pick(&[longest, longest - 1, longest - 2, MOVE_WIDTH * 64]),
    };
    format!("tidy {size}")
}

/// Mostly with a list that is long enough, and seldom with a long one.
pub fn any(random: &mut Random, schedule: &Schedule) -> String {
    let kinds = if random.chance(4) { SHORT + ENOUGH } else { SHORT + ENOUGH - 1 };
    let first = if random.chance(30) { 0 } else { SHORT };
    let which = first + random.place(kinds - first);
    of_kind(random, schedule, which)
}

#[cfg(test)]
mod tests {
    use super::*;
    use crate::images::random_schedule;
    use peer::fault::Fault;
    use peer::script::Session;

    #[test]
    fn every_kind_gets_its_answer() {
        let mut accepted = 0;
        for round in 0..200 {
            let mut random = Random::new(round, 0);
            let schedule = random_schedule(&mut random, 20);
            let moves = moves(&schedule);
            for which in 0..SHORT + ENOUGH {
                let line = of_kind(&mut random, &schedule, which);
                let mut session = Session::new(Fault::None);
                session.schedule = schedule.clone();
                let answer = session.line(line.as_bytes());
                let start = match moves {
                    None => "no 19".to_string(),
                    Some(1..) if which < SHORT => "no 14".to_string(),
                    Some(many) => format!("tidied {many}"),
                };
                assert!(answer.starts_with(&start), "{line}: {answer}");
                accepted += usize::from(answer.starts_with("tidied"));
            }
        }
        assert!(accepted > 200, "{accepted}");
    }
}
