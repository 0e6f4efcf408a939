//! Lines with a list of reports, chosen with a look at the schedule as it stands.

use crate::lines;
use crate::random::Random;
use peer::reports::{Report, MOST_REPORTS};
use peer::schedule::{Schedule, BLOCKS, BLOCK_US, HANDLES};
use peer::script::LONGEST_LIST;

/// The line that lends so many entries for these reports.
pub fn line(entries: usize, reports: &[Report]) -> String {
    let numbers: String = reports.iter().map(|r| format!(" {} {}", r.handle, r.sample)).collect();
    format!("reports {entries}{numbers}")
}

/// So many reports, each chosen in the schedule that those before it leave.
fn one_by_one(
    schedule: &Schedule,
    count: usize,
    mut choose: impl FnMut(&Schedule, usize) -> Report,
) -> Vec<Report> {
    let mut now = schedule.clone();
    let mut reports = Vec::new();
    for at in 0..count {
        let report = choose(&now, at);
        let _ = now.report(report.handle, report.sample);
        reports.push(report);
    }
    reports
}

/// So many reports of any connections, as single lines have them.
pub fn mixed(random: &mut Random, schedule: &Schedule, count: usize) -> Vec<Report> {
    one_by_one(schedule, count, |now, _| lines::aimed(random, now))
}

/// One report of each of these handles, in this order; it is refused if the handle is not live.
fn of_each(random: &mut Random, schedule: &Schedule, handles: &[usize]) -> Vec<Report> {
    one_by_one(schedule, handles.len(), |now, at| match &now.connections[handles[at]] {
        Some(c) => lines::plausible(random, handles[at], c),
        None => Report { handle: handles[at] as i64, sample: random.between(0, BLOCK_US) },
    })
}

/// A report of all that the run holds.
fn at_its_most(schedule: &Schedule, handle: usize) -> Report {
    let length = schedule.connections[handle].as_ref().map_or(0, |c| c.length);
    Report { handle: handle as i64, sample: BLOCK_US * length }
}

/// So many reports of one connection, which grows and then has nothing to do, or the other way round.
fn of_one(random: &mut Random, schedule: &Schedule, count: usize) -> Vec<Report> {
    let handle = lines::live(random, schedule).map_or(0, |(handle, _)| handle);
    let turn = random.place(count + 1);
    let busy_first = random.chance(60);
    one_by_one(schedule, count, |now, at| {
        if (at < turn) == busy_first {
            at_its_most(now, handle)
        } else {
            Report { handle: handle as i64, sample: 0 }
        }
    })
}

/// Two neighbours by turns, each at its most: the first grows up to the second, and is then tight.
fn neighbours(random: &mut Random, schedule: &Schedule) -> Vec<Report> {
    let Some((first, c)) = lines::live(random, schedule) else {
        return Vec::new();
    };
    let end = c.anchor + c.length;
    let second = (end..end + BLOCKS).find_map(|block| schedule.owner(block)).unwrap_or(first);
    let count = random.between(24, MOST_REPORTS as i64) as usize;
    one_by_one(schedule, count, |now, at| {
        at_its_most(now, if at % 2 == 0 { first } else { second })
    })
}

/// A report that is refused: 3, 7 or 1.
fn refused(random: &mut Random, schedule: &Schedule) -> Report {
    let idle = lines::idle_handle(random, schedule);
    match (random.between(0, 2), idle, lines::live(random, schedule)) {
        (0, Some(handle), _) => Report { handle: handle as i64, sample: random.between(0, 9_000) },
        (1, _, Some((handle, c))) => {
            Report { handle: handle as i64, sample: c.length * BLOCK_US + 1 }
        }
        _ => Report { handle: random.pick(&[64, 65, 256, 4_294_967_295]), sample: 0 },
    }
}

/// Refused reports first, in the middle and last.
fn with_refused(random: &mut Random, schedule: &Schedule) -> Vec<Report> {
    let count = random.between(3, 12) as usize;
    one_by_one(schedule, count, |now, at| {
        if at == 0 || at == count / 2 || at == count - 1 {
            refused(random, now)
        } else {
            lines::aimed(random, now)
        }
    })
}

/// Entries for so many reports: just enough, or some to spare.
fn room(random: &mut Random, count: usize) -> usize {
    let more = random.place(20);
    random.pick(&[count, count, count + 1, count + more, MOST_REPORTS, LONGEST_LIST]).max(count)
}

/// How many kinds of lists there are.
pub const LISTS: usize = 12;

pub fn of_kind(random: &mut Random, schedule: &Schedule, which: usize) -> String {
    let (entries, reports) = match which % LISTS {
        // A full cycle.
        0 => {
            let mut handles: Vec<usize> = (0..HANDLES).collect();
            if random.chance(50) {
                random.shuffle(&mut handles);
            }
            (room(random, HANDLES), of_each(random, schedule, &handles))
        }
        // None.
        1 => (random.pick(&[0, 1, 2, 64, 128]), Vec::new()),
        // Too many, with enough entries.
        2 => {
            let count = random.pick(&[65, 65, 66, 100, 127, 128]);
            (random.pick(&[count, LONGEST_LIST]), mixed(random, schedule, count))
        }
        // Too short by one.
        3 => {
            let count = random.pick(&[1, 2, 3, 8, 63, 64]);
            (count - 1, mixed(random, schedule, count))
        }
        // Too many, and too short.
        4 => {
            let count = random.pick(&[65, 65, 66, 128]);
            (random.pick(&[0, 1, 64, count - 1]), mixed(random, schedule, count))
        }
        5 => (room(random, 2), of_one(random, schedule, 2)),
        6 => (room(random, 60), of_one(random, schedule, 60)),
        7 => {
            let reports = with_refused(random, schedule);
            (room(random, reports.len()), reports)
        }
        8 => {
            let reports = neighbours(random, schedule);
            (room(random, reports.len()), reports)
        }
        // Entries beyond the reports.
        9 => {
            let count = random.place(9);
            (count + 1 + random.place(12), mixed(random, schedule, count))
        }
        // The fewest entries and the most.
        10 => {
            let count = random.pick(&[1, 2, 64]);
            (random.pick(&[0, LONGEST_LIST]), mixed(random, schedule, count))
        }
        _ => return of_the_live(random, schedule),
    };
    line(entries, &reports)
}

/// What the radio core would hand over: a report of each live connection.
pub fn of_the_live(random: &mut Random, schedule: &Schedule) -> String {
    let handles: Vec<usize> = schedule.live().map(|(handle, _)| handle).collect();
    line(room(random, handles.len()), &of_each(random, schedule, &handles))
}

pub fn any(random: &mut Random, schedule: &Schedule) -> String {
    let which = random.place(LISTS);
    of_kind(random, schedule, which)
}

#[cfg(test)]
mod tests {
    use super::*;
    use crate::images::random_schedule;
    use peer::fault::Fault;
    use peer::script::Session;

    #[test]
    fn every_kind_gets_its_answer() {
        for round in 0..40 {
            let mut random = Random::new(round, 0);
            let schedule = random_schedule(&mut random, 40);
            for which in 0..LISTS {
                let line = of_kind(&mut random, &schedule, which);
                let mut session = Session::new(Fault::None);
                session.schedule = schedule.clone();
                let answer = session.line(line.as_bytes());
                let start = match which {
                    2 | 4 => "no 13",
                    3 => "no 14",
                    10 if line.starts_with("reports 0 ") => "no 14",
                    _ => "reported ",
                };
                assert!(answer.starts_with(start), "{line}: {answer}");
            }
        }
    }
}
