//! Reports of a whole cycle at once: a list of reports, and a list that receives
//! one answer for each.

use crate::fault::Fault;
use crate::schedule::{Moved, Refusal, Schedule};

/// Up to so many reports at once.
pub const MOST_REPORTS: usize = 64;

#[derive(Clone, Copy, Debug, PartialEq, Eq)]
pub struct Report {
    pub handle: i64,
    pub sample: i64,
}

/// Checks 13, 14, before any report. Then the reports are made singly in list
/// order, each answered by its entry. Answers how many there were.
pub fn report_all(
    schedule: &mut Schedule,
    reports: &[Report],
    answers: &mut [u32],
) -> Result<usize, Refusal> {
    let many = reports.len() > MOST_REPORTS;
    let short = answers.len() < reports.len();
    if short && schedule.fault == Fault::ShortBeforeMany {
        return Err(14);
    }
    if many {
        return Err(13);
    }
    if short {
        return Err(14);
    }
    for (at, report) in reports.iter().enumerate() {
        let answer = schedule.report(report.handle, report.sample);
        answers[at] = entry(answer);
        if answer.is_err() && schedule.fault == Fault::RefusedEndsList {
            return Ok(at + 1);
        }
    }
    if schedule.fault == Fault::RestOfListCleared {
        answers[reports.len()..].fill(0);
    }
    Ok(reports.len())
}

/// The answer to a report as one number: that of its refusal, or a number for
/// what happened, plus the length.
pub fn entry(answer: Result<(Moved, i64), Refusal>) -> u32 {
    match answer {
        Ok((Moved::Kept, length)) => 65_536 + length as u32,
        Ok((Moved::Grown, length)) => 131_072 + length as u32,
        Ok((Moved::Shrunk, length)) => 196_608 + length as u32,
        Ok((Moved::Tight, length)) => 262_144 + length as u32,
        Err(refusal) => refusal,
    }
}

#[cfg(test)]
mod tests {
    use super::*;

    fn one_at_48() -> Schedule {
        let mut schedule = Schedule::fresh(Fault::None);
        assert_eq!(schedule.admit(0, 6, 48, 1, 4), Ok((8, 0, 1)));
        schedule
    }

    fn of(handle: i64, sample: i64) -> Report {
        Report { handle, sample }
    }

    #[test]
    fn the_order_of_two_reports_counts() {
        let mut entries = [0; 2];
        let mut s = one_at_48();
        assert_eq!(report_all(&mut s, &[of(0, 7_500), of(0, 0)], &mut entries), Ok(2));
        assert_eq!(entries, [131_074, 196_609]);
        let mut s = one_at_48();
        assert_eq!(report_all(&mut s, &[of(0, 0), of(0, 7_500)], &mut entries), Ok(2));
        assert_eq!(entries, [65_537, 65_537]);
    }

    #[test]
    fn refused_by_the_lengths_alone() {
        let mut s = one_at_48();
        let before = s.connections.clone();
        for (reports, entries, refusal) in [(65, 65, 13), (65, 64, 13), (64, 63, 14), (1, 0, 14)] {
            let mut answers = vec![7; entries];
            let list = vec![of(0, 7_500); reports];
            assert_eq!(report_all(&mut s, &list, &mut answers), Err(refusal));
            assert_eq!(answers, vec![7; entries]);
            assert_eq!(s.connections, before);
        }
        let mut answers = [7; 65];
        assert_eq!(report_all(&mut s, &[], &mut answers), Ok(0));
        assert_eq!(report_all(&mut s, &[of(0, 5_000); 64], &mut answers), Ok(64));
        assert_eq!(answers[..64], [65_537; 64]);
        assert_eq!(answers[64], 7);
    }
}
