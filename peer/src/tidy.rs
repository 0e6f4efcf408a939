//! Tidy: the live connections are placed anew, so that the holes between them close up.

use crate::fault::Fault;
use crate::schedule::{first_open, Connection, Refusal, Schedule};

/// A move is so many numbers of the lent list: handle, old anchor, new anchor.
pub const MOVE_WIDTH: usize = 3;

type Move = [u32; MOVE_WIDTH];

/// Checks 19, 14. Then the new anchors take effect, and the moves are written from the start of
/// the list. Answers how many there are.
pub fn tidy(schedule: &mut Schedule, list: &mut [u32]) -> Result<usize, Refusal> {
    let (placed, all_placed) = placed_anew(schedule);
    if !all_placed {
        if schedule.fault == Fault::PlacedStayMoved {
            take_over(schedule, placed);
        }
        return Err(19);
    }
    let moves = moves(schedule, &placed);
    // What is left over at the list's end is no entry.
    if list.len() / MOVE_WIDTH < moves.len() {
        if schedule.fault == Fault::ShortListMoves {
            take_over(schedule, placed);
        }
        return Err(14);
    }
    take_over(schedule, placed);
    let (entries, rest) = list.split_at_mut(MOVE_WIDTH * moves.len());
    entries.copy_from_slice(&moves.concat());
    if schedule.fault == Fault::RestOfMovesCleared {
        rest.fill(0);
    }
    Ok(moves.len())
}

/// The live connections by rising factor, equal factors by rising handle.
fn in_order(schedule: &Schedule) -> Vec<(usize, &Connection)> {
    let mut live: Vec<(usize, &Connection)> = schedule.live().collect();
    if schedule.fault != Fault::TidiedByHandle {
        live.sort_by_key(|(handle, connection)| (connection.factor(), *handle));
    }
    live
}

/// Each in that order on an empty schedule, beside those placed so far, up to the first that
/// finds no anchor: those placed, and whether they are all.
fn placed_anew(schedule: &Schedule) -> (Schedule, bool) {
    let mut placed = Schedule::fresh(schedule.fault);
    for (handle, connection) in in_order(schedule) {
        let run = match schedule.fault {
            Fault::FloorPlaced => connection.floor,
            _ => connection.length,
        };
        let Some(anchor) = first_open(&placed.taken(), connection.k, run, schedule.fault) else {
            return (placed, false);
        };
        placed.connections[handle] = Some(Connection { anchor, ..connection.clone() });
    }
    (placed, true)
}

/// By rising handle, a move for each connection whose anchor differs.
fn moves(schedule: &Schedule, placed: &Schedule) -> Vec<Move> {
    let same_handles = schedule.live().zip(placed.live());
    same_handles
        .filter(|((_, old), (_, new))| old.anchor != new.anchor)
        .map(|((handle, old), (_, new))| [handle as u32, old.anchor as u32, new.anchor as u32])
        .collect()
}

/// Those placed are where they were placed; the others stay.
fn take_over(schedule: &mut Schedule, placed: Schedule) {
    for (place, new) in schedule.connections.iter_mut().zip(placed.connections) {
        if new.is_some() {
            *place = new;
        }
    }
}

#[cfg(test)]
mod tests {
    use super::*;

    /// Connections (handle, k, anchor, length) with floor 1.
    fn with(connections: &[(usize, i64, i64, i64)], fault: Fault) -> Schedule {
        let mut schedule = Schedule::fresh(fault);
        for &(handle, k, anchor, length) in connections {
            let ceiling = 1 << k;
            let estimate = 7 * handle as i64;
            schedule.connections[handle] =
                Some(Connection { k, anchor, length, floor: 1, ceiling, estimate });
        }
        schedule
    }

    fn anchors(schedule: &Schedule) -> Vec<(usize, i64)> {
        schedule.live().map(|(handle, connection)| (handle, connection.anchor)).collect()
    }

    /// Two of F 8, and one of F 4 that comes before them.
    const THREE: [(usize, i64, i64, i64); 3] = [(1, 3, 0, 2), (4, 2, 3, 1), (9, 3, 5, 1)];

    #[test]
    fn by_factor_then_handle() {
        // F 4 takes 0 and 4; then 2 and 3 are the first two in a row, and then 6 is free.
        let mut s = with(&THREE, Fault::None);
        let before = s.clone();
        let mut list = [7; 11];
        assert_eq!(tidy(&mut s, &mut list), Ok(3));
        assert_eq!(list, [1, 0, 2, 4, 3, 0, 9, 5, 6, 7, 7]);
        for ((_, old), (_, new)) in before.live().zip(s.live()) {
            assert_eq!(*new, Connection { anchor: new.anchor, ..old.clone() });
        }
        assert_eq!(tidy(&mut s, &mut []), Ok(0));
    }

    #[test]
    fn a_short_list() {
        for size in [0, 1, 2, 3, 6, 8] {
            let mut s = with(&THREE, Fault::None);
            let before = anchors(&s);
            let mut list = vec![7; size];
            assert_eq!(tidy(&mut s, &mut list), Err(14));
            assert_eq!((anchors(&s), list), (before, vec![7; size]));
        }
        assert_eq!(tidy(&mut with(&THREE, Fault::None), &mut [7; 9]), Ok(3));
        assert_eq!(tidy(&mut Schedule::fresh(Fault::None), &mut []), Ok(0));
    }

    #[test]
    fn no_anchor_although_the_present_places_fit() {
        // The two of F 4 take the even blocks, and no two classes of F 8 in a row are left.
        let three = [(0, 3, 0, 2), (1, 2, 2, 1), (2, 2, 3, 1)];
        for size in [0, 9, 400] {
            let mut s = with(&three, Fault::None);
            let before = anchors(&s);
            let mut list = vec![7; size];
            assert_eq!(tidy(&mut s, &mut list), Err(19));
            assert_eq!((anchors(&s), list), (before, vec![7; size]));
        }
    }

    #[test]
    fn runs_round_the_end() {
        let mut s = with(&[(5, 2, 3, 2), (6, 2, 1, 2)], Fault::None);
        let mut list = [7; 6];
        assert_eq!(tidy(&mut s, &mut list), Ok(2));
        assert_eq!(list, [5, 3, 0, 6, 1, 2]);
    }

    #[test]
    fn every_fault_of_a_tidy() {
        let moved = |connections: &[_], fault, size| {
            let mut s = with(connections, fault);
            let mut list = vec![7; size];
            let answer = tidy(&mut s, &mut list);
            (answer, anchors(&s), list)
        };
        // By handle alone the run of two takes 0 and 1, and F 4 goes to 2.
        let by_handle = moved(&THREE, Fault::TidiedByHandle, 6);
        assert_eq!(by_handle, (Ok(2), vec![(1, 0), (4, 2), (9, 4)], vec![4, 3, 2, 9, 5, 4]));
        // Three blocks fit from 1 on, and not from 2, where one is free.
        let floor = moved(&[(0, 2, 3, 1), (1, 2, 0, 3)], Fault::FloorPlaced, 6);
        assert_eq!(floor, (Ok(2), vec![(0, 0), (1, 2)], vec![0, 3, 0, 1, 0, 2]));
        let length = moved(&[(0, 2, 3, 1), (1, 2, 0, 3)], Fault::None, 6);
        assert_eq!(length, (Ok(2), vec![(0, 0), (1, 1)], vec![0, 3, 0, 1, 0, 1]));
        // Handles 1 and 2 found an anchor.
        let stuck = [(0, 3, 0, 2), (1, 2, 2, 1), (2, 2, 3, 1)];
        let stay = moved(&stuck, Fault::PlacedStayMoved, 0);
        assert_eq!(stay, (Err(19), vec![(0, 0), (1, 0), (2, 2)], vec![]));
        let short = moved(&THREE, Fault::ShortListMoves, 8);
        assert_eq!(short, (Err(14), vec![(1, 2), (4, 0), (9, 6)], vec![7; 8]));
        let cleared = moved(&THREE, Fault::RestOfMovesCleared, 11);
        assert_eq!(cleared.2, [1, 0, 2, 4, 3, 0, 9, 5, 6, 0, 0]);
    }
}
