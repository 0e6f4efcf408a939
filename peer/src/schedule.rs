//! The schedule: 64 places for connections, and the calls on them.

use crate::fault::Fault;

/// The list has 512 blocks and repeats for ever.
pub const BLOCKS: i64 = 512;
/// The leaves of the tree are at this depth, one for each block.
pub const DEPTH: i64 = 9;
/// A block is 6 slots of 1.25 ms.
pub const SLOTS: i64 = 6;
/// A block is 7,500 µs.
pub const BLOCK_US: i64 = 7_500;
/// The guard at the end of a run.
pub const GUARD_US: i64 = 2_500;
/// The Core Specification's least connection interval, in slots.
pub const LEAST_INTERVAL: i64 = 6;
/// The Core Specification's greatest connection interval, in slots.
pub const GREATEST_INTERVAL: i64 = 3_200;
/// Handles are 0 to 63.
pub const HANDLES: usize = 64;
/// k in an admission and in a sound schedule is at most 8: the Core Specification limits the
/// subrate factor to 500, and the largest power of two below that is 256.
pub const LARGEST_K: i64 = 8;

/// The number of a refusal, 1 to 20.
pub type Refusal = u32;

/// For each of the 512 blocks: does it belong to someone?
pub type Taken = [bool; BLOCKS as usize];

/// One connection. Its handle is its place in the schedule.
#[derive(Clone, Debug, PartialEq, Eq)]
pub struct Connection {
    pub k: i64,
    pub anchor: i64,
    pub length: i64,
    pub floor: i64,
    pub ceiling: i64,
    pub estimate: i64,
}

impl Connection {
    /// F = 2^k. (k is at most 8 in a sound connection, and 9 in one that is otherwise sound.
    /// One with another k is looked at only under fault 8; the bound keeps the shift in range
    /// for it.)
    pub fn factor(&self) -> i64 {
        1 << self.k.clamp(0, 32)
    }

    /// Block b belongs to it exactly if (b − A) mod F is less than L.
    pub fn owns(&self, block: i64) -> bool {
        (block - self.anchor).rem_euclid(self.factor()) < self.length
    }

    /// 1 ≤ floor ≤ L ≤ ceiling ≤ F, A < F and estimate ≤ L × 7,500, where k is at most this one.
    pub fn sound_to(&self, largest_k: i64) -> bool {
        (0..=largest_k).contains(&self.k)
            && (0..self.factor()).contains(&self.anchor)
            && 1 <= self.floor
            && self.floor <= self.length
            && self.length <= self.ceiling
            && self.ceiling <= self.factor()
            && (0..=self.length * BLOCK_US).contains(&self.estimate)
    }
}

/// What a report did to the length.
#[derive(Clone, Copy, Debug, PartialEq, Eq)]
pub enum Moved {
    Kept,
    Grown,
    Shrunk,
    Tight,
}

#[derive(Clone, Debug)]
pub struct Schedule {
    pub connections: [Option<Connection>; HANDLES],
    pub fault: Fault,
    /// Blocks that fault 5 forgot to free. Without that fault always empty.
    forgotten: Taken,
}

impl Schedule {
    pub fn fresh(fault: Fault) -> Schedule {
        Schedule {
            connections: std::array::from_fn(|_| None),
            fault,
            forgotten: [false; BLOCKS as usize],
        }
    }

    /// The live connections by rising handle.
    pub fn live(&self) -> impl Iterator<Item = (usize, &Connection)> {
        self.connections
            .iter()
            .enumerate()
            .filter_map(|(handle, place)| place.as_ref().map(|connection| (handle, connection)))
    }

    /// Goes over all blocks of the list and asks every connection.
    pub fn taken(&self) -> Taken {
        let mut taken = taken_by(self.live().map(|(_, connection)| connection));
        for (block, forgotten) in self.forgotten.iter().enumerate() {
            taken[block] |= forgotten;
        }
        taken
    }

    /// The 128 bytes of the tree.
    pub fn tree(&self) -> [u8; 128] {
        tree_of(&self.taken())
    }

    /// Checks 1 and 3.
    fn find(&self, handle: i64) -> Result<(usize, &Connection), Refusal> {
        let place = place_of(handle)?;
        match &self.connections[place] {
            Some(connection) => Ok((place, connection)),
            None => Err(3),
        }
    }

    /// The k of a range: of all 6 × 2^k that are not below the smallest and not
    /// above the largest, the largest one's, if there is one.
    fn k_in(&self, smallest: i64, largest: i64) -> Option<i64> {
        let in_range = |k: &i64| {
            let interval = SLOTS << k;
            let not_below = match self.fault {
                Fault::SmallestNotAsked => true,
                Fault::SmallestLeftOut => interval > smallest,
                _ => interval >= smallest,
            };
            not_below && interval <= largest
        };
        (0..=LARGEST_K).filter(in_range).max()
    }

    /// Is twice the ceiling above F?
    fn above_half(&self, factor: i64, floor: i64, ceiling: i64) -> bool {
        match self.fault {
            Fault::CapOfTheFloor => 2 * floor > factor,
            Fault::HalfRefused => 2 * ceiling >= factor,
            _ => 2 * ceiling > factor,
        }
    }

    /// Admit: checks 1, 2, 4, 15, 5, 20, 6. Answers F, A, L.
    pub fn admit(
        &mut self,
        handle: i64,
        smallest: i64,
        largest: i64,
        floor: i64,
        ceiling: i64,
    ) -> Result<(i64, i64, i64), Refusal> {
        let place = place_of(handle)?;
        if self.connections[place].is_some() {
            return Err(2);
        }
        let intervals = LEAST_INTERVAL..=GREATEST_INTERVAL;
        if !intervals.contains(&smallest) || !intervals.contains(&largest) || smallest > largest {
            return Err(4);
        }
        if self.fault == Fault::LastIntervalRefused && largest == GREATEST_INTERVAL {
            return Err(4);
        }
        let Some(k) = self.k_in(smallest, largest) else {
            return Err(15);
        };
        let factor = 1 << k;
        if floor == 0 || ceiling < floor || ceiling > factor {
            return Err(5);
        }

        let open = first_open(&self.taken(), k, floor, self.fault);
        let room_first = self.fault == Fault::RoomBeforeHalf && open.is_none();
        if self.above_half(factor, floor, ceiling) && !room_first {
            return Err(20);
        }
        let Some(anchor) = open else {
            return Err(6);
        };
        self.connections[place] = Some(Connection {
            k,
            anchor,
            length: floor,
            floor,
            ceiling,
            estimate: floor * BLOCK_US - GUARD_US,
        });
        Ok((factor, anchor, floor))
    }

    /// Drop: checks 1, 3.
    pub fn drop(&mut self, handle: i64) -> Result<(), Refusal> {
        let (place, connection) = self.find(handle)?;
        let connection = connection.clone();
        if self.fault == Fault::WrappedBlocksStay {
            for block in 0..BLOCKS {
                let before_anchor = block % connection.factor() < connection.anchor;
                if connection.owns(block) && before_anchor {
                    self.forgotten[block as usize] = true;
                }
            }
        }
        self.connections[place] = None;
        Ok(())
    }

    /// Report: checks 1, 3, 7. Answers what happened and the length afterwards.
    pub fn report(&mut self, handle: i64, sample: i64) -> Result<(Moved, i64), Refusal> {
        let (place, old) = self.find(handle)?;
        if sample > old.length * BLOCK_US {
            return Err(7);
        }
        let mut new = old.clone();

        let step = if self.fault == Fault::TowardZero {
            (sample - old.estimate) / 8
        } else {
            (sample - old.estimate).div_euclid(8)
        };
        new.estimate = old.estimate + step;
        let need = (new.estimate + GUARD_US + BLOCK_US - 1).div_euclid(BLOCK_US);
        let target = need.max(old.floor).min(old.ceiling);

        let moved = if target == old.length {
            Moved::Kept
        } else if target < old.length {
            new.length = target;
            Moved::Shrunk
        } else {
            let taken = self.taken();
            let next = (old.anchor + old.length).rem_euclid(old.factor());
            let free = if self.fault == Fault::FirstPeriodOnly {
                !taken[next as usize]
            } else {
                class_free(&taken, next, old.factor())
            };
            if free {
                new.length = old.length + 1;
                Moved::Grown
            } else {
                Moved::Tight
            }
        };
        if moved == Moved::Tight && self.fault == Fault::TightForgets {
            new.estimate = old.estimate;
        }

        let length = new.length;
        self.connections[place] = Some(new);
        Ok((moved, length))
    }

    /// Owner: the handle that the block belongs to, if any.
    pub fn owner(&self, block: i64) -> Option<usize> {
        let block = block.rem_euclid(BLOCKS);
        self.live().find(|(_, connection)| connection.owns(block)).map(|(handle, _)| handle)
    }

    /// Anchor: checks 1, 3. Slots from the start of the block to the next anchor.
    pub fn anchor(&self, handle: i64, block: i64) -> Result<i64, Refusal> {
        let (_, connection) = self.find(handle)?;
        Ok(SLOTS * (connection.anchor - block).rem_euclid(connection.factor()))
    }
}

/// Check 1.
fn place_of(handle: i64) -> Result<usize, Refusal> {
    if (0..HANDLES as i64).contains(&handle) {
        Ok(handle as usize)
    } else {
        Err(1)
    }
}

/// For each block of the list: does it belong to one of these connections?
pub fn taken_by<'a>(connections: impl Iterator<Item = &'a Connection>) -> Taken {
    let mut taken = [false; BLOCKS as usize];
    for connection in connections {
        for block in 0..BLOCKS {
            if connection.owns(block) {
                taken[block as usize] = true;
            }
        }
    }
    taken
}

/// Is no block with this remainder by F taken?
fn class_free(taken: &Taken, remainder: i64, factor: i64) -> bool {
    let mut blocks = (remainder..BLOCKS).step_by(factor as usize);
    blocks.all(|block| !taken[block as usize])
}

/// The first anchor, in the order of their node numbers 2^k + mirrored A, whose whole run of so
/// many blocks is free in all its periods.
pub fn first_open(taken: &Taken, k: i64, run: i64, fault: Fault) -> Option<i64> {
    let factor = 1 << k;
    let mut anchors: Vec<i64> = (0..factor).collect();
    if fault != Fault::CountingOrder {
        anchors.sort_by_key(|&anchor| factor + mirror(anchor, k));
    }
    let open =
        |anchor: &i64| (0..run).all(|j| class_free(taken, (anchor + j).rem_euclid(factor), factor));
    anchors.into_iter().find(open)
}

/// The lowest k bits of the value in mirrored order.
pub fn mirror(value: i64, k: i64) -> i64 {
    let mut rest = value;
    let mut mirrored = 0;
    for _ in 0..k {
        mirrored = 2 * mirrored + rest % 2;
        rest /= 2;
    }
    mirrored
}

/// The tree over these blocks: node 2^k + p covers the blocks whose remainder
/// by 2^k is p mirrored, and its bit says whether one of them is taken.
pub fn tree_of(taken: &Taken) -> [u8; 128] {
    let mut bytes = [0; 128];
    for k in 0..=DEPTH {
        let factor = 1 << k;
        for p in 0..factor {
            if !class_free(taken, mirror(p, k), factor) {
                let node = (factor + p) as usize;
                bytes[node / 8] |= 1 << (node % 8);
            }
        }
    }
    bytes
}

#[cfg(test)]
mod tests {
    use super::*;
    use crate::messages::LARGEST_FACTOR;

    fn fresh() -> Schedule {
        Schedule::fresh(Fault::None)
    }

    fn with(connection: Connection) -> Schedule {
        let mut schedule = fresh();
        schedule.connections[0] = Some(connection);
        schedule
    }

    fn one_block(estimate: i64) -> Connection {
        Connection { k: 3, anchor: 0, length: 1, floor: 1, ceiling: 4, estimate }
    }

    #[test]
    fn intervals() {
        for (interval, factor) in [(12, 2), (3_071, 256), (3_072, 256), (3_200, 256)] {
            assert_eq!(fresh().admit(0, 6, interval, 1, 1), Ok((factor, 0, 1)));
        }
        for interval in [6, 11] {
            assert_eq!(fresh().k_in(6, interval), Some(0));
            assert_eq!(fresh().admit(0, 6, interval, 1, 1), Err(20));
        }
        assert_eq!(fresh().admit(0, 6, 5, 1, 1), Err(4));
        assert_eq!(fresh().admit(0, 6, 3_201, 1, 1), Err(4));
    }

    #[test]
    fn the_largest_k() {
        let legal = (0..=DEPTH).filter(|k| 1 << k <= LARGEST_FACTOR);
        assert_eq!(legal.max(), Some(LARGEST_K));
        assert_eq!(1 << DEPTH, BLOCKS);
    }

    #[test]
    fn ranges() {
        for (smallest, largest, factor) in [
            (6, 6, 1),
            (12, 12, 2),
            (13, 24, 4),
            (1_536, 3_071, 256),
            (1_536, 1_536, 256),
            (1_536, 3_200, 256),
            (6, 3_072, 256),
            (6, 3_200, 256),
        ] {
            let mut s = fresh();
            assert_eq!(s.admit(0, smallest, largest, 1, factor + 1), Err(5));
            assert_eq!(s.admit(0, smallest, largest, 1, factor), Err(20));
            let half = if factor > 1 { Ok((factor, 0, 1)) } else { Err(5) };
            assert_eq!(s.admit(0, smallest, largest, 1, factor / 2), half);
        }
        for (smallest, largest, refusal) in [
            (7, 11, 15),
            (13, 23, 15),
            (1_537, 3_071, 15),
            (1_537, 3_072, 15),
            (1_537, 3_200, 15),
            (3_072, 3_072, 15),
            (3_072, 3_200, 15),
            (3_073, 3_200, 15),
            (3_200, 3_200, 15),
            (5, 6, 4),
            (6, 3_201, 4),
            (12, 11, 4),
            (0, 0, 4),
        ] {
            assert_eq!(fresh().admit(0, smallest, largest, 1, 1), Err(refusal));
            assert_eq!(fresh().admit(0, smallest, largest, 0, 0), Err(refusal));
        }
    }

    #[test]
    fn at_most_half() {
        for k in 0..=LARGEST_K {
            let (factor, interval) = (1 << k, SLOTS << k);
            let half = factor / 2;
            for smallest in [LEAST_INTERVAL, interval] {
                for floor in [1, half + 1] {
                    assert_eq!(fresh().admit(0, smallest, interval, floor, half + 1), Err(20));
                }
                for floor in [1, half] {
                    let admitted = fresh().admit(0, smallest, interval, floor, half);
                    let expected = if k > 0 { Ok((factor, 0, floor)) } else { Err(5) };
                    assert_eq!(admitted, expected);
                }
            }
        }
        // 20 beside the checks before it: handle 0 is live.
        let mut s = fresh();
        assert_eq!(s.admit(0, 6, 48, 1, 4), Ok((8, 0, 1)));
        for (handle, interval, floor, ceiling, answer) in [
            (0, 6, 1, 1, 2),
            (64, 6, 1, 1, 1),
            (1, 5, 1, 1, 4),
            (1, 12, 1, 2, 20),
            (1, 48, 1, 5, 20),
            (1, 48, 0, 5, 5),
            (1, 48, 1, 9, 5),
            (1, 48, 6, 5, 5),
        ] {
            assert_eq!(s.admit(handle, 6, interval, floor, ceiling), Err(answer));
        }
        // And beside 6: without the odd blocks there is no class of F 2.
        assert_eq!(s.admit(1, 6, 12, 1, 1), Ok((2, 1, 1)));
        assert_eq!(s.admit(2, 6, 6, 1, 1), Err(20));
        assert_eq!(s.admit(2, 6, 12, 1, 2), Err(20));
        assert_eq!(s.admit(2, 6, 12, 1, 1), Err(6));
    }

    #[test]
    fn every_fault_of_a_half() {
        let admitted = |fault, interval, floor, ceiling| {
            let mut s = with(Connection { k: 1, length: 1, ceiling: 1, ..one_block(5_000) });
            s.fault = fault;
            s.admit(1, 6, interval, floor, ceiling)
        };
        // The even blocks are taken.
        let rule = Fault::None;
        assert_eq!(admitted(rule, 12, 1, 2), Err(20));
        assert_eq!(admitted(Fault::CapOfTheFloor, 12, 1, 2), Ok((2, 1, 1)));
        assert_eq!(admitted(rule, 12, 1, 1), Ok((2, 1, 1)));
        assert_eq!(admitted(Fault::HalfRefused, 12, 1, 1), Err(20));
        assert_eq!(admitted(rule, 24, 2, 3), Err(20));
        assert_eq!(admitted(Fault::RoomBeforeHalf, 24, 2, 3), Err(6));
        assert_eq!(admitted(Fault::RoomBeforeHalf, 24, 1, 3), Err(20));
    }

    #[test]
    fn more_than_half_stays_and_grows() {
        // F 1, and a run of two of F 4 with a ceiling of 3.
        let mut s = with(Connection { k: 0, ceiling: 1, ..one_block(7_500) });
        assert_eq!(s.report(0, 7_500), Ok((Moved::Kept, 1)));
        assert_eq!(s.owner(511), Some(0));
        let two = Connection { k: 2, anchor: 3, length: 2, ceiling: 3, ..one_block(15_000) };
        let mut s = with(two);
        assert_eq!(s.report(0, 15_000), Ok((Moved::Grown, 3)));
        assert_eq!((s.owner(1), s.owner(2)), (Some(0), None));
        assert_eq!(s.report(0, 22_500), Ok((Moved::Kept, 3)));
    }

    #[test]
    fn four_at_48_then_12() {
        let mut s = fresh();
        for (handle, anchor) in [(0, 0), (1, 4), (2, 2), (3, 6)] {
            assert_eq!(s.admit(handle, 6, 48, 1, 1), Ok((8, anchor, 1)));
        }
        assert_eq!(s.admit(4, 6, 12, 1, 1), Ok((2, 1, 1)));
        assert_eq!(s.admit(5, 6, 48, 1, 1), Err(6));
    }

    #[test]
    fn two_runs_of_two() {
        let mut s = fresh();
        assert_eq!(s.admit(0, 6, 24, 2, 2), Ok((4, 0, 2)));
        assert_eq!(s.admit(1, 6, 24, 2, 2), Ok((4, 2, 2)));
        assert_eq!(s.admit(2, 6, 24, 2, 2), Err(6));
    }

    #[test]
    fn a_run_round_the_end() {
        let mut s =
            with(Connection { k: 2, anchor: 1, length: 2, floor: 2, ceiling: 2, estimate: 0 });
        assert_eq!(s.admit(1, 6, 24, 2, 2), Ok((4, 3, 2)));
        assert_eq!(s.owner(3), Some(1));
        assert_eq!(s.owner(0), Some(1));
        assert_eq!(s.owner(2), Some(0));
    }

    #[test]
    fn meters() {
        for (before, sample, after, moved) in [
            (5_000, 5_007, 5_000, Moved::Kept),
            (5_000, 5_008, 5_001, Moved::Grown),
            (5_000, 4_999, 4_999, Moved::Kept),
            (1, 0, 0, Moved::Kept),
            (0, 0, 0, Moved::Kept),
        ] {
            let mut s = with(one_block(before));
            assert_eq!(s.report(0, sample).map(|(moved, _)| moved), Ok(moved));
            assert_eq!(s.connections[0].as_ref().map(|c| c.estimate), Some(after));
        }
        let mut s = with(one_block(5_000));
        assert_eq!(s.report(0, 7_501), Err(7));
        let mut s = with(Connection { length: 2, ..one_block(5_312) });
        assert_eq!(s.report(0, 0), Ok((Moved::Shrunk, 1)));
        assert_eq!(s.connections[0].as_ref().map(|c| c.estimate), Some(4_648));
    }

    #[test]
    fn a_grown_class_is_tested_in_all_its_periods() {
        for (fault, moved) in
            [(Fault::None, (Moved::Tight, 1)), (Fault::FirstPeriodOnly, (Moved::Grown, 2))]
        {
            let mut s = Schedule::fresh(fault);
            s.connections[0] = Some(Connection {
                k: 1,
                anchor: 0,
                length: 1,
                floor: 1,
                ceiling: 2,
                estimate: 7_500,
            });
            s.connections[1] =
                Some(Connection { k: 2, anchor: 3, length: 1, floor: 1, ceiling: 1, estimate: 0 });
            assert_eq!(s.report(0, 7_500), Ok(moved));
        }
    }

    #[test]
    fn trees() {
        let bits = |s: &Schedule| s.tree().iter().map(|byte| byte.count_ones()).sum::<u32>();
        let mut s = fresh();
        assert_eq!(bits(&s), 0);
        assert_eq!(s.admit(0, 6, 48, 1, 1), Ok((8, 0, 1)));
        assert_eq!(bits(&s), 130);
        // An ancestor stays while its other child is taken.
        assert_eq!(s.admit(1, 6, 48, 1, 1), Ok((8, 4, 1)));
        assert_eq!(s.drop(1), Ok(()));
        assert_eq!(bits(&s), 130);
        assert_eq!(s.drop(0), Ok(()));
        assert_eq!(bits(&s), 0);
        // F 1 is in older images only.
        let s = with(Connection { k: 0, ceiling: 1, ..one_block(5_000) });
        assert_eq!(bits(&s), 1_023);
        assert_eq!(s.tree()[0], 0xFE);
        assert!(s.tree()[1..].iter().all(|&byte| byte == 0xFF));
    }
}
