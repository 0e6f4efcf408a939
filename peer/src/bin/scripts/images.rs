//! Good images of random sound schedules, and images with one thing wrong.

use crate::random::Random;
use peer::fault::Fault;
use peer::image::{connection_payload, image, ILLEGAL_K};
use peer::schedule::{taken_by, tree_of, Connection, Schedule};
use peer::schedule::{BLOCKS, BLOCK_US, HANDLES, LARGEST_K};

/// A sound schedule of up to `most` connections, many of which no row of calls
/// would have left: any anchors, runs round the end, any estimates.
pub fn random_schedule(random: &mut Random, most: usize) -> Schedule {
    let mut schedule = Schedule::fresh(Fault::None);
    let mut handles: Vec<usize> = (0..64).collect();
    random.shuffle(&mut handles);
    let lowest = random.pick(&[1, 2, 3, 4, 5, 6, 7, 8]);
    let longest = random.pick(&[1, 2, 4, 16, 64, 256]);
    let mut tries = 0;
    while schedule.live().count() < most && tries < 4 * most + 20 {
        tries += 1;
        let k = random.between(lowest, LARGEST_K);
        let factor = 1i64 << k;
        let length = random.between(1, longest.min(factor));
        // Some so late that the run goes round the end of the cycle.
        let lowest_anchor = if random.chance(30) { factor - length + 1 } else { 0 };
        let anchor = random.between(lowest_anchor, factor - 1).min(factor - 1);
        let connection = with_bounds(random, k, anchor, length);
        let taken = schedule.taken();
        let own = taken_by(std::iter::once(&connection));
        if own.iter().zip(taken).all(|(own, taken)| !(*own && taken)) {
            if let Some(handle) = handles.pop() {
                schedule.connections[handle] = Some(connection);
            }
        }
    }
    schedule
}

/// A connection with sound floor, ceiling and estimate round this length.
fn with_bounds(random: &mut Random, k: i64, anchor: i64, length: i64) -> Connection {
    let factor = 1i64 << k;
    let floor = if random.chance(60) { 1 } else { random.between(1, length) };
    let ceiling = match random.between(0, 2) {
        0 => length,
        1 => factor,
        _ => random.between(length, factor),
    };
    let most = length * BLOCK_US;
    let edge = most - random.pick(&[0, 1, 2_499, 2_500, 2_501, 7_500]);
    let estimate = match random.between(0, 3) {
        0 => edge,
        1 => random.pick(&[0, most]),
        _ => random.between(0, most),
    };
    Connection { k, anchor, length, floor, ceiling, estimate }
}

/// Schedules at the ends of what there can be.
pub fn extreme_schedule(random: &mut Random, which: usize) -> Schedule {
    let mut schedule = Schedule::fresh(Fault::None);
    match which % 6 {
        // 64 connections of F 256 that leave no block free, each with a run of 4.
        0 => {
            for (handle, connection) in side_by_side(random, LARGEST_K) {
                schedule.connections[handle as usize] = Some(connection);
            }
        }
        // None.
        1 => {}
        // F 256 with few long runs, one of them round the end.
        2 => {
            let first = random.between(1, 255);
            let mut from = 0;
            let mut handle = random.place(20);
            while from < 256 && handle < 64 {
                let length = random.between(1, 256 - from);
                let anchor = (first + from) % 256;
                schedule.connections[handle] = Some(with_bounds(random, 8, anchor, length));
                from += length + random.between(0, 3);
                handle += 1 + random.place(9);
            }
        }
        // One connection that owns every block, at any factor and anchor.
        3 => {
            let k = random.between(0, LARGEST_K);
            let factor = 1i64 << k;
            let anchor = random.between(0, factor - 1);
            let handle = random.pick(&[0, 1, 31, 62, 63]);
            let estimate = random.pick(&[0, factor * BLOCK_US]);
            let whole = Connection {
                k,
                anchor,
                length: factor,
                floor: random.pick(&[1, factor]),
                ceiling: factor,
                estimate,
            };
            schedule.connections[handle] = Some(whole);
        }
        // 64 connections of F 64, one class each, in any order.
        4 => {
            let mut anchors: Vec<i64> = (0..64).collect();
            random.shuffle(&mut anchors);
            for (handle, anchor) in anchors.into_iter().enumerate() {
                schedule.connections[handle] = Some(with_bounds(random, 6, anchor, 1));
            }
        }
        // One of each factor 2, 4, .. 256, each in the half that is left.
        _ => {
            let mut from = 0;
            for k in 1..=LARGEST_K {
                let connection = with_bounds(random, k, from, 1);
                schedule.connections[7 * k as usize] = Some(connection);
                from += 1i64 << (k - 1);
            }
        }
    }
    schedule
}

/// How many kinds of older schedules there are.
pub const OLDER: usize = 6;

/// Schedules that no admission leads to, as one has F 1 or a ceiling above half of F; and its
/// handle. Where it can grow, a report at its most grows it past half.
pub fn older_schedule(random: &mut Random, which: usize) -> (Schedule, usize) {
    let mut schedule = Schedule::fresh(Fault::None);
    let handle = random.place(HANDLES - 1);
    let any = random.between(1, LARGEST_K);
    let longer = random.between(2, LARGEST_K);
    let older = match which % OLDER {
        // F 1.
        0 => at_its_most(0, 0, 1, 1),
        // Just half, alone, at any anchor.
        1 => half_at(random, any),
        // F 2 beside a later period of the class that it wants; without it that class is free.
        2 => {
            let anchor = random.pick(&[1, 3]);
            schedule.connections[handle + 1] = Some(with_bounds(random, 2, anchor, 1));
            at_its_most(1, 0, 1, 2)
        }
        // Just half, with another's anchor right behind the block that it wants, or in it.
        3 => {
            let older = half_at(random, longer);
            let next = older.anchor + older.length + random.between(0, 1);
            let other = with_bounds(random, longer, next % older.factor(), 1);
            schedule.connections[handle + 1] = Some(other);
            older
        }
        // All blocks but some; a tidy moves it to 0, and those that have them behind it.
        4 => {
            let factor = 1i64 << longer;
            let left = random.between(1, (factor / 2 - 1).min(5));
            let anchor = random.between(0, factor - 1);
            for at in 0..left.min((HANDLES - handle) as i64 - 1) {
                let other = with_bounds(random, longer, (anchor + factor - 1 - at) % factor, 1);
                schedule.connections[handle + 1 + at as usize] = Some(other);
            }
            let ceiling = random.between(factor - left, factor);
            at_its_most(longer, anchor, factor - left, ceiling)
        }
        // Every block.
        _ => {
            let factor = 1i64 << any;
            at_its_most(any, random.between(0, factor - 1), factor, factor)
        }
    };
    schedule.connections[handle] = Some(older);
    (schedule, handle)
}

/// A connection with just half of F, and a ceiling above that.
fn half_at(random: &mut Random, k: i64) -> Connection {
    let factor = 1i64 << k;
    let anchor = random.between(0, factor - 1);
    let ceiling = random.pick(&[factor / 2 + 1, factor]);
    at_its_most(k, anchor, factor / 2, ceiling)
}

/// A connection that needs a block more than it has.
fn at_its_most(k: i64, anchor: i64, length: i64, ceiling: i64) -> Connection {
    Connection { k, anchor, length, floor: 1, ceiling, estimate: length * BLOCK_US }
}

/// 64 connections with this k, each with a 64th of the cycle, by rising handle.
fn side_by_side(random: &mut Random, k: i64) -> Vec<(u8, Connection)> {
    let factor = 1i64 << k;
    let length = factor / 64;
    let first = random.between(0, factor - 1);
    (0..64)
        .map(|handle| {
            let anchor = (first + length * i64::from(handle)) % factor;
            (handle, with_bounds(random, k, anchor, length))
        })
        .collect()
}

/// A record in parts, so that its length can be made to lie.
#[derive(Clone)]
struct Record {
    length: usize,
    kind: u16,
    payload: Vec<u8>,
}

fn record(kind: u16, payload: Vec<u8>) -> Record {
    Record { length: payload.len(), kind, payload }
}

fn join(records: &[Record]) -> Vec<u8> {
    let mut bytes = Vec::new();
    for record in records {
        bytes.extend((record.length as u16).to_le_bytes());
        bytes.extend(record.kind.to_le_bytes());
        bytes.extend(&record.payload);
    }
    bytes
}

/// The records of these connections: the count, each of them, the tree.
fn records(connections: &[(u8, Connection)]) -> Vec<Record> {
    let mut records = vec![record(1, (connections.len() as u16).to_le_bytes().to_vec())];
    for (handle, connection) in connections {
        records.push(record(2, connection_payload(*handle, connection)));
    }
    let tree = tree_of(&taken_by(connections.iter().map(|(_, connection)| connection)));
    records.push(record(3, tree.to_vec()));
    records
}

/// How many kinds of damage there are.
pub const DAMAGES: usize = 78;

/// An image with one thing wrong (some with two, to see which check is first),
/// and the refusal that it must get.
pub fn damaged(random: &mut Random, which: usize) -> (Vec<u8>, u32) {
    // At least two connections, and room for more, so that each damage can be done.
    let mut schedule = Schedule::fresh(Fault::None);
    let most = 2 + random.place(5);
    while schedule.live().count() < 2 {
        schedule = random_schedule(random, most);
    }
    let good: Vec<(u8, Connection)> =
        schedule.live().map(|(handle, c)| (handle as u8, c.clone())).collect();
    let n = good.len();
    let which = which % DAMAGES;
    if which < 36 {
        (bad_framing(random, which, &good), 9)
    } else if which < 54 {
        (bad_numbers(random, which - 36, good), 10)
    } else if which < 58 {
        // Two on one block, the tree right for all of them together.
        let mut two = good.clone();
        let victim = random.place(n);
        let overlap = random.place(4);
        let mut second = two[victim].1.clone();
        match overlap {
            0 => {}
            // The last block of the one is the first of the other.
            1 => {
                second.anchor = (second.anchor + second.length - 1) % second.factor();
                second.length = 1;
            }
            // A block of a late period only.
            2 => {
                second.anchor = (second.anchor + 256 - second.factor()) % 256;
                second.k = 8;
                second.length = 1;
            }
            // The whole list.
            _ => {
                second.k = 0;
                second.anchor = 0;
                second.length = 1;
            }
        }
        second.floor = 1;
        second.ceiling = second.length;
        second.estimate = second.estimate.min(second.length * BLOCK_US);
        add(&mut two, second);
        let mut records = records(&two);
        if which == 57 {
            // 11 before 12: the tree is wrong too.
            let last = records.len() - 1;
            records[last].payload[random.place(128)] ^= 1 << random.place(8);
        }
        (join(&records), 11)
    } else if which < 66 {
        (bad_tree(random, which - 58, &good), 12)
    } else {
        with_a_nine(random, which - 66, good)
    }
}

/// One connection more, under the lowest handle that is free.
fn add(connections: &mut Vec<(u8, Connection)>, connection: Connection) {
    let free = (0..64u8).find(|handle| connections.iter().all(|(taken, _)| taken != handle));
    connections.push((free.unwrap_or(63), connection));
    connections.sort_by_key(|(handle, _)| *handle);
}

fn bad_framing(random: &mut Random, which: usize, good: &[(u8, Connection)]) -> Vec<u8> {
    let n = good.len();
    let mut r = records(good);
    let tree = n + 1;
    let any = random.place(n + 2);
    let one = 1 + random.place(n);
    let count = |number: usize| (number as u16).to_le_bytes().to_vec();
    match which {
        0 => r[0].payload = count(n + 1),
        1 => r[0].payload = count(n - 1),
        2 => r[0].payload = count(n + 256),
        3 => r[0].payload = count(random.pick(&[0, 64, 65, 65_535])),
        // n above 64, and that many records.
        4 | 5 => {
            let many = if which == 4 { 65 } else { 66 + random.place(20) };
            let filler = r[one].clone();
            while r.len() < many + 2 {
                r.insert(1, filler.clone());
            }
            r[0].payload = count(many);
        }
        // A length that lies by one, up or down.
        6 => r[any].length += 1,
        7 => r[any].length -= 1,
        8 => r[any].length += 256,
        9 => r[any].length = 0,
        10 => r[any].length = 65_535,
        // A payload of another size, its length agreeing.
        11 => r[one] = record(2, [r[one].payload.clone(), vec![0]].concat()),
        12 => r[one] = record(2, r[one].payload[..13].to_vec()),
        13 => r[one] = record(2, Vec::new()),
        14 => r[tree] = record(3, [r[tree].payload.clone(), vec![0]].concat()),
        15 => r[tree] = record(3, r[tree].payload[..127].to_vec()),
        16 => r[tree] = record(3, Vec::new()),
        17 => r[0] = record(1, vec![n as u8]),
        18 => r[0] = record(1, vec![n as u8, 0, 0, 0]),
        // A kind of another record, or of none.
        19 => r[any].kind = r[any].kind % 3 + 1,
        20 => r[any].kind = random.pick(&[0, 4, 5, 255, 65_535]),
        21 => r[any].kind += 256,
        // Out of order.
        22 => r.swap(0, 1),
        23 => r.swap(n, tree),
        24 => r.swap(0, tree),
        // One missing or doubled.
        25 => drop(r.remove(tree)),
        26 => r.push(r[tree].clone()),
        27 => drop(r.remove(0)),
        28 => r.insert(0, r[0].clone()),
        29 => drop(r.remove(one)),
        30 => r.insert(one, r[one].clone()),
        // Something after the end, or nothing at all.
        31 => r.push(record(random.pick(&[0, 1, 2, 3, 4]), Vec::new())),
        32 => {
            let more = random.pick(&[1, 1, 2, 3, 4, 18]);
            let byte = random.pick(&[0, 0xFF, 0xA5]);
            return [join(&r), vec![byte; more]].concat();
        }
        33 => return Vec::new(),
        // Cut: anywhere, in a header, in a payload, at a record's end, one short.
        34 => {
            let whole = join(&r);
            let ends: Vec<usize> = (0..r.len()).map(|many| join(&r[..many]).len()).collect();
            let start = random.pick(&ends);
            let at = match random.between(0, 4) {
                0 => random.place(whole.len()),
                1 => start + 1 + random.place(3),
                2 => start + 4,
                3 => start,
                _ => whole.len() - 1,
            };
            return whole[..at].to_vec();
        }
        // 9 before 10: a connection that is not sound and a tail that is cut.
        _ => {
            r[one].payload = vec![0xFF; 14];
            let whole = join(&r);
            return whole[..whole.len() - 1].to_vec();
        }
    }
    join(&r)
}

fn bad_numbers(random: &mut Random, which: usize, good: Vec<(u8, Connection)>) -> Vec<u8> {
    let right_tree = records(&good).pop();
    let mut bad = good;
    let n = bad.len();
    let at = random.place(n);
    let before = random.place(n - 1);
    let factor = bad[at].1.factor();
    let length = bad[at].1.length;
    let (handle, c) = &mut bad[at];
    match which {
        // Too large, or right in its lower bits.
        0 => bad[n - 1].0 = random.pick(&[64, 65, 255, bad[n - 1].0 + 64, bad[n - 1].0 + 192]),
        1 => bad[before].0 = bad[before + 1].0,
        2 => {
            let first = bad[before].0;
            bad[before].0 = bad[before + 1].0;
            bad[before + 1].0 = first;
        }
        3 => bad.swap(before, before + 1),
        4 => c.k = 10,
        5 => c.k = random.pick(&[11, 255, c.k + 16, c.k + 32, c.k + 64, c.k + 128]),
        6 => c.anchor += factor, // the same blocks: only the bound is broken
        7 => c.anchor = random.pick(&[factor, 512, 1_024, 65_535]).max(factor),
        8 => c.floor = 0,
        9 => c.floor = length + 1,
        10 => c.ceiling = length - 1,
        11 => c.ceiling = factor + 1,
        12 => c.ceiling = random.pick(&[512, 1_024, 65_535]),
        13 => c.estimate = length * BLOCK_US + 1,
        14 => c.estimate = 4_294_967_295,
        15 => {
            c.floor = 0;
            c.length = 0;
            c.estimate = 0;
        }
        // 10 before 11: a connection twice, with one handle or with a floor of 0.
        16 => {
            let mut again = (*handle, c.clone());
            if random.chance(50) {
                again = (63.min(*handle + 1), c.clone());
                again.1.floor = 0;
            }
            bad.insert(at + 1, again);
        }
        // 10 before 12: not sound, and every bit of the tree set.
        _ => {
            c.estimate = length * BLOCK_US + 1;
            let mut r = records(&bad);
            r[n + 1].payload = vec![0xFF; 128];
            return join(&r);
        }
    }
    let mut r = records(&bad);
    if let (Some(last), Some(tree)) = (r.last_mut(), right_tree) {
        *last = tree;
    }
    join(&r)
}

fn bad_tree(random: &mut Random, which: usize, good: &[(u8, Connection)]) -> Vec<u8> {
    let n = good.len();
    let mut r = records(good);
    let right = r[n + 1].payload.clone();
    let tree = &mut r[n + 1].payload;
    let is_set = |node: usize| right[node / 8] >> (node % 8) & 1 == 1;
    match which {
        // One bit: any, a leaf, one near the root, node 0, the last.
        0 => {
            let node = 1 + random.place(1_023);
            tree[node / 8] ^= 1 << (node % 8);
        }
        1 => {
            let node = 512 + random.place(512);
            tree[node / 8] ^= 1 << (node % 8);
        }
        2 => {
            let node = 1 + random.place(15);
            tree[node / 8] ^= 1 << (node % 8);
        }
        3 => tree[0] ^= 1,
        4 => tree[127] ^= 0x80,
        // The tree of another moment, in itself in order: one connection fewer.
        5 => {
            let mut fewer = good.to_vec();
            fewer.remove(random.place(n));
            let records = records(&fewer);
            *tree = records[n].payload.clone();
        }
        // No connection, or every block.
        6 => {
            let mut full = vec![0xFF; 128];
            full[0] = 0xFE;
            *tree = if random.chance(50) && right != full { full } else { vec![0; 128] };
        }
        // A set leaf and all above it cleared.
        _ => {
            let leaves: Vec<usize> = (512..1_024).filter(|&node| is_set(node)).collect();
            let mut node = random.pick(&leaves);
            while node > 0 {
                tree[node / 8] &= !(1 << (node % 8));
                node /= 2;
            }
        }
    }
    join(&r)
}

/// The connection with a k of 9, in one of its periods: its blocks were its own before.
fn nine_of(random: &mut Random, c: &Connection) -> Connection {
    let period = random.between(0, BLOCKS / c.factor() - 1);
    let ceiling = random.pick(&[c.ceiling, 257, 512]);
    Connection { k: ILLEGAL_K, anchor: c.anchor + period * c.factor(), ceiling, ..c.clone() }
}

/// The connection with one of its numbers not sound.
fn unsound_of(random: &mut Random, c: &Connection) -> Connection {
    let c = c.clone();
    match random.between(0, 5) {
        0 => Connection { k: 10, ..c },
        1 => Connection { anchor: c.anchor + c.factor(), ..c },
        2 => Connection { length: c.ceiling + 1, ..c },
        3 => Connection { floor: 0, ..c },
        4 => Connection { ceiling: c.factor() + 1, ..c },
        _ => Connection { estimate: c.length * BLOCK_US + 1, ..c },
    }
}

/// Connections of which every one is sound or has a k of 9, and one has.
fn house_with_a_nine(random: &mut Random) -> Vec<(u8, Connection)> {
    match random.between(0, 2) {
        // What F 512 had at its ends: no block free, each with a run of 8; one that owns
        // every block.
        0 => side_by_side(random, ILLEGAL_K),
        1 => {
            let anchor = random.between(0, 511);
            vec![(random.pick(&[0, 31, 63]), with_bounds(random, ILLEGAL_K, anchor, 512))]
        }
        // One of 64: the first, the last or another.
        _ => {
            let mut all = side_by_side(random, 6);
            let any = random.place(64);
            let at = random.pick(&[0, 63, 63, any]);
            all[at].1 = nine_of(random, &all[at].1);
            all
        }
    }
}

/// An image with a k of 9, the tree right unless it is said, and what it must get: 18 where every
/// record is otherwise sound and the handles rise, whatever 11 and 12 would say.
fn with_a_nine(random: &mut Random, which: usize, good: Vec<(u8, Connection)>) -> (Vec<u8>, u32) {
    let n = good.len();
    let mut all = good;
    let at = random.place(n);
    let (handle, before) = all[at].clone();
    all[at].1 = nine_of(random, &before);
    let nine = &mut all[at].1;
    let refusal = match which {
        // One, several, a whole house.
        0 => 18,
        1 => {
            for other in (0..n).filter(|&other| other != at) {
                if other == (at + 1) % n || random.chance(50) {
                    all[other].1 = nine_of(random, &all[other].1);
                }
            }
            18
        }
        2 => {
            all = house_with_a_nine(random);
            18
        }
        // 18 before 11: with the connection that it was, with itself, or others share.
        3 => {
            let other = all[(at + 1) % n].1.clone();
            let second = random.pick(&[before, all[at].1.clone(), other]);
            add(&mut all, second);
            18
        }
        // 18 before 12: a bit, or the tree as it was before.
        4 => {
            let mut r = records(&all);
            if random.chance(50) {
                r[n + 1].payload[random.place(128)] ^= 1 << random.place(8);
            } else {
                all[at] = (handle, before);
                r[n + 1] = records(&all)[n + 1].clone();
            }
            return (join(&r), 18);
        }
        // 10 before 18: one before it that is not sound, and one after it.
        5 | 6 => {
            let later = 1 + random.place(n - 1);
            let earlier = random.place(later);
            let (nine, other) = if which == 5 { (later, earlier) } else { (earlier, later) };
            all[at] = (handle, before);
            all[nine].1 = nine_of(random, &all[nine].1);
            all[other].1 = unsound_of(random, &all[other].1);
            10
        }
        // It is not sound itself, by the bounds of F 512.
        7 => {
            nine.anchor = random.pick(&[512, nine.anchor + 512, 65_535]);
            10
        }
        8 => {
            nine.ceiling = random.pick(&[513, 513, 1_024]);
            10
        }
        // Handles that fall, or are equal.
        9 => {
            let first = random.place(n - 1);
            match random.between(0, 2) {
                0 => all.swap(first, first + 1),
                1 => (all[first].0, all[first + 1].0) = (all[first + 1].0, all[first].0),
                _ => all[first].0 = all[first + 1].0,
            }
            10
        }
        // A k of 10, sound by the bounds of F 1,024, alone or beside a k of 9.
        10 => {
            let ten = if random.chance(50) { at } else { (at + 1) % n };
            let c = &mut all[ten].1;
            c.k = 10;
            c.anchor += random.pick(&[0, 512]);
            c.ceiling = random.pick(&[c.ceiling, 1_024]);
            10
        }
        // 9 before 18: cut, or with bytes left over.
        _ => {
            let mut bytes = join(&records(&all));
            let any = random.place(bytes.len());
            let size = random.pick(&[any, bytes.len() - 1, bytes.len() + 1]);
            bytes.resize(size, 0);
            return (bytes, 9);
        }
    };
    (join(&records(&all)), refusal)
}

/// A good image: of a random schedule, or of an extreme one.
pub fn good(random: &mut Random, most: usize) -> Vec<u8> {
    let schedule = if random.chance(25) {
        let which = random.place(6);
        extreme_schedule(random, which)
    } else {
        random_schedule(random, most)
    };
    image(&schedule)
}

#[cfg(test)]
mod tests {
    use super::*;
    use peer::image::load;
    use peer::schedule::Moved;

    #[test]
    fn every_damage_gets_its_refusal() {
        for round in 0..12 {
            for which in 0..DAMAGES {
                let (bytes, refusal) = damaged(&mut Random::new(round, which as u64), which);
                let answer = load(&bytes, Fault::None).err();
                assert_eq!(answer, Some(refusal), "damage {which}, round {round}");
            }
        }
    }

    #[test]
    fn every_k_of_9_gets_its_refusal() {
        for round in 0..400 {
            for which in 66..DAMAGES {
                let (bytes, refusal) = damaged(&mut Random::new(round, which as u64), which);
                let answer = load(&bytes, Fault::None).err();
                assert_eq!(answer, Some(refusal), "damage {which}, round {round}");
                // Only where blocks are shared does it count whether 18 is before 11.
                let after = load(&bytes, Fault::FactorAfterOverlap).err();
                let expected = if which == 69 { 11 } else { refusal };
                assert_eq!(after, Some(expected), "damage {which}, round {round}");
            }
        }
    }

    #[test]
    fn every_older_image_is_taken_and_none_is_admitted() {
        for round in 0..600 {
            let mut random = Random::new(round, 0);
            let which = round as usize % OLDER;
            let (schedule, handle) = older_schedule(&mut random, which);
            let mut loaded = load(&image(&schedule), Fault::None).expect("it is sound");
            let c = schedule.connections[handle].clone().expect("it is live");
            assert!(2 * c.ceiling > c.factor(), "round {round}");
            let grown = loaded.report(handle as i64, c.length * BLOCK_US);
            match which {
                1 => assert_eq!(grown, Ok((Moved::Grown, c.length + 1)), "round {round}"),
                2 => assert_eq!(grown, Ok((Moved::Tight, 1)), "round {round}"),
                0 | 5 => assert_eq!(grown, Ok((Moved::Kept, c.length)), "round {round}"),
                _ => assert!(grown.is_ok(), "round {round}"),
            }
        }
    }

    #[test]
    fn every_good_image_is_taken() {
        for round in 0..60 {
            let mut random = Random::new(round, 0);
            assert!(load(&good(&mut random, 64), Fault::None).is_ok(), "round {round}");
            let extreme = extreme_schedule(&mut random, round as usize);
            assert!(load(&image(&extreme), Fault::None).is_ok(), "extreme {round}");
        }
    }
}
