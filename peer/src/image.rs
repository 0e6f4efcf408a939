//! The image: the schedule as bytes, and back.

use crate::fault::Fault;
use crate::schedule::{taken_by, tree_of, Connection, Refusal, Schedule};
use crate::schedule::{BLOCKS, HANDLES, LARGEST_K};

/// A record with this k that is sound in all else is 18, and not 10.
pub const ILLEGAL_K: i64 = 9;

/// One record: length of the payload and kind, two bytes each, then the payload.
pub fn record(kind: u16, payload: &[u8]) -> Vec<u8> {
    let mut bytes = Vec::new();
    bytes.extend((payload.len() as u16).to_le_bytes());
    bytes.extend(kind.to_le_bytes());
    bytes.extend(payload);
    bytes
}

/// The 14 bytes of a connection.
pub fn connection_payload(handle: u8, connection: &Connection) -> Vec<u8> {
    let mut bytes = vec![handle, connection.k as u8];
    bytes.extend((connection.anchor as u16).to_le_bytes());
    bytes.extend((connection.length as u16).to_le_bytes());
    bytes.extend((connection.floor as u16).to_le_bytes());
    bytes.extend((connection.ceiling as u16).to_le_bytes());
    bytes.extend((connection.estimate as u32).to_le_bytes());
    bytes
}

/// The image of a schedule.
pub fn image(schedule: &Schedule) -> Vec<u8> {
    let count = schedule.live().count() as u16;
    let mut bytes = record(1, &count.to_le_bytes());
    for (handle, connection) in schedule.live() {
        bytes.extend(record(2, &connection_payload(handle as u8, connection)));
    }
    bytes.extend(record(3, &schedule.tree()));
    bytes
}

/// Save: check 8. Writes the image from the buffer's start and answers its size.
pub fn save(schedule: &Schedule, buffer: &mut [u8]) -> Result<usize, Refusal> {
    let image = image(schedule);
    if buffer.len() < image.len() {
        return Err(8);
    }
    buffer[..image.len()].copy_from_slice(&image);
    if schedule.fault == Fault::RestZeroed {
        buffer[image.len()..].fill(0);
    }
    Ok(image.len())
}

/// Load: checks 9, 10, 18, 11, 12, each over the whole image before the next.
pub fn load(bytes: &[u8], fault: Fault) -> Result<Schedule, Refusal> {
    let (connections, tree) = framing(bytes).ok_or(9u32)?;
    let order = match fault {
        Fault::OverlapFirst => [11, 10, 18],
        Fault::FactorFirst => [18, 10, 11],
        Fault::FactorAfterOverlap => [10, 11, 18],
        _ => [10, 18, 11],
    };
    for check in order {
        let passes = match check {
            10 => numbers_sound(&connections, fault),
            18 => factors_legal(&connections),
            _ => blocks_apart(&connections),
        };
        if !passes {
            return Err(check);
        }
    }
    let right_tree = tree_of(&taken_by(connections.iter().map(|(_, connection)| connection)));
    if tree != right_tree && fault != Fault::TreeUnchecked {
        return Err(12);
    }
    let mut schedule = Schedule::fresh(fault);
    for (handle, connection) in connections {
        schedule.connections[handle] = Some(connection);
    }
    Ok(schedule)
}

type Connections = Vec<(usize, Connection)>;

/// Check 9: cuts the image into its records and asks for the right ones in the
/// right order. The numbers in the connections are not looked at.
fn framing(bytes: &[u8]) -> Option<(Connections, &[u8])> {
    let mut records = Vec::new();
    let mut rest = bytes;
    while !rest.is_empty() {
        let header = rest.get(..4)?;
        let size = number(&header[..2]) as usize;
        let kind = number(&header[2..]);
        let payload = rest.get(4..4 + size)?;
        records.push((kind, payload));
        rest = &rest[4 + size..];
    }

    let (&(first_kind, count), after_first) = records.split_first()?;
    if first_kind != 1 || count.len() != 2 {
        return None;
    }
    let n = number(count) as usize;
    let (&(last_kind, tree), between) = after_first.split_last()?;
    if n > HANDLES || between.len() != n || last_kind != 3 || tree.len() != 128 {
        return None;
    }
    if between.iter().any(|&(kind, payload)| kind != 2 || payload.len() != 14) {
        return None;
    }
    let connections = between
        .iter()
        .map(|(_, payload)| {
            let connection = Connection {
                k: number(&payload[1..2]),
                anchor: number(&payload[2..4]),
                length: number(&payload[4..6]),
                floor: number(&payload[6..8]),
                ceiling: number(&payload[8..10]),
                estimate: number(&payload[10..14]),
            };
            (payload[0] as usize, connection)
        })
        .collect();
    Some((connections, tree))
}

/// Check 10: every connection sound or otherwise sound, handles at most 63 and strictly rising.
fn numbers_sound(connections: &Connections, fault: Fault) -> bool {
    let largest_k = if fault == Fault::NineUnsound { LARGEST_K } else { ILLEGAL_K };
    let sound = connections.iter().all(|(handle, c)| *handle < HANDLES && c.sound_to(largest_k));
    let rising = connections.windows(2).all(|pair| pair[0].0 < pair[1].0);
    sound && rising
}

/// Check 18: no record has a k of 9.
fn factors_legal(connections: &Connections) -> bool {
    connections.iter().all(|(_, connection)| connection.k != ILLEGAL_K)
}

/// Check 11: no block belongs to two.
fn blocks_apart(connections: &Connections) -> bool {
    let owners = |block| connections.iter().filter(|(_, c)| c.owns(block)).count();
    (0..BLOCKS).all(|block| owners(block) <= 1)
}

/// A little-endian number of at most four bytes.
pub(crate) fn number(bytes: &[u8]) -> i64 {
    bytes.iter().rev().fold(0, |value, &byte| 256 * value + i64::from(byte))
}

#[cfg(test)]
mod tests {
    use super::*;

    #[test]
    fn sizes() {
        let mut schedule = Schedule::fresh(Fault::None);
        assert_eq!(image(&schedule).len(), 138);
        for handle in 0..64 {
            assert!(schedule.admit(handle, 6, 3_200, 4, 4).is_ok());
        }
        assert_eq!(image(&schedule).len(), 1_290);
        assert_eq!(save(&schedule, &mut [0; 1_289]), Err(8));
        assert_eq!(save(&schedule, &mut [0; 1_290]), Ok(1_290));
    }

    #[test]
    fn back_again() {
        let mut schedule = Schedule::fresh(Fault::None);
        assert!(schedule.admit(7, 6, 48, 2, 4).is_ok());
        assert!(schedule.admit(63, 6, 3_072, 3, 128).is_ok());
        // An older one, with a ceiling above half.
        schedule.connections[9] = Some(Connection { k: 8, ceiling: 129, ..of_512(250) });
        let bytes = image(&schedule);
        let loaded = load(&bytes, Fault::None).map(|loaded| loaded.connections);
        assert_eq!(loaded, Ok(schedule.connections));
    }

    #[test]
    fn a_set_node_0_is_12() {
        let mut bytes = image(&Schedule::fresh(Fault::None));
        bytes[10] = 1;
        assert_eq!(load(&bytes, Fault::None).err(), Some(12));
    }

    fn of_512(anchor: i64) -> Connection {
        Connection { k: 9, anchor, length: 1, floor: 1, ceiling: 1, estimate: 5_000 }
    }

    /// The bytes of these connections, and of the tree that they have.
    fn bytes_of(connections: &[(u8, Connection)]) -> Vec<u8> {
        let mut bytes = record(1, &(connections.len() as u16).to_le_bytes());
        for (handle, connection) in connections {
            bytes.extend(record(2, &connection_payload(*handle, connection)));
        }
        let taken = taken_by(connections.iter().map(|(_, connection)| connection));
        bytes.extend(record(3, &tree_of(&taken)));
        bytes
    }

    fn refused(bytes: &[u8]) -> Option<Refusal> {
        load(bytes, Fault::None).err()
    }

    #[test]
    fn a_k_of_9_is_18() {
        let nine = of_512(0);
        let bytes = bytes_of(&[(0, nine.clone())]);
        assert_eq!(refused(&bytes), Some(18));
        assert_eq!(refused(&[bytes.clone(), vec![0]].concat()), Some(9));
        assert_eq!(refused(&bytes[..bytes.len() - 1]), Some(9));

        // At the ends of what F 512 has: the last anchor, the whole list.
        let last = Connection { ceiling: 512, ..of_512(511) };
        let whole = Connection { length: 512, floor: 512, ceiling: 512, ..of_512(7) };
        for connection in [last, whole] {
            assert_eq!(refused(&bytes_of(&[(63, connection)])), Some(18));
        }

        // One block further in each number, and k 10.
        for unsound in [
            Connection { anchor: 512, ..nine.clone() },
            Connection { ceiling: 513, ..nine.clone() },
            Connection { floor: 0, ..nine.clone() },
            Connection { floor: 2, ..nine.clone() },
            Connection { length: 2, ..nine.clone() },
            Connection { estimate: 7_501, ..nine.clone() },
            Connection { k: 10, ..nine.clone() },
            Connection { k: 255, ..nine.clone() },
        ] {
            assert_eq!(refused(&bytes_of(&[(0, unsound.clone())])), Some(10));
            // Before a k of 9, and after one.
            assert_eq!(refused(&bytes_of(&[(0, unsound.clone()), (1, of_512(9))])), Some(10));
            assert_eq!(refused(&bytes_of(&[(0, of_512(9)), (1, unsound)])), Some(10));
        }
        assert_eq!(refused(&bytes_of(&[(64, nine.clone())])), Some(10));
        assert_eq!(refused(&bytes_of(&[(1, of_512(9)), (0, nine.clone())])), Some(10));
        assert_eq!(refused(&bytes_of(&[(1, of_512(9)), (1, nine)])), Some(10));
    }

    #[test]
    fn a_k_of_8_is_taken() {
        let eight = Connection { k: 8, ..of_512(255) };
        let largest = Connection { ceiling: 256, ..eight.clone() };
        assert!(load(&bytes_of(&[(0, largest)]), Fault::None).is_ok());
        for unsound in
            [Connection { anchor: 256, ..eight.clone() }, Connection { ceiling: 257, ..eight }]
        {
            assert_eq!(refused(&bytes_of(&[(0, unsound)])), Some(10));
        }
    }

    #[test]
    fn a_k_of_9_is_18_wherever_it_is() {
        let other = Connection { k: 8, ..of_512(1) };
        for at in 0..3 {
            let mut three = [(0, other.clone()), (1, other.clone()), (2, other.clone())];
            for (handle, connection) in &mut three {
                connection.anchor += i64::from(*handle);
            }
            three[at].1.k = 9;
            assert_eq!(refused(&bytes_of(&three)), Some(18));
        }
    }

    #[test]
    fn a_k_of_9_before_shared_blocks_and_the_tree() {
        let shared = [(0, of_512(3)), (1, Connection { k: 8, ..of_512(3) })];
        assert_eq!(refused(&bytes_of(&shared)), Some(18));
        let mut wrong_tree = bytes_of(&[(0, of_512(3))]);
        wrong_tree[155] ^= 0x80;
        assert_eq!(refused(&wrong_tree), Some(18));
        // The three faults of these checks.
        assert_eq!(load(&bytes_of(&shared), Fault::FactorAfterOverlap).err(), Some(11));
        assert_eq!(load(&wrong_tree, Fault::NineUnsound).err(), Some(10));
        let unsound = [(0, of_512(3)), (1, of_512(512))];
        assert_eq!(load(&bytes_of(&unsound), Fault::FactorFirst).err(), Some(18));
    }
}
