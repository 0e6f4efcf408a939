//! Lines with subrate messages: at the ends of what is allowed, and with one thing wrong.

use crate::random::Random;
use peer::messages::{Field, Kind, Message, KINDS, LARGEST_FACTOR};
use peer::script::hex;

/// The line that writes a message into a buffer of so many bytes.
pub fn writing(size: usize, message: &Message) -> String {
    let numbers: String = message.numbers.iter().map(|number| format!(" {number}")).collect();
    format!("{} {size}{numbers}", message.kind.word())
}

/// The line that reads these bytes.
pub fn reading(bytes: &[u8]) -> String {
    if bytes.is_empty() {
        "message".to_string()
    } else {
        format!("message {}", hex(bytes))
    }
}

/// The line that writes again what such a line has read, if that was a message.
pub fn again(size: usize, read: &str) -> Option<String> {
    let (word, numbers) = read.trim_end().split_once(' ')?;
    KINDS.iter().find(|kind| kind.word() == word)?;
    Some(format!("{word} {size} {numbers}"))
}

/// An allowed message with this factor, or this max.
fn plain(kind: Kind, factor: i64) -> Message {
    let number = |field: &Field| match field {
        Field::Status | Field::Latency | Field::Continuation => 0,
        Field::Handle | Field::Min => 1,
        Field::Max | Field::Factor => factor,
        Field::Timeout => 600,
    };
    Message { kind, numbers: kind.fields().iter().map(number).collect() }
}

/// The message with other numbers in these fields, as far as it has them.
fn with(mut message: Message, others: &[(Field, i64)]) -> Message {
    for (at, field) in message.kind.fields().iter().enumerate() {
        if let Some((_, number)) = others.iter().find(|(other, _)| other == field) {
            message.numbers[at] = *number;
        }
    }
    message
}

/// Each field alone at, below and above each end of its range, and the greatest that it holds.
pub fn at_the_ends(kind: Kind) -> Vec<Message> {
    let mut messages = Vec::new();
    for &field in kind.fields() {
        // A factor of 1 goes with each latency, and one of 500 with each number of the others.
        let factor = if field == Field::Latency { 1 } else { LARGEST_FACTOR };
        let (low, high) = field.range();
        for number in [low - 1, low, low + 1, high - 1, high, high + 1, field.greatest()] {
            if (0..=field.greatest()).contains(&number) {
                messages.push(with(plain(kind, factor), &[(field, number)]));
            }
        }
    }
    messages
}

/// Fields together at the edge of each rule between them: the product, the continuation, min.
pub fn at_the_rules(random: &mut Random, kind: Kind) -> Vec<Message> {
    let mut messages = Vec::new();
    for events in [1, 2, 3, 4, random.between(5, LARGEST_FACTOR)] {
        let most = LARGEST_FACTOR / events;
        for factor in [most, most + 1] {
            let message = with(plain(kind, factor), &[(Field::Latency, events - 1)]);
            for continuation in [0, factor - 1, factor] {
                messages.push(with(message.clone(), &[(Field::Continuation, continuation)]));
            }
            if kind != Kind::Change {
                messages.push(with(message.clone(), &[(Field::Min, factor)]));
                messages.push(with(message, &[(Field::Min, factor + 1)]));
            }
        }
    }
    messages
}

/// A message that is not allowed.
fn forbidden(random: &mut Random, kind: Kind) -> Message {
    let factor = random.between(1, LARGEST_FACTOR);
    let message = plain(kind, factor);
    match random.between(0, 4) {
        0 => with(message, &[(Field::Latency, LARGEST_FACTOR / factor)]),
        1 => with(message, &[(Field::Continuation, factor)]),
        2 => plain(kind, 0),
        3 => with(message, &[(Field::Timeout, 9)]),
        _ => with(message, &[(Field::Timeout, 3_201)]),
    }
}

/// An event of this status: one that any status allows, and one that 0 forbids.
pub fn of_status(random: &mut Random, status: i64) -> [Message; 2] {
    let both = [plain(Kind::Change, random.between(1, 500)), forbidden(random, Kind::Change)];
    both.map(|message| with(message, &[(Field::Status, status)]))
}

/// Lines that write an allowed message and a forbidden one into buffers of several sizes.
pub fn into_buffers(random: &mut Random, kind: Kind) -> Vec<String> {
    let more = random.between(2, 30) as usize;
    let sizes = [0, 1, kind.size() - 1, kind.size(), kind.size() + 1, kind.size() + more];
    let both = [plain(kind, random.between(1, 500)), forbidden(random, kind)];
    let of_size = |size| both.iter().map(move |message| writing(size, message));
    sizes.into_iter().flat_map(of_size).collect()
}

/// A buffer for a message of this size: just enough, longer, or too short.
pub fn buffer(random: &mut Random, size: usize) -> usize {
    let more = random.place(20);
    random.pick(&[size, size, size, size + 1, size + more, size - 1, 0])
}

/// Where the length byte is.
fn length_at(kind: Kind) -> usize {
    match kind {
        Kind::Change => 1,
        _ => 2,
    }
}

/// Bytes that are those of a message save for one thing: each is refused with 16.
pub fn damaged(message: &Message) -> Vec<Vec<u8>> {
    let bytes = message.bytes();
    let (head, rest) = bytes.split_at(3);
    // Cut at every length; one byte more, and twice.
    let mut all: Vec<Vec<u8>> = (0..bytes.len()).map(|size| bytes[..size].to_vec()).collect();
    all.extend([0x00, 0xA5, 0xFF].map(|byte| [&bytes[..], &[byte]].concat()));
    all.push(bytes.repeat(2));
    // One byte more or less, and the length byte agrees.
    let mut longer = [&bytes[..], &[0]].concat();
    longer[length_at(message.kind)] += 1;
    let mut shorter = bytes[..bytes.len() - 1].to_vec();
    shorter[length_at(message.kind)] -= 1;
    all.extend([longer, shorter]);
    // Each byte of the head with each bit changed, and as another message has it.
    let others: Vec<Kind> = KINDS.into_iter().filter(|kind| *kind != message.kind).collect();
    for at in 0..3 {
        let bits = (0..8).map(|bit| head[at] ^ (1 << bit));
        let elsewhere = others.iter().map(|kind| kind.head()[at]).filter(|byte| *byte != head[at]);
        for byte in bits.chain(elsewhere) {
            let mut changed = bytes.clone();
            changed[at] = byte;
            all.push(changed);
        }
    }
    // Another's head; a packet indicator in front.
    all.extend(others.iter().map(|kind| [&kind.head(), rest].concat()));
    all.extend([1, 4].map(|indicator| [&[indicator], &bytes[..]].concat()));
    all
}

/// The bytes of one message behind the head of another kind, as many as that kind has.
fn behind_another_head(random: &mut Random, message: &Message) -> Vec<u8> {
    let kind = random.pick(&KINDS);
    let mut bytes = message.bytes();
    bytes.splice(..3, kind.head());
    bytes.resize(kind.size(), 0);
    bytes
}

/// A number for a field: at or beside an end of its range, or any that it holds.
fn stray(random: &mut Random, field: Field) -> i64 {
    let (low, high) = field.range();
    let any = random.between(0, field.greatest());
    random.pick(&[low - 1, low, high, high + 1, any, field.greatest()]).clamp(0, field.greatest())
}

/// Any message of this kind; most are allowed.
pub fn of_kind(random: &mut Random, kind: Kind) -> Message {
    let any = random.between(1, LARGEST_FACTOR);
    let factor = random.pick(&[1, 2, 8, 125, 166, 250, 500, any, any, any]);
    let message = with(
        plain(kind, factor),
        &[
            (Field::Status, random.pick(&[0, 0, 0, 1, 18, 255])),
            (Field::Handle, random.between(0, 3_839)),
            (Field::Min, random.between(1, factor)),
            (Field::Latency, random.between(0, LARGEST_FACTOR / factor - 1)),
            (Field::Continuation, random.between(0, factor - 1)),
            (Field::Timeout, random.between(10, 3_200)),
        ],
    );
    if random.chance(60) {
        return message;
    }
    let field = random.pick(kind.fields());
    let number = stray(random, field);
    with(message, &[(field, number)])
}

/// A line that writes a message or reads one, or bytes that are none.
pub fn any(random: &mut Random) -> String {
    let kind = random.pick(&KINDS);
    let message = of_kind(random, kind);
    match random.between(0, 9) {
        0..=4 => writing(buffer(random, kind.size()), &message),
        5..=7 => reading(&message.bytes()),
        8 => reading(&random.pick(&damaged(&message))),
        _ => reading(&behind_another_head(random, &message)),
    }
}

#[cfg(test)]
mod tests {
    use super::*;
    use peer::fault::Fault;
    use peer::messages::read;

    fn allowed(message: &Message) -> bool {
        message.allowed(Fault::None)
    }

    #[test]
    fn what_is_plain_is_allowed_and_what_is_forbidden_is_not() {
        for round in 0..400 {
            let mut random = Random::new(round, 0);
            for kind in KINDS {
                let factor = random.between(1, LARGEST_FACTOR);
                assert!(allowed(&plain(kind, factor)), "{kind:?} {factor}");
                let message = forbidden(&mut random, kind);
                assert!(!allowed(&message), "{message:?}");
            }
            for status in 0..=255 {
                let [good, other] = of_status(&mut random, status);
                assert!(allowed(&good));
                assert_eq!(allowed(&other), status != 0, "{other:?}");
            }
        }
    }

    #[test]
    fn each_range_alone_is_asked() {
        for kind in KINDS {
            for message in at_the_ends(kind) {
                let inside = message.kind.fields().iter().zip(&message.numbers).all(|(f, n)| {
                    let (low, high) = f.range();
                    (low..=high).contains(n)
                });
                assert_eq!(allowed(&message), inside, "{message:?}");
            }
        }
    }

    #[test]
    fn what_is_damaged_is_16() {
        for round in 0..40 {
            for kind in KINDS {
                let message = of_kind(&mut Random::new(round, 0), kind);
                for bytes in damaged(&message) {
                    assert_eq!(read(&bytes, Fault::None), Err(16), "{}", hex(&bytes));
                }
            }
        }
    }

    #[test]
    fn what_was_read_is_written_again() {
        assert_eq!(again(13, "default 1 8 0 0 10\n").as_deref(), Some("default 13 1 8 0 0 10"));
        assert_eq!(again(13, "no 17\n"), None);
        assert_eq!(again(13, ""), None);
    }
}
