//! The subrate messages of the Core Specification (Version 5.4, Vol 4, Part E, 7.8.123, 7.8.124
//! and 7.7.65.35) as numbers and as bytes. A message begins at its opcode or event code.

use crate::fault::Fault;
use crate::image::number;
use crate::schedule::Refusal;

/// The most of a factor, and of max × (latency + 1).
pub const LARGEST_FACTOR: i64 = 500;

#[derive(Clone, Copy, Debug, PartialEq, Eq)]
pub enum Field {
    Status,
    Handle,
    Min,
    Max,
    Factor,
    Latency,
    Continuation,
    Timeout,
}

impl Field {
    /// How many bytes it takes, the lowest first.
    fn width(self) -> usize {
        match self {
            Field::Status => 1,
            _ => 2,
        }
    }

    /// The greatest number that these bytes hold.
    pub fn greatest(self) -> i64 {
        (1 << (8 * self.width())) - 1
    }

    /// From where to where it is allowed, both included.
    pub fn range(self) -> (i64, i64) {
        match self {
            Field::Status => (0, 255),
            Field::Handle => (0, 3_839),
            Field::Min | Field::Max | Field::Factor => (1, LARGEST_FACTOR),
            Field::Latency | Field::Continuation => (0, 499),
            Field::Timeout => (10, 3_200),
        }
    }

    fn allows(self, number: i64) -> bool {
        let (low, high) = self.range();
        low <= number && number <= high
    }
}

#[derive(Clone, Copy, Debug, PartialEq, Eq)]
pub enum Kind {
    Default,
    Request,
    Change,
}

pub const KINDS: [Kind; 3] = [Kind::Default, Kind::Request, Kind::Change];

impl Kind {
    pub fn word(self) -> &'static str {
        match self {
            Kind::Default => "default",
            Kind::Request => "request",
            Kind::Change => "change",
        }
    }

    /// Opcode and length; of the event its code, length and subevent.
    pub fn head(self) -> [u8; 3] {
        match self {
            Kind::Default => [0x7d, 0x20, 0x0a],
            Kind::Request => [0x7e, 0x20, 0x0c],
            Kind::Change => [0x3e, 0x0c, 0x23],
        }
    }

    /// What follows the head, in the order of the bytes.
    pub fn fields(self) -> &'static [Field] {
        use Field::*;
        match self {
            Kind::Default => &[Min, Max, Latency, Continuation, Timeout],
            Kind::Request => &[Handle, Min, Max, Latency, Continuation, Timeout],
            Kind::Change => &[Status, Handle, Factor, Latency, Continuation, Timeout],
        }
    }

    pub fn size(self) -> usize {
        let widths = self.fields().iter().map(|field| field.width());
        self.head().len() + widths.sum::<usize>()
    }
}

/// A message: a number for each field of its kind.
#[derive(Clone, Debug, PartialEq, Eq)]
pub struct Message {
    pub kind: Kind,
    pub numbers: Vec<i64>,
}

impl Message {
    /// The message with these numbers, if there is one for each field and each fits its bytes.
    pub fn new(kind: Kind, numbers: &[i64]) -> Option<Message> {
        let fits = |(field, &number): (&Field, &i64)| number <= field.greatest();
        let one_each = numbers.len() == kind.fields().len();
        if one_each && kind.fields().iter().zip(numbers).all(fits) {
            Some(Message { kind, numbers: numbers.to_vec() })
        } else {
            None
        }
    }

    /// Every field with its number.
    fn each(&self) -> impl Iterator<Item = (Field, i64)> + '_ {
        self.kind.fields().iter().copied().zip(self.numbers.iter().copied())
    }

    /// The number of a field; 0 for one that the message has not.
    fn of(&self, asked: Field) -> i64 {
        self.each().find(|(field, _)| *field == asked).map_or(0, |(_, number)| number)
    }

    pub fn bytes(&self) -> Vec<u8> {
        let mut bytes = self.kind.head().to_vec();
        for (field, number) in self.each() {
            bytes.extend(&number.to_le_bytes()[..field.width()]);
        }
        bytes
    }

    /// Whether these values are allowed, each alone and together.
    pub fn allowed(&self, fault: Fault) -> bool {
        // A command has no status, and is held to the rules as an event of status 0 is.
        if self.of(Field::Status) != 0 && fault != Fault::FailedEventHeld {
            return true;
        }
        let (min, max) = match self.kind {
            Kind::Change => (self.of(Field::Factor), self.of(Field::Factor)),
            _ => (self.of(Field::Min), self.of(Field::Max)),
        };
        let events = match fault {
            Fault::LatencyNotCountedUp => self.of(Field::Latency),
            _ => self.of(Field::Latency) + 1,
        };
        self.each().all(|(field, number)| field.allows(number))
            && min <= max
            && max * events <= LARGEST_FACTOR
            && self.of(Field::Continuation) < max
    }
}

/// Read: checks 16, 17.
pub fn read(bytes: &[u8], fault: Fault) -> Result<Message, Refusal> {
    let message = KINDS.into_iter().find_map(|kind| cut(kind, bytes, fault)).ok_or(16u32)?;
    if message.allowed(fault) {
        Ok(message)
    } else {
        Err(17)
    }
}

/// Check 16: the head of this kind, then its fields, then nothing.
fn cut(kind: Kind, bytes: &[u8], fault: Fault) -> Option<Message> {
    let mut rest = bytes.strip_prefix(&kind.head())?;
    let mut numbers = Vec::new();
    for field in kind.fields() {
        numbers.push(number(rest.get(..field.width())?));
        rest = &rest[field.width()..];
    }
    if rest.is_empty() || fault == Fault::TrailingTaken {
        Some(Message { kind, numbers })
    } else {
        None
    }
}

/// Write: checks 17, 8. Writes the message from the buffer's start and answers its size.
pub fn write(message: &Message, buffer: &mut [u8], fault: Fault) -> Result<usize, Refusal> {
    let bytes = message.bytes();
    let short = buffer.len() < bytes.len();
    if short && fault == Fault::ShortBeforeForbidden {
        return Err(8);
    }
    if !message.allowed(fault) {
        return Err(17);
    }
    if short {
        return Err(8);
    }
    buffer[..bytes.len()].copy_from_slice(&bytes);
    Ok(bytes.len())
}

#[cfg(test)]
mod tests {
    use super::*;

    fn message(kind: Kind, numbers: &[i64]) -> Message {
        Message { kind, numbers: numbers.to_vec() }
    }

    fn allowed(kind: Kind, numbers: &[i64]) -> bool {
        message(kind, numbers).allowed(Fault::None)
    }

    #[test]
    fn sizes() {
        assert_eq!(KINDS.map(Kind::size), [13, 15, 14]);
        for kind in KINDS {
            // The length byte counts what is behind it.
            let before = if kind == Kind::Change { 2 } else { 3 };
            assert_eq!(kind.size() - before, usize::from(kind.head()[before - 1]));
        }
    }

    #[test]
    fn rules_of_the_commands() {
        for kind in [Kind::Default, Kind::Request] {
            let of = |numbers: [i64; 5]| {
                let handle = if kind == Kind::Request { vec![3_839] } else { Vec::new() };
                allowed(kind, &[handle, numbers.to_vec()].concat())
            };
            for numbers in [[1, 500, 0, 499, 10], [1, 1, 499, 0, 3_200], [166, 166, 2, 165, 600]] {
                assert!(of(numbers), "{numbers:?}");
            }
            // Each by one rule: min, max, the product, continuation, either end of the timeout.
            for numbers in [
                [0, 8, 0, 0, 600],
                [9, 8, 0, 0, 600],
                [1, 167, 2, 0, 600],
                [1, 500, 1, 0, 600],
                [8, 8, 0, 8, 600],
                [1, 8, 0, 0, 9],
                [1, 8, 0, 0, 3_201],
            ] {
                assert!(!of(numbers), "{numbers:?}");
            }
        }
        assert!(!allowed(Kind::Request, &[3_840, 1, 8, 0, 0, 600]));
    }

    #[test]
    fn rules_of_the_event() {
        assert!(allowed(Kind::Change, &[0, 3_839, 125, 3, 124, 600]));
        for numbers in [[3_840, 8, 0, 0, 600], [1, 126, 3, 0, 600], [1, 8, 0, 8, 600]] {
            assert!(!allowed(Kind::Change, &[&[0], &numbers[..]].concat()), "{numbers:?}");
            for status in 1..=255 {
                assert!(allowed(Kind::Change, &[&[status], &numbers[..]].concat()));
            }
        }
    }

    #[test]
    fn back_again() {
        for (kind, numbers) in [
            (Kind::Default, vec![1, 500, 0, 0, 10]),
            (Kind::Request, vec![258, 1, 250, 1, 249, 3_200]),
            (Kind::Change, vec![0, 3_839, 500, 0, 499, 772]),
            (Kind::Change, vec![255, 65_535, 0, 65_535, 258, 0]),
        ] {
            let sent = message(kind, &numbers);
            let mut buffer = vec![0xA5; kind.size() + 1];
            assert_eq!(write(&sent, &mut buffer, Fault::None), Ok(kind.size()));
            assert_eq!(buffer[kind.size()], 0xA5);
            assert_eq!(read(&buffer[..kind.size()], Fault::None), Ok(sent));
            assert_eq!(read(&buffer, Fault::None), Err(16));
            for size in 0..kind.size() {
                assert_eq!(read(&buffer[..size], Fault::None), Err(16));
            }
        }
    }

    #[test]
    fn checks_of_writing() {
        let mut short = [0xA5; 12];
        let forbidden = message(Kind::Default, &[1, 500, 1, 0, 10]);
        assert_eq!(write(&forbidden, &mut short, Fault::None), Err(17));
        assert_eq!(
            write(&message(Kind::Default, &[1, 500, 0, 0, 10]), &mut short, Fault::None),
            Err(8)
        );
        assert_eq!(short, [0xA5; 12]);
        assert_eq!(write(&forbidden, &mut [0xA5; 13], Fault::None), Err(17));
    }
}
