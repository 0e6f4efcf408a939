//! The script: lines of text that drive the schedule, and their answers.

use crate::fault::Fault;
use crate::image;
use crate::messages::{self, Kind, Message, KINDS};
use crate::reports::{report_all, Report};
use crate::schedule::{Moved, Refusal, Schedule, LEAST_INTERVAL};
use crate::tidy::tidy;
use std::fmt::Display;

/// A script has at most this many bytes.
pub const LONGEST_SCRIPT: usize = 65_536;
/// `save N`, and a line that writes a message, lends at most this many bytes.
pub const LARGEST_BUFFER: i64 = 2_048;
/// What a lent buffer holds before.
pub const FILLING: u8 = 0xA5;
/// `reports` takes at most this many reports, and lends at most this many entries.
pub const LONGEST_LIST: usize = 128;
/// `tidy` lends at most this many numbers.
pub const LONGEST_MOVES: i64 = 400;
/// What a number of a lent list holds before.
pub const UNTOUCHED: u32 = 0xA5A5_A5A5;

/// Runs a whole script and gives all that it prints.
pub fn run(script: &[u8], fault: Fault) -> String {
    if script.len() > LONGEST_SCRIPT {
        return "long\n".to_string();
    }
    let mut session = Session::new(fault);
    let mut printed = String::new();
    for piece in script.split_inclusive(|&byte| byte == b'\n') {
        match piece.strip_suffix(b"\n") {
            Some(line) => printed += &session.line(line),
            None => printed += "bad\n", // a tail without LF
        }
    }
    printed
}

/// A schedule that is driven line by line.
#[derive(Clone)]
pub struct Session {
    pub schedule: Schedule,
}

impl Session {
    pub fn new(fault: Fault) -> Session {
        Session { schedule: Schedule::fresh(fault) }
    }

    /// Carries out one line (without its LF) and gives what it prints.
    pub fn line(&mut self, line: &[u8]) -> String {
        let answer = self.answer(line).unwrap_or_else(|| "bad".to_string());
        answer + "\n"
    }

    /// The answer to a good line; nothing for a bad one, which changes nothing.
    fn answer(&mut self, line: &[u8]) -> Option<String> {
        // Two spaces in a row, or one at either end, give an empty word here,
        // and an empty word is neither a word nor a number of the language.
        let mut words = line.split(|&byte| byte == b' ');
        let word = words.next()?;
        let rest: Vec<&[u8]> = words.collect();
        match word {
            b"load" => return self.load(&rest),
            b"message" => return read(&rest, self.schedule.fault),
            _ => {}
        }

        let mut numbers = Vec::new();
        for digits in rest {
            numbers.push(decimal(digits, self.schedule.fault)?);
        }
        if let Some(kind) = KINDS.into_iter().find(|kind| kind.word().as_bytes() == word) {
            return write_into(kind, &numbers, self.schedule.fault);
        }
        let schedule = &mut self.schedule;
        let answer = match (word, numbers.as_slice()) {
            (b"admit", &[handle, interval, floor, ceiling]) => {
                admit(schedule, handle, (LEAST_INTERVAL, interval), floor, ceiling)
            }
            (b"admit", &[handle, smallest, largest, floor, ceiling]) => {
                let range = match schedule.fault {
                    Fault::BoundsExchanged => (largest, smallest),
                    _ => (smallest, largest),
                };
                admit(schedule, handle, range, floor, ceiling)
            }
            (b"drop", &[handle]) => match schedule.drop(handle) {
                Ok(()) => "ok".to_string(),
                Err(refusal) => no(refusal),
            },
            (b"report", &[handle, sample]) => match schedule.report(handle, sample) {
                Ok((Moved::Kept, length)) => format!("kept {length}"),
                Ok((Moved::Grown, length)) => format!("grown {length}"),
                Ok((Moved::Shrunk, length)) => format!("shrunk {length}"),
                Ok((Moved::Tight, length)) => format!("tight {length}"),
                Err(refusal) => no(refusal),
            },
            (b"reports", [entries, numbers @ ..]) => reports(schedule, *entries, numbers)?,
            (b"tidy", &[size]) if size <= LONGEST_MOVES => tidy_into(schedule, size),
            (b"owner", &[block]) => match schedule.owner(block) {
                Some(handle) => format!("owner {handle}"),
                None => "idle".to_string(),
            },
            (b"anchor", &[handle, block]) => match schedule.anchor(handle, block) {
                Ok(slots) => format!("slots {slots}"),
                Err(refusal) => no(refusal),
            },
            (b"fresh", &[]) => {
                *schedule = Schedule::fresh(schedule.fault);
                "ok".to_string()
            }
            (b"save", &[]) => format!("image {}", hex(&image::image(schedule))),
            (b"save", &[size]) if size <= LARGEST_BUFFER => save_into(schedule, size),
            (b"state", &[]) => state(schedule),
            _ => return None,
        };
        Some(answer)
    }

    /// `load` alone or `load HEX`.
    fn load(&mut self, rest: &[&[u8]]) -> Option<String> {
        match image::load(&lone_bytes(rest)?, self.schedule.fault) {
            Ok(loaded) => {
                self.schedule = loaded;
                Some(format!("loaded {}", self.schedule.live().count()))
            }
            Err(refusal) => Some(no(refusal)),
        }
    }
}

/// `admit` in either form, of a range from its smallest interval to its largest.
fn admit(
    schedule: &mut Schedule,
    handle: i64,
    (smallest, largest): (i64, i64),
    floor: i64,
    ceiling: i64,
) -> String {
    match schedule.admit(handle, smallest, largest, floor, ceiling) {
        Ok((factor, anchor, length)) => format!("ok {factor} {anchor} {length}"),
        Err(refusal) => no(refusal),
    }
}

/// `save N`: the answer, and the whole buffer afterwards if there is one.
fn save_into(schedule: &Schedule, size: i64) -> String {
    let mut buffer = vec![FILLING; size as usize];
    let answer = match image::save(schedule, &mut buffer) {
        Ok(size) => format!("saved {size}"),
        Err(refusal) => no(refusal),
    };
    with_buffer(answer, &buffer)
}

/// `message` alone or `message HEX`: the word and the numbers of the message.
fn read(rest: &[&[u8]], fault: Fault) -> Option<String> {
    match messages::read(&lone_bytes(rest)?, fault) {
        Ok(message) => Some(message.kind.word().to_string() + &listed(&message.numbers)),
        Err(refusal) => Some(no(refusal)),
    }
}

/// `default N ..`, `request N ..`, `change N ..`: the answer, and the whole buffer afterwards.
fn write_into(kind: Kind, numbers: &[i64], fault: Fault) -> Option<String> {
    let (&size, numbers) = numbers.split_first()?;
    let message = Message::new(kind, numbers)?;
    if size > LARGEST_BUFFER {
        return None;
    }
    let mut buffer = vec![FILLING; size as usize];
    let answer = match messages::write(&message, &mut buffer, fault) {
        Ok(size) => format!("wrote {size}"),
        Err(refusal) => no(refusal),
    };
    Some(with_buffer(answer, &buffer))
}

/// An answer, and behind it a lent buffer as it is afterwards, if it has a byte.
fn with_buffer(answer: String, buffer: &[u8]) -> String {
    if buffer.is_empty() {
        answer
    } else {
        format!("{answer} {}", hex(buffer))
    }
}

/// `reports M H S H S ..`: the answer, and every entry of the list afterwards.
fn reports(schedule: &mut Schedule, entries: i64, numbers: &[i64]) -> Option<String> {
    if entries > LONGEST_LIST as i64 || numbers.len() % 2 == 1 || numbers.len() > 2 * LONGEST_LIST {
        return None;
    }
    let list: Vec<Report> =
        numbers.chunks(2).map(|pair| Report { handle: pair[0], sample: pair[1] }).collect();
    let mut answers = vec![UNTOUCHED; entries as usize];
    let answer = match report_all(schedule, &list, &mut answers) {
        Ok(made) => format!("reported {made}"),
        Err(refusal) => no(refusal),
    };
    Some(answer + &listed(&answers))
}

/// `tidy N`: the answer, and every number of the list afterwards.
fn tidy_into(schedule: &mut Schedule, size: i64) -> String {
    let mut list = vec![UNTOUCHED; size as usize];
    let answer = match tidy(schedule, &mut list) {
        Ok(moved) => format!("tidied {moved}"),
        Err(refusal) => no(refusal),
    };
    answer + &listed(&list)
}

/// `state`: a line for each live connection, then `end`.
fn state(schedule: &Schedule) -> String {
    let mut lines = String::new();
    for (handle, c) in schedule.live() {
        lines += &format!(
            "{handle} {} {} {} {} {} {}\n",
            c.k, c.anchor, c.length, c.floor, c.ceiling, c.estimate
        );
    }
    lines + "end"
}

fn no(refusal: Refusal) -> String {
    format!("no {refusal}")
}

/// Numbers, one space before each.
fn listed(numbers: &[impl Display]) -> String {
    numbers.iter().map(|number| format!(" {number}")).collect()
}

/// A decimal number: digits only, no leading zero save `0`, at most 2^32 − 1.
fn decimal(digits: &[u8], fault: Fault) -> Option<i64> {
    let mut digits = digits;
    if fault == Fault::LeadingZero {
        while digits.len() > 1 && digits[0] == b'0' {
            digits = &digits[1..];
        }
    }
    if digits.is_empty() || digits.len() > 10 || !digits.iter().all(u8::is_ascii_digit) {
        return None;
    }
    if digits[0] == b'0' && digits.len() > 1 {
        return None;
    }
    let value = digits.iter().fold(0, |value, &digit| 10 * value + i64::from(digit - b'0'));
    if value <= i64::from(u32::MAX) {
        Some(value)
    } else {
        None
    }
}

/// Bytes as lower-case hexadecimal digits.
pub fn hex(bytes: &[u8]) -> String {
    bytes.iter().map(|byte| format!("{byte:02x}")).collect()
}

/// The bytes of a word that stands alone or has digits behind it.
fn lone_bytes(rest: &[&[u8]]) -> Option<Vec<u8>> {
    match rest {
        [] => Some(Vec::new()),
        [digits] => unhex(digits),
        _ => None,
    }
}

/// One pair or more of lower-case hexadecimal digits as bytes.
fn unhex(digits: &[u8]) -> Option<Vec<u8>> {
    let value = |digit: u8| match digit {
        b'0'..=b'9' => Some(digit - b'0'),
        b'a'..=b'f' => Some(digit - b'a' + 10),
        _ => None,
    };
    if digits.is_empty() || digits.len() % 2 == 1 {
        return None;
    }
    digits.chunks(2).map(|pair| Some(16 * value(pair[0])? + value(pair[1])?)).collect()
}

#[cfg(test)]
mod tests {
    use super::*;

    fn right(script: &str) -> String {
        run(script.as_bytes(), Fault::None)
    }

    #[test]
    fn whole_case() {
        let input = "admit 0 48 1 4\nadmit 1 48 1 1\nreport 0 7500\nowner 9\nowner 7\n\
                     anchor 1 6\nadmit 2 6 1 1\ndrop 5\n";
        let output = "ok 8 0 1\nok 8 4 1\ngrown 2\nowner 0\nidle\nslots 36\nno 20\nno 3\n";
        assert_eq!(right(input), output);
    }

    #[test]
    fn sizes_of_scripts() {
        assert_eq!(right(""), "");
        assert_eq!(right("\n"), "bad\n");
        assert_eq!(right("drop 0"), "bad\n");
        assert_eq!(right(&"\n".repeat(65_536)), "bad\n".repeat(65_536));
        assert_eq!(right(&"\n".repeat(65_537)), "long\n");
    }

    #[test]
    fn numbers() {
        assert_eq!(right("owner 4294967295\nowner 4294967296\n"), "idle\nbad\n");
        assert_eq!(right("owner 0\nowner 00\nowner 01\nowner -1\n"), "idle\nbad\nbad\nbad\n");
        assert_eq!(right("owner 18446744073709551616\nowner \nowner\n"), "bad\nbad\nbad\n");
        assert_eq!(right("drop 64\ndrop 4294967295\n"), "no 1\nno 1\n");
        assert_eq!(right(" owner 0\nowner  0\nowner 0 \nowner 0\r\n"), "bad\n".repeat(4));
    }

    #[test]
    fn ranges() {
        assert_eq!(
            right("admit 0 12 30 1 1\nadmit 1 13 23 1 1\nadmit 1 30 12 1 1\nadmit 1 6 48 1 1\n"),
            "ok 4 0 1\nno 15\nno 4\nok 8 2 1\n"
        );
        assert_eq!(right("admit 0 12 30 1 1\nadmit 1 48 1 1\n"), "ok 4 0 1\nok 8 2 1\n");
        assert_eq!(right("admit 0 5 1 1\nadmit 0 48 1 1 1\n"), "no 4\nno 4\n");
        assert_eq!(right("admit 0 48 1\nadmit 0 6 48 1 1 1\nadmit\n"), "bad\n".repeat(3));
    }

    #[test]
    fn the_largest_factor() {
        for (line, answer) in [
            ("admit 0 3200 1 1", "ok 256 0 1"),
            ("admit 0 3072 1 1", "ok 256 0 1"),
            ("admit 0 1536 3200 1 1", "ok 256 0 1"),
            ("admit 0 1537 3200 1 1", "no 15"),
            ("admit 0 3072 3072 1 1", "no 15"),
            ("admit 0 3072 1 257", "no 5"),
            ("admit 0 3072 1 256", "no 20"),
            ("admit 0 3072 1 129", "no 20"),
            ("admit 0 3072 1 128", "ok 256 0 1"),
        ] {
            assert_eq!(right(&format!("{line}\n")), format!("{answer}\n"), "{line}");
        }
        // Handle 0 alone, with block 0 of F 512; with A 512; with a byte more.
        let image = |anchor: &str| {
            let record = format!("0e0002000009{anchor}01000100010088130000");
            let tree = |node| ["00", "01"][[8, 16, 32, 64, 128, 256, 512].contains(&node) as usize];
            let bytes: String = (1..128).map(|byte| tree(8 * byte)).collect();
            format!("020001000100{record}8000030016{bytes}")
        };
        let (nine, beyond) = (image("0000"), image("0002"));
        assert_eq!(
            right(&format!("load {nine}\nload {beyond}\nload {nine}00\nstate\n")),
            "no 18\nno 10\nno 9\nend\n"
        );
    }

    #[test]
    fn lists_of_reports() {
        assert_eq!(
            right("admit 0 48 1 4\nreports 2 0 7500 9 0 0 7500\nreports 4 0 7500 9 0 0 7500\n"),
            "ok 8 0 1\nno 14 2779096485 2779096485\nreported 3 131074 3 65538 2779096485\n"
        );
        assert_eq!(right("reports 0\nreports 1\n"), "reported 0\nreported 0 2779096485\n");
        assert_eq!(right("reports\nreports \nreports 129\nreports 1 0\n"), "bad\n".repeat(4));
        assert_eq!(right("reports 01\nreports 1 0 00\nreports 1 0 x\n"), "bad\n".repeat(3));
        let many = |reports: usize| format!("reports 0{}\n", " 0 0".repeat(reports));
        assert_eq!(right(&(many(128) + &many(129))), "no 13\nbad\n");
    }

    #[test]
    fn tidies() {
        let filled: String = (0..8).map(|handle| format!("admit {handle} 48 1 1\n")).collect();
        let before = filled + "drop 0\ndrop 4\nadmit 8 24 1 1\n";
        let stay = |many: usize| " 2779096485".repeat(many);
        let printed = "ok 8 0 1\nok 8 4 1\nok 8 2 1\nok 8 6 1\nok 8 1 1\nok 8 5 1\nok 8 3 1\n\
                       ok 8 7 1\nok\nok\nno 6\n";
        assert_eq!(
            right(&(before + "tidy 17\ntidy 20\nadmit 8 24 1 1\ntidy 0\ntidy 21\ntidy 0\n")),
            format!(
                "{printed}no 14{}\ntidied 6 1 4 0 2 2 4 3 6 2 5 5 6 6 3 1 7 7 5{}\nok 4 3 1\n\
                 no 14\ntidied 7 1 0 2 2 4 6 3 2 1 5 6 5 6 1 3 7 5 7 8 3 0\ntidied 0\n",
                stay(17),
                stay(2)
            )
        );
        assert_eq!(
            right("admit 0 48 2 2\nadmit 1 24 1 1\nadmit 2 24 1 1\ntidy 0\ntidy 2\n"),
            format!("ok 8 0 2\nok 4 2 1\nok 4 3 1\nno 19\nno 19{}\n", stay(2))
        );
        assert_eq!(right("tidy 0\ntidy 400\n"), format!("tidied 0\ntidied 0{}\n", stay(400)));
        let bad = "tidy\ntidy \ntidy 401\ntidy 01\ntidy 3 4\ntidy x\ntidy  3\ntidy 3 \ntidy3\n";
        assert_eq!(right(bad), "bad\n".repeat(9));
    }

    #[test]
    fn messages_of_numbers_and_of_bytes() {
        assert_eq!(
            right("message 7d200a0100f401000000000a00\nrequest 15 1 8 8 0 1 600\n"),
            "default 1 500 0 0 10\nwrote 15 7e200c010008000800000001005802\n"
        );
        assert_eq!(
            right("change 15 0 1 8 0 1 600\nchange 14 1 65535 0 0 0 0\n"),
            "wrote 14 3e0c230001000800000001005802a5\nwrote 14 3e0c2301ffff0000000000000000\n"
        );
        assert_eq!(
            right("default 2 1 500 1 0 10\ndefault 2 1 500 0 0 10\ndefault 0 1 500 0 0 10\n"),
            "no 17 a5a5\nno 8 a5a5\nno 8\n"
        );
        assert_eq!(
            right("message\nmessage 7d\nmessage 7d200a0100f401010000000a00\n"),
            "no 16\nno 16\nno 17\n"
        );
        assert_eq!(right("message \nmessage 7\nmessage 7D\nmessage 7d 20\n"), "bad\n".repeat(4));
        let bad = "default\ndefault 13\ndefault 13 1 1 0 0\ndefault 13 1 1 0 0 10 0\n\
                   default 2049 1 1 0 0 10\ndefault 13 1 1 0 0 65536\nrequest 15 65536 1 1 0 0 10\n\
                   change 14 256 1 1 0 0 10\nchange 14 0 1 1 0 0\nrequest 15 01 1 1 0 0 10\n";
        assert_eq!(right(bad), "bad\n".repeat(10));
    }

    #[test]
    fn the_lines_beside_the_commands() {
        assert_eq!(right("fresh\nfresh 0\nstate\nstate \n"), "ok\nbad\nend\nbad\n");
        assert_eq!(right("save 0\nsave 2\nsave 2049\n"), "no 8\nno 8 a5a5\nbad\n");
        assert_eq!(right("load\nload \nload 0\nload 00\nload AA\n"), "no 9\nbad\nbad\nno 9\nbad\n");
        let empty = "02000100000080000300".to_string() + &"00".repeat(128);
        assert_eq!(right("save\n"), format!("image {empty}\n"));
        assert_eq!(right("save 139\n"), format!("saved 138 {empty}a5\n"));
        assert_eq!(
            right(&format!("admit 9 48 2 3\nstate\nload {empty}\nstate\n")),
            "ok 8 0 2\n9 3 0 2 2 3 12500\nend\nloaded 0\nend\n"
        );
    }
}
