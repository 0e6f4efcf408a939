//! The five kinds of scripts.

use crate::images;
use crate::lines;
use crate::lists;
use crate::messages;
use crate::random::Random;
use crate::ranges;
use crate::sheet::Sheet;
use crate::tidies;
use peer::image::image;
use peer::messages::{Kind, Message, KINDS};
use peer::schedule::{HANDLES, LARGEST_K};
use peer::script::{hex, LONGEST_SCRIPT};

/// Script number `number` (from 1) of the series `seed`.
pub fn script(seed: u64, number: u64) -> Vec<u8> {
    let mut sheet = Sheet::new(Random::new(seed, number));
    let turn = (number.saturating_sub(1) / 5) as usize;
    match number % 5 {
        1 => realistic(&mut sheet, turn),
        2 => dense(&mut sheet, turn),
        3 => hostile(&mut sheet, turn),
        4 => stored(&mut sheet, turn),
        _ => long(&mut sheet, turn),
    }
    sheet.bytes
}

/// (a) Loggers join, report, are asked about, and now and then one leaves.
fn realistic(sheet: &mut Sheet, turn: usize) {
    let loggers = sheet.random.between(3, 24);
    for _ in 0..loggers {
        sheet.do_one(lines::join);
        for _ in 0..sheet.random.between(0, 6) {
            day(sheet);
        }
    }
    for _ in 0..sheet.random.between(10, 80) {
        day(sheet);
    }
    lists_in_turn(sheet, turn);
    thin_and_tidy(sheet, turn);
    every_range(sheet);
    there_and_back(sheet, &messages::at_the_ends(kind_in_turn(turn)));
    sheet.say("save");
}

fn day(sheet: &mut Sheet) {
    match sheet.random.between(0, 22) {
        0..=9 => sheet.do_one(lines::plausible_report),
        10..=14 => sheet.do_one(lines::question),
        15 => sheet.do_one(lines::join),
        16 => sheet.do_one(lines::leave),
        17 => sheet.do_one(lists::of_the_live),
        18 => sheet.do_one(|random, _| messages::any(random)),
        19 => sheet.do_one(tidies::any),
        _ => sheet.do_one(lines::show),
    };
}

/// A quarter of the kinds of lists, the next one in each turn, and what each list leaves.
fn lists_in_turn(sheet: &mut Sheet, turn: usize) {
    let quarter = lists::LISTS / 4;
    for step in 0..quarter {
        let schedule = &sheet.session.schedule;
        let line = lists::of_kind(&mut sheet.random, schedule, quarter * turn + step);
        sheet.say(line);
        sheet.say("state");
    }
}

/// Loggers leave, now and then one comes, and the house is tidied.
fn thin_and_tidy(sheet: &mut Sheet, turn: usize) {
    for _ in 0..sheet.random.between(1, 16) {
        sheet.do_one(lines::leave);
        if sheet.random.chance(20) {
            sheet.do_one(lines::join);
        }
    }
    tidies_in_turn(sheet, turn);
}

/// A tidy with a list that is too short and one with a list that is not, each of the next kind in
/// each turn, and one when there is nothing to move; and what each leaves.
fn tidies_in_turn(sheet: &mut Sheet, turn: usize) {
    let short = turn % tidies::SHORT;
    let enough = tidies::SHORT + turn % tidies::ENOUGH;
    let any = sheet.random.place(enough);
    for which in [short, enough, any] {
        let schedule = &sheet.session.schedule;
        let line = tidies::of_kind(&mut sheet.random, schedule, which);
        sheet.say(line);
        sheet.do_one(lines::show);
        sheet.do_one(lines::question);
        sheet.do_one(lines::question);
    }
}

/// A range of each kind, with a share that 5 refuses, with one that 20 refuses and with one that
/// both let pass; who is admitted leaves again.
fn every_range(sheet: &mut Sheet) {
    let schedule = &sheet.session.schedule;
    let handle = lines::idle_handle(&mut sheet.random, schedule).unwrap_or(0);
    for which in 0..ranges::RANGES {
        let range = ranges::of_kind(&mut sheet.random, which);
        for refusal in [Some(5), Some(20), None] {
            let share = ranges::share(&mut sheet.random, 1 << lines::k_of(range.1), refusal);
            let line = lines::admission(&mut sheet.random, handle as i64, range, share);
            come_and_go(sheet, handle, line);
        }
    }
}

/// An admission of this handle; if it is accepted, the handle leaves again.
fn come_and_go(sheet: &mut Sheet, handle: usize, line: String) {
    if sheet.say(line).starts_with("ok") {
        sheet.say("state");
        sheet.say(format!("drop {handle}"));
    }
}

/// Ceilings of half of each factor, and one above; of a live handle too.
fn every_half(sheet: &mut Sheet) {
    let schedule = &sheet.session.schedule;
    let handle = lines::idle_handle(&mut sheet.random, schedule).unwrap_or(0);
    for k in 0..=LARGEST_K {
        let half = (1 << k) / 2;
        for ceiling in [half + 1, half] {
            let line = lines::with_ceiling(&mut sheet.random, handle as i64, k, ceiling);
            come_and_go(sheet, handle, line);
        }
    }
    if let Some((live, _)) = lines::live(&mut sheet.random, &sheet.session.schedule) {
        let line = lines::with_ceiling(&mut sheet.random, live as i64, 0, 1);
        sheet.say(line);
    }
}

/// An older image: its connection with F 1 or a ceiling above half grows as far as it can, the
/// house is tidied, saved and restored, another comes, and it gets little to do or leaves.
fn older(sheet: &mut Sheet, turn: usize) {
    let (schedule, handle) = images::older_schedule(&mut sheet.random, turn);
    sheet.load(&image(&schedule));
    let other = (handle + 1) % HANDLES;
    for _ in 0..sheet.random.between(1, 12) {
        let length = sheet.session.schedule.connections[handle].as_ref().map_or(0, |c| c.length);
        sheet.say(format!("report {handle} {}", 7_500 * length));
        if sheet.random.chance(15) {
            sheet.say(format!("drop {other}"));
        }
    }
    sheet.say("state");
    sheet.do_one(lines::question);
    sheet.do_one(tidies::any);
    sheet.say("save");
    let saved = image(&sheet.session.schedule);
    if sheet.random.chance(50) {
        sheet.say("fresh");
    }
    sheet.load(&saved);
    sheet.say("save");
    sheet.do_one(lines::join);
    for _ in 0..sheet.random.between(0, 6) {
        sheet.say(format!("report {handle} 0"));
    }
    if sheet.random.chance(50) {
        sheet.say(format!("drop {handle}"));
        let line = lines::with_ceiling(&mut sheet.random, handle as i64, 0, 1);
        sheet.say(line);
    }
    sheet.say("state");
}

fn kind_in_turn(turn: usize) -> Kind {
    KINDS[turn % KINDS.len()]
}

/// Each of these is written and its bytes are read; what was read is written again.
fn there_and_back(sheet: &mut Sheet, messages: &[Message]) {
    for message in messages {
        let size = messages::buffer(&mut sheet.random, message.kind.size());
        sheet.say(messages::writing(size, message));
        let read = sheet.say(messages::reading(&message.bytes()));
        if let Some(line) = messages::again(message.kind.size(), &read) {
            sheet.say(line);
        }
    }
    sheet.say("state");
}

/// The cases that the rule sheet itself names, and such of the requests, each on a fresh schedule.
#[rustfmt::skip]
const NAMED: [&[&str]; 14] = [
    &["admit 0 48 1 4", "admit 1 48 1 1", "report 0 7500", "owner 9", "owner 7", "anchor 1 6",
        "admit 2 6 1 1", "drop 5"],
    &["admit 0 48 1 1", "admit 1 48 1 1", "admit 2 48 1 1", "admit 3 48 1 1", "admit 4 12 1 1",
        "admit 5 48 1 1"],
    &["admit 0 24 2 2", "admit 1 24 2 2", "admit 2 24 2 2"],
    // A run round the end: blocks 0, 2 and 1 taken, 0 freed, then 3 and 0 together.
    &["admit 0 24 1 1", "admit 1 24 1 1", "admit 2 24 1 1", "drop 0", "admit 3 24 2 2", "owner 3",
        "owner 0", "drop 3", "admit 4 24 2 2", "admit 5 24 1 1"],
    // The class of block 1 by 4 has its first block free and its second taken.
    &["admit 0 24 1 2", "admit 1 48 1 1", "admit 2 48 1 1", "admit 3 48 1 1", "admit 4 48 1 1",
        "drop 3", "owner 1", "report 0 7500", "drop 4", "report 0 7500"],
    &["admit 0 48 1 1", "admit 1 48 1 1", "save", "drop 0", "save", "drop 1", "save"],
    &["admit 0 48 1 4", "reports 2 0 7500 9 0 0 7500", "reports 4 0 7500 9 0 0 7500", "reports 0"],
    &["admit 0 48 1 4 5", "admit 0 12 30 1 1", "admit 1 13 23 1 1", "admit 1 30 12 1 1",
        "admit 1 6 48 1 1", "drop 1", "admit 1 48 1 1"],
    &["message 7d200a0100f401000000000a00", "request 15 1 8 8 0 1 600", "change 15 0 1 8 0 1 600",
        "change 14 1 65535 0 0 0 0", "default 2 1 500 1 0 10", "default 2 1 500 0 0 10"],
    &["admit 0 3200 1 1", "drop 0", "admit 0 1536 3200 1 1", "drop 0", "admit 0 1537 3200 1 1",
        "admit 0 3072 3072 1 1", "admit 0 3072 1 257", "admit 0 3072 1 256",
        "admit 0 3072 1 129", "admit 0 3072 1 128"],
    &["admit 0 48 1 1", "admit 1 48 1 1", "admit 2 48 1 1", "admit 3 48 1 1", "admit 4 48 1 1",
        "admit 5 48 1 1", "admit 6 48 1 1", "admit 7 48 1 1", "drop 0", "drop 4", "admit 8 24 1 1",
        "tidy 17", "tidy 20", "admit 8 24 1 1", "tidy 0", "tidy 21", "tidy 0"],
    &["admit 0 48 2 2", "admit 1 24 1 1", "admit 2 24 1 1", "tidy 0", "tidy 9"],
    // 20 beside 5 and 2, and alone.
    &["admit 0 6 1 1", "admit 0 11 1 1", "admit 0 12 1 2", "admit 0 48 1 5", "admit 0 48 0 5",
        "admit 0 48 1 9", "admit 0 48 1 4", "admit 0 6 1 1", "admit 1 12 1 1"],
    // 20 where nothing is free.
    &["admit 0 12 1 1", "admit 1 12 1 1", "admit 2 6 1 1", "admit 2 12 1 2", "admit 2 48 4 5",
        "admit 2 12 1 1", "admit 2 48 4 4"],
];

/// (b) The house is filled until there is no room, thinned, and filled again.
fn dense(sheet: &mut Sheet, turn: usize) {
    for line in NAMED[turn % NAMED.len()] {
        sheet.say(line);
    }
    sheet.say("state");
    sheet.say("fresh");
    every_range(sheet);
    every_half(sheet);

    // Half of them begin in a house that is well filled, with runs anywhere.
    if turn % 2 == 1 {
        let most = 5 + sheet.random.place(30);
        let schedule = images::random_schedule(&mut sheet.random, most);
        sheet.load(&image(&schedule));
    }
    let rounds = sheet.random.between(1, 3);
    for _ in 0..rounds {
        fill(sheet);
        sheet.do_one(lines::show);
        for _ in 0..sheet.random.between(10, 50) {
            sheet.do_one(lines::report);
            if sheet.random.chance(20) {
                sheet.do_one(lines::question);
            }
            if sheet.random.chance(6) {
                sheet.do_one(lines::show);
            }
        }
        push_and_let_go(sheet);
        lists_in_turn(sheet, turn);
        for _ in 0..sheet.random.between(1, 8) {
            sheet.do_one(lines::leave);
        }
        sheet.do_one(lines::show);
        if sheet.random.chance(70) {
            thin_and_tidy(sheet, turn);
        }
    }
    fill(sheet);
    every_half(sheet);
    sheet.say("state");
    let messages = messages::at_the_rules(&mut sheet.random, kind_in_turn(turn));
    there_and_back(sheet, &messages);
    sheet.say("save");
}

/// Admissions until `no 6` has come a few times.
fn fill(sheet: &mut Sheet) {
    // Factors 2^low to 2^high, and the share of a cycle that a floor may take.
    let styles =
        [(3, 8, 25), (2, 5, 30), (5, 8, 40), (6, 8, 5), (8, 8, 60), (7, 8, 12), (4, 4, 20)];
    let (low, high, share) = sheet.random.pick(&styles);
    let enough = sheet.random.between(1, 4);
    let mut refused = 0;
    for _ in 0..90 {
        let schedule = &sheet.session.schedule;
        let line = lines::crowd(&mut sheet.random, schedule, low, high, share);
        if sheet.say(line) == "no 6\n" {
            refused += 1;
        }
        if refused == enough {
            break;
        }
    }
    // The last gaps are small ones.
    for _ in 0..sheet.random.between(0, 12) {
        let line = lines::crowd(&mut sheet.random, &sheet.session.schedule, 5, 8, 1);
        sheet.say(line);
    }
    // F 2 and F 1 want the most classes.
    if let Some(handle) = lines::idle_handle(&mut sheet.random, &sheet.session.schedule) {
        sheet.say(format!("admit {handle} 12 1 1"));
        sheet.say(format!("admit {handle} 6 1 1"));
    }
}

/// One connection grows as far as it can, then gets little to do and shrinks.
fn push_and_let_go(sheet: &mut Sheet) {
    // The one of three with the smallest factor: its classes have many periods.
    let schedule = &sheet.session.schedule;
    let three = (0..3).filter_map(|_| lines::live(&mut sheet.random, schedule));
    let Some((handle, _)) = three.min_by_key(|(_, c)| c.k) else {
        return;
    };
    for _ in 0..sheet.random.between(2, 25) {
        let length = sheet.session.schedule.connections[handle].as_ref().map_or(0, |c| c.length);
        sheet.say(format!("report {handle} {}", 7_500 * length));
    }
    sheet.say("state");
    for _ in 0..sheet.random.between(0, 25) {
        let sample = sheet.random.pick(&[0, 0, 0, 1, 7, 2_000]);
        sheet.say(format!("report {handle} {sample}"));
    }
    sheet.say("state");
}

/// Lines that are bad whatever the schedule holds.
#[rustfmt::skip]
const BAD: [&[u8]; 143] = [
    b"", b" ", b"  ", b"\t", b"\r", b"\0", b"\xff", b"0", b"48", b"#", b"help", b"ok", b"bad",
    b"a", b"ad", b"admi", b"admit", b"admit ", b"admit 0", b"admit 0 48", b"admit 0 48 1",
    b"admit 0 48 1 ", b"admit 0 6 48 1 4 5", b"admit0 48 1 4", b"admit,0,48,1,4",
    b"admits 0 48 1 4", b"ADMIT 0 48 1 4", b"Admit 0 48 1 4", b"admiT 0 48 1 4", b"dro", b"drop",
    b"drop ", b"drop0", b"drop 0 0", b"Drop 0", b"drop -0", b"drop +0", b"repor", b"report",
    b"report 0", b"report 0 ", b"report 0 1 2", b"report0 1", b"report 0 1.5", b"report 0 1e3",
    b"reports", b"reports ", b"reports1", b"Reports 0", b"reports 129", b"reports 129 0 0",
    b"reports 4294967295", b"reports 1 0", b"reports 2 0 0 0", b"reports 0 ", b"reports  0",
    b"reports 1 0  0", b"reports -1", b"reports 1 0 x", b"owne", b"owner", b"owner ",
    b"owner9", b"owner 9 9", b"owner 0x9", b"owners 9", b"owner\t9", b"owner\xc2\xa09",
    b"ancho", b"anchor", b"anchor 0", b"anchor 0 1 2", b"anchor0 1", b"fres", b"fresh ",
    b"fresh 0", b"Fresh", b"freshfresh", b"sav", b"save ", b"save 2049", b"save 4294967295",
    b"save 0 0", b"save a5", b"savesave", b"load ", b"loads", b"stat", b"state ", b"state 0",
    b"messag", b"message ", b"message 7", b"message 7D", b"message 7d ", b"message  7d",
    b"message 7d 20", b"message 0x7d", b"message7d", b"messages", b"Message", b"message\t7d",
    b"defaul", b"default", b"default ", b"default 13", b"default 13 1 8 0 0",
    b"default 13 1 8 0 0 10 ", b"default 13 1 8 0 0 10 10", b"default 2049 1 8 0 0 10",
    b"default 13 65536 8 0 0 10", b"default 13 1 8 0 0 65536", b"default 13 1 8 0 -1 10",
    b"Default 13 1 8 0 0 10", b"default13 1 8 0 0 10", b"request", b"request 15 1 8 8 0 0",
    b"request 15 1 8 8 0 0 10 10", b"request 2049 1 8 8 0 0 10", b"request 15 65536 8 8 0 0 10",
    b"requests 15 1 8 8 0 0 10", b"change", b"change 14 0 1 8 0 0", b"change 14 256 1 8 0 0 10",
    b"change 14 0 65536 8 0 0 10", b"change 4294967295 0 1 8 0 0 10",
    b"tid", b"tidy", b"tidy ", b"tidy3", b"tidy 401", b"tidy 4294967295", b"tidy 3 4", b"tidy 3 ",
    b"tidy  3", b"tidy\t3", b"tidy -1", b"tidy x", b"tidy 0x3", b"tidys 3", b"tidied 3", b"Tidy 3",
    b"TIDY 3",
];

/// Numbers that are not numbers of the language.
#[rustfmt::skip]
const BAD_NUMBERS: [&str; 22] = [
    "4294967296", "4294967297", "9999999999", "42949672950", "18446744073709551615",
    "18446744073709551616", "99999999999999999999", "00", "01", "007", "0000000000",
    "00000000000000000001", "-1", "+1", "1-", "0x1", "1e1", "1.0", "1,0", "a", "\u{661}", "1_0",
];

/// (c) Everything that a line can have wrong, mixed with good lines.
fn hostile(sheet: &mut Sheet, turn: usize) {
    for _ in 0..sheet.random.between(0, 6) {
        sheet.do_one(lines::join);
    }
    let mut list: Vec<&[u8]> = BAD.to_vec();
    sheet.random.shuffle(&mut list);
    list.truncate(50);
    for bad in list {
        sheet.say(bad);
        match sheet.random.between(0, 9) {
            0..=4 => {
                let good = lines::any(&mut sheet.random, &sheet.session.schedule);
                let spoilt = spoil(&mut sheet.random, good.into_bytes());
                sheet.say(spoilt);
            }
            5 => {
                let line = match sheet.random.between(0, 2) {
                    0 => bad_load(sheet),
                    1 => bad_list(sheet),
                    _ => bad_message(sheet),
                };
                sheet.say(line);
            }
            6 => drop(sheet.say("state")),
            _ => drop(sheet.do_one(lines::any)),
        }
        if sheet.random.chance(20) {
            sheet.do_one(lines::edge_admission);
        }
    }
    lists_in_turn(sheet, turn);
    every_range(sheet);
    damaged_messages(sheet, turn);
    sheet.say("save");

    // Whole scripts that are nearly nothing.
    match turn % 12 {
        3 => sheet.bytes.clear(),
        5 => sheet.bytes = b"\n".to_vec(),
        7 => sheet.bytes = vec![sheet.random.between(0, 255) as u8],
        9 => sheet.bytes = (0..2_000).map(|_| sheet.random.between(0, 255) as u8).collect(),
        _ => {}
    }
    // A tail without LF: a good line, a bad one, a single byte.
    let tail: &[u8] = match turn % 8 {
        0 => b"drop 0",
        1 => b"state",
        2 => b"x",
        4 => b"\r",
        6 => b"fresh",
        _ => b"",
    };
    sheet.bytes.extend(tail);
}

/// Takes a good line and does one thing (sometimes two) to it.
fn spoil(random: &mut Random, line: Vec<u8>) -> Vec<u8> {
    let mut line = line;
    let spaces: Vec<usize> = (0..line.len()).filter(|&at| line[at] == b' ').collect();
    let space = if spaces.is_empty() { None } else { Some(random.pick(&spaces)) };
    let anywhere = random.place(line.len() + 1);
    let inside = random.place(line.len());
    match (random.between(0, 21), space) {
        (0, _) => line.push(b'\r'),
        (1, _) => line.push(b' '),
        (2, _) => line.insert(0, b' '),
        (3, Some(at)) => line.insert(at, b' '),
        (4, Some(at)) => line[at] = b'\t',
        (5, Some(at)) => line[at] = random.pick(&[0, 11, 12, b'\r', b',', b'_', 0xA0]),
        (6, Some(at)) => drop(line.remove(at)),
        (7, _) => line.insert(anywhere, 0),
        (8, _) => line.insert(anywhere, random.between(128, 255) as u8),
        (9, _) => line[inside] = line[inside].to_ascii_uppercase(),
        (10, _) => line = line.to_ascii_uppercase(),
        (11, _) => line.truncate(inside),
        // A number missing, one more, or one that is none.
        (12, Some(at)) => line.truncate(at),
        (13, _) => line.extend(b" 0"),
        (14..=17, Some(at)) => {
            let mut end = at + 1;
            while end < line.len() && line[end] != b' ' {
                end += 1;
            }
            let number = random.pick(&BAD_NUMBERS);
            line.splice(at + 1..end, number.bytes());
        }
        // A zero before a number.
        (18, Some(at)) => line.insert(at + 1, b'0'),
        (19, _) => line[inside] ^= 1 << random.place(8),
        (20, _) => line.extend(b";drop 0"),
        _ => line.insert(anywhere, random.pick(b"0123456789 abcdefxyz.-+")),
    }
    line.retain(|&byte| byte != b'\n');
    if random.chance(10) {
        line.push(random.pick(b" \r\t\0"));
    }
    line
}

/// A `load` line with something wrong in its digits; the image itself is good.
fn bad_load(sheet: &mut Sheet) -> Vec<u8> {
    bad_digits(&mut sheet.random, b"load ", &image(&sheet.session.schedule))
}

/// This word and these bytes, or some of them, with something wrong in the digits.
fn bad_digits(random: &mut Random, word: &[u8], bytes: &[u8]) -> Vec<u8> {
    let mut digits = hex(bytes).into_bytes();
    digits.truncate(random.pick(&[2, 8, 60, 20_000]));
    match random.between(0, 9) {
        0 => digits.push(b'0'),
        1 => drop(digits.pop()),
        2 => {
            let at = random.place(digits.len());
            digits[at] = random.pick(b"ABCDEFgG/:@` ");
        }
        3 => digits.push(b' '),
        4 => digits.insert(0, b' '),
        5 => digits.insert(2, b' '),
        6 => digits.splice(0..0, *b"0x").for_each(drop),
        7 => digits.push(b'\r'),
        8 => digits = b"g0".to_vec(),
        _ => digits.extend(b" 0"),
    }
    [word, &digits].concat()
}

/// A `reports` line with too many entries or reports, an odd number left, or a number that is none.
fn bad_list(sheet: &mut Sheet) -> Vec<u8> {
    let random = &mut sheet.random;
    let schedule = &sheet.session.schedule;
    let count = random.pick(&[1, 2, 8, 64, 128]);
    let reports = lists::mixed(random, schedule, count);
    let line = match random.between(0, 4) {
        0 => lists::line(129, &reports),
        1 => lists::line(random.pick(&[0, 64, 128]), &lists::mixed(random, schedule, 129)),
        2 => lists::line(count, &reports) + " 0",
        3 => lists::line(count, &reports).trim_end_matches(char::is_numeric).trim_end().to_string(),
        _ => {
            let line = lists::line(count, &reports);
            let mut words: Vec<&str> = line.split(' ').collect();
            let at = 1 + random.place(words.len() - 1);
            words[at] = random.pick(&BAD_NUMBERS);
            words.join(" ")
        }
    };
    line.into_bytes()
}

/// A line with a message: something wrong in the digits, a number too many, missing, or too large.
fn bad_message(sheet: &mut Sheet) -> Vec<u8> {
    let random = &mut sheet.random;
    let kind = random.pick(&KINDS);
    let message = messages::of_kind(random, kind);
    let line = messages::writing(random.pick(&[0, 14, 2_048]), &message);
    let mut words: Vec<&str> = line.split(' ').collect();
    match random.between(0, 6) {
        0 => return bad_digits(random, b"message ", &message.bytes()),
        1 => words.push("0"),
        2 => drop(words.pop()),
        3 => words[1] = random.pick(&["2049", "65536", "4294967295"]),
        4 if kind == Kind::Change => words[2] = random.pick(&["256", "65535"]),
        4 | 5 => words[2 + random.place(message.numbers.len())] = "65536",
        _ => words[1 + random.place(message.numbers.len() + 1)] = random.pick(&BAD_NUMBERS),
    }
    words.join(" ").into_bytes()
}

/// The bytes of a message with each thing wrong in turn.
fn damaged_messages(sheet: &mut Sheet, turn: usize) {
    let message = messages::of_kind(&mut sheet.random, kind_in_turn(turn));
    for bytes in messages::damaged(&message) {
        sheet.say(messages::reading(&bytes));
    }
    sheet.say("state");
}

/// (d) Images, good and damaged, and saves into buffers of all sizes; messages likewise.
fn stored(sheet: &mut Sheet, turn: usize) {
    let first = images::random_schedule(&mut sheet.random, 12);
    sheet.load(&image(&first));
    look_round(sheet);
    // Six scripts have every damage, so the thirty stored ones do.
    let damages = images::DAMAGES / 6;
    for step in 0..damages {
        let which = damages * turn + step;
        let (bytes, _) = images::damaged(&mut sheet.random, which);
        sheet.load(&bytes);
        look_round(sheet);
    }
    if turn % 2 == 1 {
        let extreme = images::extreme_schedule(&mut sheet.random, turn / 2);
        sheet.load(&image(&extreme));
        look_round(sheet);
    }
    tidies_in_turn(sheet, turn);
    let size = image(&sheet.session.schedule).len();
    for buffer in [0, size - 1, size, size + sheet.random.place(40)] {
        sheet.say(format!("save {buffer}"));
    }
    for _ in 0..sheet.random.between(3, 20) {
        sheet.do_one(lines::any);
    }
    lists_in_turn(sheet, turn);
    buffers_and_statuses(sheet, turn);
    older(sheet, turn);
    if turn % 4 == 1 {
        let line = sheet.random.pick(&["save 2048", "save 2047", "save 1290", "save 1289"]);
        sheet.say(line);
    }
    sheet.say("save");
}

/// Messages into buffers of all sizes, and events: six scripts have every status.
fn buffers_and_statuses(sheet: &mut Sheet, turn: usize) {
    for line in messages::into_buffers(&mut sheet.random, kind_in_turn(turn)) {
        sheet.say(line);
    }
    let statuses = (0..=255).skip(turn % 6).step_by(6);
    let events: Vec<Message> =
        statuses.flat_map(|status| messages::of_status(&mut sheet.random, status)).collect();
    there_and_back(sheet, &events);
}

/// What a load did, or did not do.
fn look_round(sheet: &mut Sheet) {
    sheet.say("state");
    sheet.do_one(lines::question);
    sheet.do_one(lines::question);
    match sheet.random.between(0, 5) {
        0 => drop(sheet.say("save")),
        1 => drop(sheet.do_one(lines::lent_save)),
        2 | 3 => {
            sheet.do_one(lines::report);
            sheet.do_one(lines::report);
        }
        4 => drop(sheet.do_one(lines::join)),
        _ => {
            sheet.do_one(tidies::any);
            sheet.say("state");
        }
    }
}

/// (e) Everything together, up to the longest script and beyond.
fn long(sheet: &mut Sheet, turn: usize) {
    let end = match turn % 24 {
        0 => End::Exact,
        12 => End::ExactInOneLine,
        3 | 15 => End::OneMore,
        6 => End::ExactWithTail,
        18 => End::ManyMore,
        9 | 21 => End::Near,
        _ => End::Short,
    };
    let size = match end {
        End::Short => 1_000 + sheet.random.place(8_000),
        End::Near => LONGEST_SCRIPT - sheet.random.place(9_000),
        _ => LONGEST_SCRIPT,
    };
    // Room is left for the last lines.
    sheet.room = if end == End::ExactInOneLine { 0 } else { size - 200 };
    fill(sheet);
    lists_in_turn(sheet, turn);
    while sheet.bytes.len() + 40 < sheet.room {
        mix(sheet);
    }
    sheet.room = LONGEST_SCRIPT;
    if size == LONGEST_SCRIPT {
        let last_lines = b"state\nsave\n".len();
        let filling = LONGEST_SCRIPT - last_lines - sheet.bytes.len() - 1;
        let line = filling_line(&mut sheet.random, filling);
        sheet.say(line);
    }
    sheet.say("state");
    sheet.say("save");

    match end {
        End::OneMore => sheet.bytes.push(sheet.random.pick(b"\n0")),
        End::ManyMore => sheet.bytes.extend(b"state\n".repeat(1 + sheet.random.place(2_000))),
        End::ExactWithTail => {
            sheet.bytes.pop();
            sheet.bytes.push(b'\r');
        }
        _ => {}
    }
}

/// How a long script ends.
#[derive(Clone, Copy, PartialEq, Eq)]
enum End {
    /// Some thousand bytes.
    Short,
    /// Somewhat below 65,536 bytes.
    Near,
    /// 65,536 bytes, ended by LF.
    Exact,
    /// The same, nearly all of it one line.
    ExactInOneLine,
    /// 65,536 bytes, the last of them no LF.
    ExactWithTail,
    /// 65,537 bytes.
    OneMore,
    /// 65,542 bytes and more.
    ManyMore,
}

/// One line of this many bytes.
fn filling_line(random: &mut Random, size: usize) -> Vec<u8> {
    let (start, fill): (&[u8], u8) = random.pick(&[
        (b"load ".as_slice(), b'0'),
        (b"message ".as_slice(), b'0'),
        (b"owner ".as_slice(), b'0'),
        (b"owner ".as_slice(), b'9'),
        (b"owner".as_slice(), b' '),
        (b"state".as_slice(), 0),
        (b"".as_slice(), b'x'),
    ]);
    let mut line = start.to_vec();
    line.resize(size, fill);
    line
}

fn mix(sheet: &mut Sheet) {
    match sheet.random.between(0, 99) {
        0..=54 => drop(sheet.do_one(lines::any)),
        55..=69 => drop(sheet.do_one(lines::plausible_report)),
        70..=74 => drop(sheet.do_one(lines::edge_admission)),
        75..=79 => {
            let good = lines::any(&mut sheet.random, &sheet.session.schedule);
            let spoilt = spoil(&mut sheet.random, good.into_bytes());
            sheet.say(spoilt);
        }
        80..=82 => drop(sheet.say("save")),
        // An image of an earlier moment comes back, whole or with a bit flipped.
        83..=87 if !sheet.saved.is_empty() => {
            let mut bytes = sheet.random.pick(&sheet.saved);
            if sheet.random.chance(30) {
                let at = sheet.random.place(bytes.len());
                bytes[at] ^= 1 << sheet.random.place(8);
            }
            sheet.load(&bytes);
            sheet.say("state");
        }
        88 | 89 => {
            let which = sheet.random.place(images::DAMAGES);
            let (bytes, _) = images::damaged(&mut sheet.random, which);
            sheet.load(&bytes);
            sheet.say("state");
        }
        90 => {
            let bytes = images::good(&mut sheet.random, 20);
            sheet.load(&bytes);
            look_round(sheet);
        }
        91 => {
            let turn = sheet.random.place(images::OLDER);
            older(sheet, turn);
            sheet.say("fresh");
        }
        92 | 93 => fill(sheet),
        94 => push_and_let_go(sheet),
        95 => {
            let turn = sheet.random.place(tidies::SHORT * tidies::ENOUGH);
            thin_and_tidy(sheet, turn);
        }
        96 => {
            let size = sheet.random.place(3_000);
            let line = filling_line(&mut sheet.random, size);
            sheet.say(line);
        }
        _ => drop(sheet.do_one(lines::leave)),
    }
}

#[cfg(test)]
mod tests {
    use super::*;
    use peer::fault::{Fault, FAULTS};
    use peer::script::run;

    #[test]
    fn bad_lines_are_bad() {
        for line in BAD {
            let script = [line, b"\n"].concat();
            assert_eq!(run(&script, Fault::None), "bad\n", "{}", line.escape_ascii());
        }
        for number in BAD_NUMBERS {
            let script = format!("owner {number}\n");
            assert_eq!(run(script.as_bytes(), Fault::None), "bad\n", "{number}");
        }
        let mut sheet = Sheet::new(Random::new(1, 1));
        for _ in 0..100 {
            sheet.do_one(lines::join);
            for line in [bad_load(&mut sheet), bad_list(&mut sheet), bad_message(&mut sheet)] {
                assert_eq!(sheet.session.line(&line), "bad\n", "{}", line.escape_ascii());
            }
        }
    }

    #[test]
    fn few_scripts_find_every_fault() {
        let scripts: Vec<_> = (1..=60).map(|number| script(1, number)).collect();
        for fault in FAULTS {
            assert!(
                scripts.iter().any(|script| run(script, fault) != run(script, Fault::None)),
                "{fault:?}"
            );
        }
    }

    #[test]
    fn sizes() {
        let sizes: Vec<_> = (1..=100).map(|number| script(3, number).len()).collect();
        assert!(sizes.contains(&65_536));
        assert!(sizes.contains(&65_537));
        assert!(sizes.iter().any(|&size| size > 65_537));
        assert!(sizes.contains(&0));
    }
}
