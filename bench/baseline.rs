//! The yardstick for speed: the checks of a file's characters and lines, and a whole reading with the home book, in ordinary
//! Rust beside the proved ones.
//!
//! The program is linked with a static library that is built from the proved crates. It first asks both for their answer to
//! many files, whole and damaged, and ends with status 1 at the first difference. Then it times both on the same inputs in
//! one run, the best of several turns for each, and prints a table. `bench/run` builds and runs it.

use std::collections::HashMap;
use std::hint::black_box;
use std::iter::Peekable;
use std::process::exit;
use std::time::{Duration, Instant};

// The proved checks. Each answers 0 for a file that it accepts, else number * 2^56 + line * 2^28 + byte. The first covers the
// refusals 1 to 3. The second covers 1 to 10. The third reads with the home book, 1 to 19, into a drawer of `len` cards of its
// own, at most 65,535; it puts their bytes out, and how many there are or the missing type of a refusal. The fourth opens a view
// of cards as filed at these bytes, and the fifth writes such a view.
extern "C" {
    fn intake_check_characters(file: *const u8, len: usize) -> u64;
    fn intake_check_lines(file: *const u8, len: usize) -> u64;
    fn intake_read_home(file: *const u8, len: usize, starts: *mut u32, len: usize, told: *mut u32) -> u64;
    fn intake_open(file: *const u8, len: usize, starts: *const u32, len: usize) -> u64;
    fn intake_write(file: *const u8, len: usize, starts: *const u32, len: usize, buffer: *mut u8, len: usize) -> u64;
}

const MOST_BYTES: usize = 16_777_216;
const MOST_CARDS: usize = 65_535;
const DEEPEST: u32 = 63;
const MARK: [u8; 3] = [0xEF, 0xBB, 0xBF];

/// Why a file is refused, and where.
#[derive(Clone, Copy, Debug, PartialEq, Eq)]
struct Fault {
    number: u8,
    line: usize,
    byte: usize,
}

impl Fault {
    fn packed(self) -> u64 {
        (u64::from(self.number) << 56) | ((self.line as u64) << 28) | self.byte as u64
    }
}

fn fault(number: u8, line: usize, byte: usize) -> Fault {
    Fault { number, line, byte }
}

fn packed(answer: Result<(), Fault>) -> u64 {
    answer.map_or_else(Fault::packed, |()| 0)
}

// ------------------------------------------------------------------------------------------------ characters

/// How many bytes a character has that begins with this byte; 0 where none does.
const LEAD: [u8; 256] = lead_lengths();

const fn lead_lengths() -> [u8; 256] {
    let mut table = [0; 256];
    let mut byte = 0;
    while byte < 256 {
        table[byte] = match byte {
            0x00..=0x7F => 1,
            0xC2..=0xDF => 2,
            0xE0..=0xEF => 3,
            0xF0..=0xF4 => 4,
            _ => 0,
        };
        byte += 1;
    }
    table
}

fn is_next(byte: u8) -> bool {
    (0x80..=0xBF).contains(&byte)
}

/// The second byte of three or four: after some lead bytes not all are good.
fn is_second(lead: u8, byte: u8) -> bool {
    match lead {
        0xE0 => (0xA0..=0xBF).contains(&byte),
        0xED => (0x80..=0x9F).contains(&byte),
        0xF0 => (0x90..=0xBF).contains(&byte),
        0xF4 => (0x80..=0x8F).contains(&byte),
        _ => is_next(byte),
    }
}

/// How many bytes the first character has and whether it is banned, or nothing where none begins.
fn first_character(bytes: &[u8]) -> Option<(usize, bool)> {
    match (LEAD[usize::from(bytes[0])], bytes) {
        (1, &[a, ..]) => Some((1, a == 0x7F || a < 0x20 && !matches!(a, b'\t' | b'\n' | b'\r'))),
        (2, &[a, b, ..]) if is_next(b) => Some((2, a == 0xC2 && b < 0xA0)),
        (3, &[a, b, c, ..]) if is_second(a, b) && is_next(c) => Some((3, a == 0xEF && b == 0xBF && c >= 0xBE)),
        (4, &[a, b, c, d, ..]) if is_second(a, b) && is_next(c) && is_next(d) => Some((4, false)),
        _ => None,
    }
}

/// The refusals 1 to 3 in one pass. A banned character is noted and the pass goes on, since bytes that are not UTF-8 are told first.
fn check_characters(file: &[u8]) -> Result<(), Fault> {
    if file.len() > MOST_BYTES {
        return Err(fault(1, 0, 0));
    }
    let mut first_banned = None;
    let mut line = 1;
    let mut at = 0;
    while at < file.len() {
        let rest = &file[at..];
        let Some((width, banned)) = first_character(rest) else {
            return Err(fault(2, line, at));
        };
        if banned && first_banned.is_none() {
            first_banned = Some(fault(3, line, at));
        }
        if rest[0] == b'\n' || rest[0] == b'\r' && rest.get(1) != Some(&b'\n') {
            line += 1;
        }
        at += width;
    }
    first_banned.map_or(Ok(()), Err)
}

// ------------------------------------------------------------------------------------------------ lines

/// Void is a pointer, to `@VOID@`.
#[derive(Clone, Copy, PartialEq, Eq)]
enum Value<'a> {
    None,
    Pointer(&'a [u8]),
    Text(&'a [u8]),
}

struct Line<'a> {
    /// Not above 64, however large the number is.
    level: u32,
    name: Option<&'a [u8]>,
    tag: &'a [u8],
    value: Value<'a>,
}

fn is_tag_byte(byte: u8) -> bool {
    byte.is_ascii_uppercase() || byte.is_ascii_digit() || byte == b'_'
}

/// The bytes at the front that pass, and the others.
fn split_front(bytes: &[u8], passes: impl Fn(u8) -> bool) -> (&[u8], &[u8]) {
    let end = bytes.iter().position(|&b| !passes(b)).unwrap_or(bytes.len());
    bytes.split_at(end)
}

/// What stands between two @ at the front, and what follows.
fn split_name(bytes: &[u8]) -> Option<(&[u8], &[u8])> {
    let (name, rest) = split_front(bytes.strip_prefix(b"@")?, is_tag_byte);
    Some((name, rest.strip_prefix(b"@")?)).filter(|_| !name.is_empty())
}

fn parse_level(bytes: &[u8]) -> Option<(u32, &[u8])> {
    let (digits, rest) = split_front(bytes, |b| b.is_ascii_digit());
    if digits.is_empty() || (digits.len() > 1 && digits[0] == b'0') {
        return None;
    }
    let level = digits
        .iter()
        .fold(0, |n: u32, &d| (10 * n + u32::from(d - b'0')).min(DEEPEST + 1));
    Some((level, rest))
}

fn parse_value(bytes: &[u8]) -> Option<Value<'_>> {
    match bytes {
        [] => Some(Value::None),
        [b' ', b'@', b'@', ..] => Some(Value::Text(&bytes[2..])),
        [b' ', b'@', ..] => split_name(&bytes[1..])
            .filter(|(_, after)| after.is_empty())
            .map(|(name, _)| Value::Pointer(name)),
        [b' ', _, ..] => Some(Value::Text(&bytes[1..])),
        _ => None,
    }
}

fn parse_line(bytes: &[u8]) -> Option<Line<'_>> {
    let (level, rest) = parse_level(bytes)?;
    let rest = rest.strip_prefix(b" ")?;
    let (name, rest) = match rest {
        [b'@', ..] => {
            let (name, after) = split_name(rest)?;
            if name == b"VOID" {
                return None;
            }
            (Some(name), after.strip_prefix(b" ")?)
        }
        _ => (None, rest),
    };
    let (tag, rest) = split_front(rest, is_tag_byte);
    match tag {
        [b'A'..=b'Z', ..] | [b'_', _, ..] => {}
        _ => return None,
    }
    Some(Line {
        level,
        name,
        tag,
        value: parse_value(rest)?,
    })
}

/// The first place at which each of the rules 5 to 10 is broken.
#[derive(Default)]
struct Noted([Option<(usize, usize)>; 6]);

impl Noted {
    fn note(&mut self, number: u8, broken: bool, line: usize, byte: usize) {
        let first = &mut self.0[usize::from(number) - 5];
        if broken && first.is_none() {
            *first = Some((line, byte));
        }
    }

    fn verdict(&self) -> Result<(), Fault> {
        for (number, place) in (5..).zip(self.0) {
            if let Some((line, byte)) = place {
                return Err(fault(number, line, byte));
            }
        }
        Ok(())
    }
}

/// The last line that continues no other.
struct Other {
    level: u32,
    first: bool,
    pointing: bool,
}

/// The line that was read last.
struct Last {
    byte: usize,
    trailer: bool,
    bare: bool,
}

/// The refusals 4 to 10 in one pass, for bytes that passed 1 to 3.
fn check_lines(file: &[u8]) -> Result<(), Fault> {
    scan_lines(file, |_, _, _| {})
}

/// The same, which shows each line with its number and its byte as it goes.
fn scan_lines<'a>(file: &'a [u8], mut show: impl FnMut(usize, usize, &Line<'a>)) -> Result<(), Fault> {
    let mut at = if file.starts_with(&MARK) { MARK.len() } else { 0 };
    let mut count = 0;
    let mut noted = Noted::default();
    let mut other: Option<Other> = None;
    let mut last: Option<Last> = None;
    while at < file.len() {
        let refused = fault(4, count + 1, at);
        let length = file[at..]
            .iter()
            .position(|&b| b == b'\n' || b == b'\r')
            .ok_or(refused)?;
        let line = parse_line(&file[at..at + length]).ok_or(refused)?;
        count += 1;

        let top = line.level == 0;
        let bare = top && line.name.is_none() && line.value == Value::None;
        let pointing = matches!(line.value, Value::Pointer(_));
        let header = line.tag == b"HEAD";
        let continuation = line.tag == b"CONT";
        let deeper = other.as_ref().map_or(0, |o| o.level + 1);

        noted.note(5, line.level > DEEPEST, count, at);
        noted.note(6, if count == 1 { !(bare && header) } else { top && header }, count, at);
        if let Some(before) = &last {
            noted.note(7, before.trailer, count - 1, before.byte);
        }
        noted.note(8, !continuation && other.is_some() && line.level > deeper, count, at);
        noted.note(9, line.name.is_some() && !top, count, at);
        let continues = || {
            other
                .as_ref()
                .is_some_and(|o| line.level == deeper && !o.first && !o.pointing && !pointing)
        };
        noted.note(10, line.tag == b"CONC" || (continuation && !continues()), count, at);

        show(count, at, &line);
        if !continuation {
            other = Some(Other {
                level: line.level,
                first: count == 1,
                pointing,
            });
        }
        last = Some(Last {
            byte: at,
            trailer: top && line.tag == b"TRLR",
            bare,
        });
        at += length + if file[at + length..].starts_with(b"\r\n") { 2 } else { 1 };
    }
    let Some(last) = last else {
        return Err(fault(4, 1, at));
    };
    noted.note(7, !(last.trailer && last.bare), count, last.byte);
    noted.verdict()
}

// ------------------------------------------------------------------------------------------------ the home book

#[derive(Clone, Copy, PartialEq, Eq)]
enum Kind {
    Nothing,
    Text,
    Flag,
    Word(&'static [&'static [u8]]),
    Words(&'static [&'static [u8]]),
    Texts,
    Date,
    Exact,
    Time,
    Age,
    Name,
    Version,
    Pointer(u8),
}

impl Kind {
    fn may_be_emptied(self) -> bool {
        matches!(self, Kind::Text | Kind::Flag | Kind::Texts | Kind::Date | Kind::Age)
    }
}

const SEXES: &[&[u8]] = &[b"M", b"F", b"X", b"U"];
const RESTRICTIONS: &[&[u8]] = &[b"CONFIDENTIAL", b"LOCKED", b"PRIVACY"];
const NAME_TYPES: &[&[u8]] = &[
    b"AKA",
    b"BIRTH",
    b"IMMIGRANT",
    b"MAIDEN",
    b"MARRIED",
    b"PROFESSIONAL",
    b"OTHER",
];

/// The kind of each type.
const KINDS: [Kind; 35] = {
    use Kind::*;
    [
        Nothing,
        Nothing,
        Nothing,
        Text,
        Nothing,
        Nothing,
        Exact,
        Pointer(4),
        Text,
        Version,
        Time,
        Words(RESTRICTIONS),
        Name,
        Word(SEXES),
        Flag,
        Flag,
        Pointer(2),
        Pointer(2),
        Pointer(3),
        Pointer(1),
        Text,
        Word(NAME_TYPES),
        Text,
        Text,
        Date,
        Texts,
        Age,
        Text,
        Nothing,
        Text,
        Text,
        Flag,
        Pointer(1),
        Pointer(1),
        Pointer(1),
    ]
};

#[derive(Clone, Copy)]
struct Row {
    typed: u8,
    required: bool,
    many: bool,
}

/// The row of a tag at the top, or under a type.
fn row_of(under: Option<u8>, tag: &[u8]) -> Option<Row> {
    let once = |typed| {
        Some(Row {
            typed,
            required: false,
            many: false,
        })
    };
    let many = |typed| {
        Some(Row {
            typed,
            required: false,
            many: true,
        })
    };
    let required = |typed| {
        Some(Row {
            typed,
            required: true,
            many: false,
        })
    };
    match (under, tag) {
        (None, b"HEAD") => required(0),
        (None, b"INDI") => many(1),
        (None, b"FAM") => many(2),
        (None, b"SNOTE") => many(3),
        (None, b"SUBM") => many(4),
        (Some(0), b"GEDC") => required(5),
        (Some(0), b"DATE") => once(6),
        (Some(0), b"SUBM") => once(7),
        (Some(0), b"NOTE") => once(8),
        (Some(1), b"RESN") => once(11),
        (Some(1), b"NAME") => many(12),
        (Some(1), b"SEX") => once(13),
        (Some(1), b"BIRT") => many(14),
        (Some(1), b"DEAT") => many(15),
        (Some(1), b"FAMC") => many(16),
        (Some(1), b"FAMS") => many(17),
        (Some(1), b"ALIA") => many(19),
        (Some(1 | 2), b"NOTE") => many(8),
        (Some(1 | 2), b"SNOTE") => many(18),
        (Some(2), b"HUSB") => once(32),
        (Some(2), b"WIFE") => once(33),
        (Some(2), b"CHIL") => many(34),
        (Some(2), b"MARR") => many(31),
        (Some(4), b"NAME") => required(20),
        (Some(5), b"VERS") => required(9),
        (Some(6 | 24), b"TIME") => once(10),
        (Some(12), b"TYPE") => once(21),
        (Some(12), b"GIVN") => many(22),
        (Some(12), b"SURN") => many(23),
        (Some(14 | 15 | 31), b"DATE") => once(24),
        (Some(14 | 15 | 31), b"PLAC") => once(25),
        (Some(14 | 15), b"AGE") => once(26),
        (Some(24 | 32 | 33 | 34), b"PHRASE") => once(27),
        (Some(25), b"MAP") => once(28),
        (Some(28), b"LATI") => required(29),
        (Some(28), b"LONG") => required(30),
        _ => None,
    }
}

/// The types that are needed under a type.
fn needs_of(typed: u8) -> &'static [u8] {
    match typed {
        0 => &[5],
        4 => &[20],
        5 => &[9],
        28 => &[29, 30],
        _ => &[],
    }
}

// ------------------------------------------------------------------------------------------------ payload kinds

fn is_integer(text: &[u8]) -> bool {
    !text.is_empty() && text.iter().all(u8::is_ascii_digit)
}

#[derive(Clone, Copy)]
struct Calendar {
    name: &'static [u8],
    bce: bool,
    months: &'static [&'static [u8]],
}

const WESTERN: &[&[u8]] = &[
    b"JAN", b"FEB", b"MAR", b"APR", b"MAY", b"JUN", b"JUL", b"AUG", b"SEP", b"OCT", b"NOV", b"DEC",
];
const CALENDARS: [Calendar; 4] = [
    Calendar {
        name: b"GREGORIAN",
        bce: true,
        months: WESTERN,
    },
    Calendar {
        name: b"JULIAN",
        bce: true,
        months: WESTERN,
    },
    Calendar {
        name: b"FRENCH_R",
        bce: false,
        months: &[
            b"VEND", b"BRUM", b"FRIM", b"NIVO", b"PLUV", b"VENT", b"GERM", b"FLOR", b"PRAI", b"MESS", b"THER", b"FRUC",
            b"COMP",
        ],
    },
    Calendar {
        name: b"HEBREW",
        bce: false,
        months: &[
            b"TSH", b"CSH", b"KSL", b"TVT", b"SHV", b"ADR", b"ADS", b"NSN", b"IYR", b"SVN", b"TMZ", b"AAV", b"ELL",
        ],
    },
];

/// Takes a date off the front of some words.
fn take_date<'a>(words: &mut Peekable<impl Iterator<Item = &'a [u8]>>) -> Option<()> {
    let mut word = words.next()?;
    let mut calendar = CALENDARS[0];
    if let Some(named) = CALENDARS.iter().find(|c| c.name == word) {
        calendar = *named;
        word = words.next()?;
    }
    let is_month = |word: &[u8]| calendar.months.contains(&word);
    if is_integer(word) && words.peek().is_some_and(|next| is_month(next)) {
        word = words.next()?;
    }
    if is_month(word) {
        word = words.next()?;
    }
    if !is_integer(word) {
        return None;
    }
    if calendar.bce && words.peek() == Some(&&b"BCE"[..]) {
        words.next();
    }
    Some(())
}

fn take_date_value<'a>(words: &mut Peekable<impl Iterator<Item = &'a [u8]>>) -> Option<()> {
    match *words.peek()? {
        b"FROM" => {
            words.next();
            take_date(words)?;
            match words.next() {
                None => Some(()),
                Some(b"TO") => take_date(words),
                Some(_) => None,
            }
        }
        b"BET" => {
            words.next();
            take_date(words)?;
            words.next().filter(|&word| word == b"AND")?;
            take_date(words)
        }
        b"TO" | b"AFT" | b"BEF" | b"ABT" | b"CAL" | b"EST" => {
            words.next();
            take_date(words)
        }
        _ => take_date(words),
    }
}

fn words_of(text: &[u8]) -> impl Iterator<Item = &[u8]> {
    text.split(|&b| b == b' ')
}

fn is_date_value(text: &[u8]) -> bool {
    let mut words = words_of(text).peekable();
    take_date_value(&mut words).is_some() && words.next().is_none()
}

fn is_exact_date(text: &[u8]) -> bool {
    let mut words = words_of(text);
    words.next().is_some_and(is_integer)
        && words.next().is_some_and(|word| WESTERN.contains(&word))
        && words.next().is_some_and(is_integer)
        && words.next().is_none()
}

fn is_sixtieth(text: &[u8]) -> bool {
    matches!(text, [b'0'..=b'5', b'0'..=b'9'])
}

fn is_time(text: &[u8]) -> bool {
    let text = text.strip_suffix(b"Z").unwrap_or(text);
    let mut parts = text.splitn(3, |&b| b == b':');
    let hour = matches!(
        parts.next(),
        Some([b'0'..=b'9'] | [b'0' | b'1', b'0'..=b'9'] | [b'2', b'0'..=b'3'])
    );
    let minute = parts.next().is_some_and(is_sixtieth);
    let second = parts.next().is_none_or(|second| match second.get(2..) {
        None => false,
        Some([]) => is_sixtieth(second),
        Some([b'.', fraction @ ..]) => is_sixtieth(&second[..2]) && is_integer(fraction),
        Some(_) => false,
    });
    hour && minute && second
}

fn is_age(text: &[u8]) -> bool {
    let text = match text {
        [b'<' | b'>', b' ', rest @ ..] => rest,
        _ => text,
    };
    let mut units: &[u8] = b"ymwd";
    words_of(text).all(|word| {
        let [number @ .., unit] = word else { return false };
        let Some(at) = units.iter().position(|u| u == unit) else {
            return false;
        };
        units = &units[at + 1..];
        is_integer(number)
    })
}

fn trim_start(mut text: &[u8]) -> &[u8] {
    while let [b' ', rest @ ..] = text {
        text = rest;
    }
    text
}

fn trim_end(mut text: &[u8]) -> &[u8] {
    while let [rest @ .., b' '] = text {
        text = rest;
    }
    text
}

fn are_words(set: &[&[u8]], text: &[u8]) -> bool {
    let mut pieces = text.split(|&b| b == b',').enumerate().peekable();
    while let Some((i, mut piece)) = pieces.next() {
        if i > 0 {
            piece = trim_start(piece);
        }
        if pieces.peek().is_some() {
            piece = trim_end(piece);
        }
        if !set.contains(&piece) {
            return false;
        }
    }
    true
}

fn are_texts(text: &[u8]) -> bool {
    let good_start = !text.starts_with(b" ") || trim_start(text).starts_with(b",");
    let good_end = !text.ends_with(b" ") || trim_end(text).ends_with(b",");
    good_start && good_end
}

fn is_name(text: &[u8]) -> bool {
    let mut slashes = 0;
    for &b in text {
        match b {
            b'\t' => return false,
            b'/' => slashes += 1,
            _ => {}
        }
    }
    slashes == 0 || slashes == 2
}

fn is_version(text: &[u8]) -> bool {
    match text.strip_prefix(b"7.0") {
        Some([]) => true,
        Some([b'.', rest @ ..]) => is_integer(rest),
        _ => false,
    }
}

fn takes(kind: Kind, entry: &Entry) -> bool {
    let text = match entry.value {
        Value::Pointer(_) => return matches!(kind, Kind::Pointer(_)),
        _ if entry.continued => return kind == Kind::Text,
        Value::None => return kind == Kind::Nothing || kind.may_be_emptied(),
        Value::Text(text) => text,
    };
    match kind {
        Kind::Nothing | Kind::Pointer(_) => false,
        Kind::Text => true,
        Kind::Flag => text == b"Y",
        Kind::Word(set) => set.contains(&text),
        Kind::Words(set) => are_words(set, text),
        Kind::Texts => are_texts(text),
        Kind::Date => is_date_value(text),
        Kind::Exact => is_exact_date(text),
        Kind::Time => is_time(text),
        Kind::Age => is_age(text),
        Kind::Name => is_name(text),
        Kind::Version => is_version(text),
    }
}

// ------------------------------------------------------------------------------------------------ reading

/// A line that continues no other.
struct Entry<'a> {
    line: usize,
    byte: usize,
    level: u32,
    name: Option<&'a [u8]>,
    tag: &'a [u8],
    value: Value<'a>,
    continued: bool,
}

/// Why a reading is refused: a fault, and the type that is missing.
#[derive(Clone, Copy)]
struct Refusal {
    fault: Fault,
    missing: Option<u8>,
}

impl From<Fault> for Refusal {
    fn from(fault: Fault) -> Refusal {
        Refusal { fault, missing: None }
    }
}

impl Entry<'_> {
    fn refused(&self, number: u8) -> Refusal {
        fault(number, self.line, self.byte).into()
    }
}

/// The entries of a file that keeps the rules 4 to 10, or the first for which there is no room.
fn entries_of(file: &[u8], room: usize) -> Result<Vec<Entry<'_>>, Fault> {
    let mut entries: Vec<Entry> = Vec::new();
    let mut beyond = None;
    scan_lines(file, |line, byte, parsed| {
        if parsed.tag == b"CONT" {
            if let Some(entry) = entries.last_mut() {
                entry.continued = true;
            }
        } else if entries.len() < room {
            entries.push(Entry {
                line,
                byte,
                level: parsed.level,
                name: parsed.name,
                tag: parsed.tag,
                value: parsed.value,
                continued: false,
            });
        } else if beyond.is_none() {
            beyond = Some(fault(11, line, byte));
        }
    })?;
    beyond.map_or(Ok(entries), Err)
}

/// The records by their names: the refusals 12 and 13.
fn names_of<'a>(entries: &[Entry<'a>]) -> Result<HashMap<&'a [u8], usize>, Refusal> {
    let mut names = HashMap::new();
    for (i, entry) in entries.iter().enumerate() {
        if let Some(name) = entry.name {
            if names.insert(name, i).is_some() {
                return Err(entry.refused(12));
            }
        }
    }
    for entry in entries {
        match entry.value {
            Value::Pointer(b"VOID") => {}
            Value::Pointer(name) if !names.contains_key(name) => return Err(entry.refused(13)),
            _ => {}
        }
    }
    Ok(names)
}

/// The refusals 14 to 19 of all structures, which are the entries but the last.
fn judge(structures: &[Entry], names: &HashMap<&[u8], usize>) -> Result<(), Refusal> {
    // the row of each structure, and the place of its superstructure
    let mut rows: Vec<Row> = Vec::with_capacity(structures.len());
    let mut above: Vec<Option<usize>> = Vec::with_capacity(structures.len());
    let mut path: Vec<usize> = Vec::new();
    for (i, structure) in structures.iter().enumerate() {
        path.truncate(structure.level as usize);
        let over = path.last().copied();
        rows.push(row_of(over.map(|o| rows[o].typed), structure.tag).ok_or(structure.refused(14))?);
        above.push(over);
        path.push(i);
    }
    for (structure, row) in structures.iter().zip(&rows) {
        if !takes(KINDS[usize::from(row.typed)], structure) {
            return Err(structure.refused(15));
        }
    }
    for (structure, row) in structures.iter().zip(&rows) {
        if let (Kind::Pointer(typed), Value::Pointer(name)) = (KINDS[usize::from(row.typed)], structure.value) {
            if name != b"VOID" && rows[names[name]].typed != typed {
                return Err(structure.refused(16));
            }
        }
    }
    // the types at the top and under each structure, a bit for each
    let mut at_top = 0_u64;
    let mut under = vec![0_u64; structures.len()];
    for (i, structure) in structures.iter().enumerate() {
        let types = above[i].map_or(&mut at_top, |over| &mut under[over]);
        let bit = 1 << rows[i].typed;
        if *types & bit != 0 && !rows[i].many {
            return Err(structure.refused(17));
        }
        *types |= bit;
    }
    // the header, which is all that the top needs, is there by rule 6
    for ((structure, row), types) in structures.iter().zip(&rows).zip(&under) {
        if let Some(&missing) = needs_of(row.typed).iter().find(|&&needed| types & (1 << needed) == 0) {
            return Err(Refusal {
                missing: Some(missing),
                ..structure.refused(18)
            });
        }
    }
    for ((structure, row), types) in structures.iter().zip(&rows).zip(&under).skip(1) {
        let bare = structure.value == Value::None && !structure.continued && *types == 0;
        if bare && !(row.required && KINDS[usize::from(row.typed)].may_be_emptied()) {
            return Err(structure.refused(19));
        }
    }
    Ok(())
}

#[derive(Clone, Copy, PartialEq, Eq)]
enum State {
    Filed,
    Blank,
}

#[derive(Clone, Copy)]
struct Card {
    byte: u32,
    state: State,
}

const BLANK: Card = Card {
    byte: 0,
    state: State::Blank,
};

fn fill(file: &[u8], drawer: &mut [Card]) -> Result<usize, Refusal> {
    check_characters(file)?;
    let entries = entries_of(file, drawer.len().min(MOST_CARDS))?;
    let names = names_of(&entries)?;
    judge(&entries[..entries.len() - 1], &names)?;
    for (card, entry) in drawer.iter_mut().zip(&entries) {
        *card = Card {
            byte: entry.byte as u32,
            state: State::Filed,
        };
    }
    Ok(entries.len())
}

/// A whole reading with the home book. The cards that no line needs are blank afterwards, and all are where it is refused.
fn read_home(file: &[u8], drawer: &mut [Card]) -> Result<usize, Refusal> {
    let answer = fill(file, drawer);
    drawer[answer.unwrap_or(0)..].fill(BLANK);
    answer
}

// ------------------------------------------------------------------------------------------------ the same answers

fn proved_characters(file: &[u8]) -> u64 {
    // SAFETY: the pointer and the length are those of one slice, which the callee only reads.
    unsafe { intake_check_characters(file.as_ptr(), file.len()) }
}

fn proved_lines(file: &[u8]) -> u64 {
    // SAFETY: as above.
    unsafe { intake_check_lines(file.as_ptr(), file.len()) }
}

fn packed_reading(answer: Result<usize, Refusal>) -> u64 {
    answer.map_or_else(|refusal| refusal.fault.packed(), |_| 0)
}

/// What the reading answers, the missing type or the number of cards, and the bytes of the cards.
fn proved_reading(file: &[u8], starts: &mut [u32]) -> (u64, u32) {
    let mut told = 0;
    // SAFETY: as above; the callee writes to the second slice, within its length, and to the number.
    let answer = unsafe { intake_read_home(file.as_ptr(), file.len(), starts.as_mut_ptr(), starts.len(), &mut told) };
    (answer, told)
}

/// How often each number was answered, 0 for accepted.
type Tally = [u64; 20];

fn unpacked(answer: u64) -> String {
    match answer >> 56 {
        0 => "accepted".to_string(),
        number => format!(
            "refused {} line {} byte {}",
            number,
            (answer >> 28) & 0xFFF_FFFF,
            answer & 0xFFF_FFFF
        ),
    }
}

fn insist_equal(check: &str, file: &[u8], plain: u64, proved: u64) {
    if plain != proved {
        eprintln!(
            "the {check} of a file of {} bytes: baseline {}, proved {}",
            file.len(),
            unpacked(plain),
            unpacked(proved)
        );
        if file.len() < 4096 {
            eprintln!("{}", file.escape_ascii());
        }
        exit(1);
    }
}

fn compare_reading(file: &[u8], cards: usize, tally: &mut Tally) {
    let mut drawer = vec![BLANK; cards];
    let mut starts = vec![0; cards];
    let plain = read_home(file, &mut drawer);
    let (proved, told) = proved_reading(file, &mut starts);
    insist_equal("reading", file, packed_reading(plain), proved);
    let plain_told = match plain {
        Ok(count) => count as u32,
        Err(refused) => refused.missing.map_or(0, u32::from),
    };
    let plain_starts = drawer.iter().map(|card| match card.state {
        State::Filed => card.byte,
        State::Blank => u32::MAX,
    });
    if plain_told != told || !plain_starts.eq(starts.iter().copied()) {
        eprintln!(
            "the readings of a file of {} bytes tell different cards or types",
            file.len()
        );
        eprintln!("{}", file.escape_ascii());
        exit(1);
    }
    tally[(proved >> 56) as usize] += 1;
}

fn compare(file: &[u8], tally: &mut Tally) {
    let mut answer = packed(check_characters(file));
    insist_equal("characters", file, answer, proved_characters(file));
    if answer == 0 {
        answer = packed(check_lines(file));
        insist_equal("lines", file, answer, proved_lines(file));
    }
    tally[(answer >> 56) as usize] += 1;
}

/// A small generator, so that every run meets the same files.
struct Xorshift(u64);

impl Xorshift {
    fn next(&mut self) -> u64 {
        self.0 ^= self.0 << 13;
        self.0 ^= self.0 >> 7;
        self.0 ^= self.0 << 17;
        self.0
    }

    fn below(&mut self, n: usize) -> usize {
        (self.next() % n as u64) as usize
    }
}

fn flip_bit(file: &mut [u8], random: &mut Xorshift) {
    let at = random.below(file.len());
    file[at] ^= 1 << random.below(8);
}

const TELLING: &[u8] = b"@@ \t\r\n0123_AVCHT/,\x00\x7F\x80\xBF\xC2\xE0\xED\xEF\xF0\xF4\xFF";
const TELLING_LINES: [&[u8]; 14] = [
    b"0 HEAD\n",
    b"0 TRLR\n",
    b"1 HEAD\n",
    b"1 CONT more\n",
    b"2 CONT\r\n",
    b"2 CONT @VOID@\n",
    b"1 CONC x\n",
    b"64 DEEP\n",
    b"18446744073709551616 DEEP\n",
    b"3 FAR\n",
    b"1 @X@ NAMED\n",
    b"0 @X@ INDI @VOID@\r",
    b"\n",
    b"1 NOTE \xC3\xA5\n",
];

/// One change: a flipped bit, a telling byte in place of another, a byte more or less, the end cut off, or a line more, less or moved.
fn damage(file: &mut Vec<u8>, random: &mut Xorshift) {
    if file.is_empty() {
        return;
    }
    let at = random.below(file.len());
    let line_start = file[..at].iter().rposition(|&b| b == b'\n').map_or(0, |i| i + 1);
    let line_end = file[at..]
        .iter()
        .position(|&b| b == b'\n')
        .map_or(file.len(), |i| at + i + 1);
    match random.below(12) {
        0..=3 => flip_bit(file, random),
        4 | 5 => file[at] = TELLING[random.below(TELLING.len())],
        6 => file.insert(at, TELLING[random.below(TELLING.len())]),
        7 => drop(file.remove(at)),
        8 => file.truncate(at),
        9 => drop(file.drain(line_start..line_end)),
        10 => {
            let line: Vec<u8> = file.drain(line_start..line_end).collect();
            let to = file[..random.below(file.len() + 1)]
                .iter()
                .rposition(|&b| b == b'\n')
                .map_or(0, |i| i + 1);
            file.splice(to..to, line);
        }
        _ => {
            let line = TELLING_LINES[random.below(TELLING_LINES.len())];
            file.splice(line_start..line_start, line.iter().copied());
        }
    }
}

const SMALL: [&str; 4] = [
    "0 HEAD\n0 TRLR\n",
    "0 HEAD\n1 GEDC\n2 VERS 7.0\n0 TRLR\n",
    "\u{FEFF}0 HEAD\n1 GEDC\n2 VERS 7.0\n1 NOTE first\n2 CONT\n2 CONT third\n0 @I1@ INDI\n1 NAME Åke /Ö/\n1 BIRT\n\
     2 DATE 3 MAR 1841\n1 FAMS @F1@\n0 @F1@ FAM\n1 HUSB @I1@\n1 WIFE @VOID@\n0 TRLR\n",
    "0 HEAD\r\n1 NOTE a\r\n2 CONT @@b\r\n0 @A@ X\r\n1 Y @A@\r\n2 Z €😀\r\n3 W\r\n4 V text\r\n5 CONT more\r\n0 Q\r0 TRLR\r",
];

/// Lines that break a rule of the home book, or mend one.
const HOME_LINES: [&[u8]; 24] = [
    b"0 @I1@ INDI\n",
    b"0 @I2@ INDI\n",
    b"0 SUBM\n",
    b"0 @N2@ SNOTE\n",
    b"1 SUBM @I1@\n",
    b"1 SUBM @VOID@\n",
    b"1 GEDC\n",
    b"2 VERS 7.0.1\n",
    b"1 SEX F\n",
    b"1 SEX f\n",
    b"1 NAME x\n",
    b"1 NAME /x\n",
    b"1 NAME\n",
    b"1 BIRT\n",
    b"1 DEAT Y\n",
    b"2 DATE 1900\n",
    b"2 DATE BET 1900 AND JULIAN 1 JAN 5 BCE\n",
    b"2 PLAC a, b \n",
    b"3 MAP\n",
    b"4 LATI\n",
    b"1 WHAT x\n",
    b"1 ALIA @NO@\n",
    b"1 FAMC @I1@\n",
    b"1 RESN LOCKED , PRIVACY\n",
];

const HOME_TREE: &str = "0 HEAD\n1 GEDC\n2 VERS 7.0.15\n1 DATE 3 MAR 1999\n2 TIME 12:30:15.5Z\n1 SUBM @U@\n1 NOTE first\n2 CONT\n\
    2 CONT @@third\n0 @I1@ INDI\n1 RESN LOCKED, PRIVACY\n1 NAME Ann /Lee/\n2 TYPE BIRTH\n2 GIVN Ann\n2 SURN Lee\n1 SEX F\n\
    1 BIRT\n2 DATE BET 1900 AND 1901\n3 PHRASE in winter\n2 PLAC Lund, Skåne\n3 MAP\n4 LATI N1\n4 LONG E2\n1 DEAT Y\n\
    2 AGE > 3y 2m\n1 FAMC @F1@\n1 FAMS @VOID@\n1 ALIA @I10@\n1 SNOTE @N@\n0 @I10@ INDI\n1 NAME Bob\n0 @F1@ FAM\n\
    1 HUSB @I10@\n2 PHRASE step\n1 CHIL @I1@\n1 MARR\n2 DATE FROM JULIAN 1700 TO 44 BCE\n0 @N@ SNOTE\n1 CONT second\n\
    0 @U@ SUBM\n1 NAME Eve\n0 TRLR\n";

/// One change of whole lines, or of one byte of a value: what is left has mostly lines, and so meets the later rules.
fn damage_lines(file: &mut Vec<u8>, random: &mut Xorshift) {
    if file.is_empty() {
        return;
    }
    let at = random.below(file.len());
    let start = file[..at].iter().rposition(|&b| b == b'\n').map_or(0, |i| i + 1);
    let end = file[at..]
        .iter()
        .position(|&b| b == b'\n')
        .map_or(file.len(), |i| at + i + 1);
    match random.below(8) {
        0 => drop(file.drain(start..end)),
        1 => {
            let line = file[start..end].to_vec();
            let to = file[..random.below(file.len() + 1)]
                .iter()
                .rposition(|&b| b == b'\n')
                .map_or(0, |i| i + 1);
            file.splice(to..to, line);
        }
        2..=4 => {
            let line = HOME_LINES[random.below(HOME_LINES.len())];
            file.splice(start..start, line.iter().copied());
        }
        5 => {
            // a line without its value
            let line = file[start..end].to_vec();
            if let Some(space) = line.iter().rposition(|&b| b == b' ') {
                if space > 2 {
                    file.splice(start + space..end, [b'\n']);
                }
            }
        }
        _ => file[at] = b"01239 AFNUIVXy,/:.@YZ"[random.below(21)],
    }
}

fn compare_readings(inputs: &[Input]) -> Tally {
    let mut tally = [0; 20];
    let mut random = Xorshift(0x2545_F491_4F6C_DD1D);
    for cards in 0..=HOME_TREE.matches('\n').count() {
        compare_reading(HOME_TREE.as_bytes(), cards, &mut tally);
        compare_reading(SMALL[1].as_bytes(), cards, &mut tally);
    }
    for turn in 0..30_000 {
        let mut file = if turn % 3 == 0 { SMALL[2] } else { HOME_TREE }.as_bytes().to_vec();
        for _ in 0..=random.below(3) {
            damage_lines(&mut file, &mut random);
        }
        let cards = if turn % 50 == 0 { random.below(60) } else { 60 };
        compare_reading(&file, cards, &mut tally);
    }
    for input in inputs {
        compare_reading(&input.file, MOST_CARDS, &mut tally);
        for _ in 0..8 {
            let mut file = input.file.clone();
            damage_lines(&mut file, &mut random);
            compare_reading(&file, MOST_CARDS, &mut tally);
        }
    }
    tally
}

fn compare_many(inputs: &[Input]) -> Tally {
    let mut tally = [0; 20];
    let mut random = Xorshift(0x9E37_79B9_7F4A_7C15);
    compare(b"", &mut tally);
    compare(&MARK, &mut tally);
    compare(&vec![b'0'; MOST_BYTES + 1], &mut tally);
    for base in SMALL {
        for end in 0..=base.len() {
            compare(&base.as_bytes()[..end], &mut tally);
        }
        for _ in 0..100_000 {
            let mut file = base.as_bytes().to_vec();
            for _ in 0..=random.below(3) {
                damage(&mut file, &mut random);
            }
            compare(&file, &mut tally);
        }
    }
    for input in inputs {
        compare(&input.file, &mut tally);
        let mut file = input.file.clone();
        for _ in 0..16 {
            let at = random.below(file.len());
            let bit = 1 << random.below(8);
            file[at] ^= bit;
            compare(&file, &mut tally);
            file[at] ^= bit;
        }
    }
    tally
}

// ------------------------------------------------------------------------------------------------ time

struct Input {
    name: &'static str,
    file: Vec<u8>,
}

/// A file of lines of exactly the largest size: people with a note of these texts, and a last note that fills what is left.
fn people(name: &'static str, texts: &[&str]) -> Input {
    const TRAILER: &[u8] = b"0 TRLR\n";
    const LAST: &[u8] = b"0 @LAST@ SNOTE ";
    let mut file = b"0 HEAD\n1 GEDC\n2 VERS 7.0\n".to_vec();
    for person in 1.. {
        let mut lines = format!(
            "0 @I{person}@ INDI\n1 NAME {} /{}/\n1 SEX F\n1 BIRT\n2 DATE {} MAR {}\n2 PLAC {}\n1 FAMC @VOID@\n1 NOTE {}\n",
            texts[person % texts.len()],
            texts[(person / 3) % texts.len()],
            person % 28 + 1,
            1700 + person % 300,
            texts[(person / 7) % texts.len()],
            texts[(person / 2) % texts.len()],
        );
        for further in 0..person % 4 {
            lines += &format!("2 CONT {}\n", texts[(person + further) % texts.len()]);
        }
        if file.len() + lines.len() + LAST.len() + TRAILER.len() + 2 > MOST_BYTES {
            break;
        }
        file.extend_from_slice(lines.as_bytes());
    }
    file.extend_from_slice(LAST);
    file.resize(MOST_BYTES - TRAILER.len() - 1, b'x');
    file.push(b'\n');
    file.extend_from_slice(TRAILER);
    assert_eq!(file.len(), MOST_BYTES);
    Input { name, file }
}

const TURNS: usize = 9;

fn timed(check: &mut impl FnMut(&[u8]) -> u64, file: &[u8], best: &mut Duration) {
    let start = Instant::now();
    let answer = black_box(check(black_box(file)));
    *best = start.elapsed().min(*best);
    assert_eq!(answer, 0);
}

/// The best times of both, in milliseconds.
fn row(
    check: &str,
    input: &Input,
    mut plain: impl FnMut(&[u8]) -> u64,
    mut proved: impl FnMut(&[u8]) -> u64,
) -> (f64, f64) {
    let (mut best_plain, mut best_proved) = (Duration::MAX, Duration::MAX);
    for _ in 0..TURNS {
        timed(&mut plain, &input.file, &mut best_plain);
        timed(&mut proved, &input.file, &mut best_proved);
    }
    let (plain, proved) = (best_plain.as_secs_f64() * 1e3, best_proved.as_secs_f64() * 1e3);
    let name = format!("{check}, {}", input.name);
    println!(
        "{name:<40} {:>10} {plain:>12.2} {proved:>12.2} {:>8.2}",
        input.file.len(),
        proved / plain
    );
    (plain, proved)
}

fn reading_row(input: &Input) -> (f64, f64) {
    let mut drawer = vec![BLANK; MOST_CARDS];
    let mut starts = vec![0; MOST_CARDS];
    row(
        "reading",
        input,
        |file| packed_reading(read_home(file, &mut drawer)),
        |file| proved_reading(file, &mut starts).0,
    )
}

const HOME_START: &str = "0 HEAD\n1 GEDC\n2 VERS 7.0\n";

/// A tree of the home book with about so many cards: families of three, with names, dates, places and notes.
/// The bytes of the line that begins here, and where the next begins.
fn line_from(file: &[u8], start: usize) -> (&[u8], usize) {
    let rest = &file[start..];
    let length = rest.iter().position(|b| matches!(b, b'\n' | b'\r')).unwrap_or(rest.len());
    let end = match &rest[length..] {
        [b'\r', b'\n', ..] => 2,
        [] => 0,
        _ => 1,
    };
    (&rest[..length], start + length + end)
}

fn is_continuation(line: &[u8]) -> bool {
    let (_, behind) = split_front(line, |b| b.is_ascii_digit());
    matches!(behind.strip_prefix(b" CONT"), Some([] | [b' ', ..]))
}

/// Gives the lines of these cards and of what continues them.
fn each_line<'a>(file: &'a [u8], starts: &[u32], mut give: impl FnMut(&'a [u8])) {
    for start in starts {
        let (own, mut next) = line_from(file, *start as usize);
        give(own);
        while next < file.len() {
            let (line, after) = line_from(file, next);
            if !is_continuation(line) {
                break;
            }
            give(line);
            next = after;
        }
    }
}

/// Writes the cards, if the buffer has room for all of them.
fn write_plain(file: &[u8], starts: &[u32], buffer: &mut [u8]) -> usize {
    let mut size = MARK.len();
    each_line(file, starts, |line| size += line.len() + 1);
    if size > MOST_BYTES || size > buffer.len() {
        return 0;
    }
    buffer[..MARK.len()].copy_from_slice(&MARK);
    let mut at = MARK.len();
    each_line(file, starts, |line| {
        buffer[at..at + line.len()].copy_from_slice(line);
        buffer[at + line.len()] = b'\n';
        at += line.len() + 1;
    });
    at
}

fn proved_open(file: &[u8], starts: &[u32]) -> u64 {
    // SAFETY: both parts are lent for the call.
    unsafe { intake_open(file.as_ptr(), file.len(), starts.as_ptr(), starts.len()) }
}

fn proved_write(file: &[u8], starts: &[u32], buffer: &mut [u8]) -> usize {
    // SAFETY: all three parts are lent for the call.
    unsafe { intake_write(file.as_ptr(), file.len(), starts.as_ptr(), starts.len(), buffer.as_mut_ptr(), buffer.len()) as usize }
}

/// Times the writing of all cards of a tree. The proved one opens its view first, so what that takes is measured alone and
/// taken off.
fn writing_row(input: &Input) {
    let mut starts = vec![u32::MAX; MOST_CARDS];
    proved_reading(&input.file, &mut starts);
    starts.retain(|start| *start != u32::MAX);
    let (mut plain, mut proved) = (vec![0; MOST_BYTES], vec![0; MOST_BYTES]);
    let size = write_plain(&input.file, &starts, &mut plain);
    if size == 0 || proved_write(&input.file, &starts, &mut proved) != size || plain[..size] != proved[..size] {
        println!("{}: the two write other bytes", input.name);
        exit(1);
    }
    let (mut by_plain, mut by_proved, mut by_open) = (Duration::MAX, Duration::MAX, Duration::MAX);
    for _ in 0..9 {
        timed(&mut |file| u64::from(write_plain(file, &starts, &mut plain) == 0), &input.file, &mut by_plain);
        timed(&mut |file| u64::from(proved_write(file, &starts, &mut proved) == 0), &input.file, &mut by_proved);
        timed(&mut |file| u64::from(proved_open(file, &starts) == 0), &input.file, &mut by_open);
    }
    let (by_plain, by_proved) = (by_plain.as_secs_f64() * 1e3, by_proved.saturating_sub(by_open).as_secs_f64() * 1e3);
    println!(
        "{:<40} {:>10} {:>12.2} {:>12.2} {:>8.2}",
        format!("writing, {}", input.name),
        input.file.len(),
        by_plain,
        by_proved,
        by_proved / by_plain
    );
}

fn families(name: &'static str, cards: usize) -> Input {
    const MONTHS: [&str; 4] = ["JAN", "MAY", "SEP", "DEC"];
    let mut file = format!("{HOME_START}1 SUBM @U@\n");
    let mut count = 7;
    for family in 1.. {
        let mut lines = String::new();
        for (role, sex) in [(1, "M"), (2, "F"), (3, "X")] {
            let year = 1700 + (family * 7 + role * 30) % 300;
            let month = MONTHS[(family + role) % 4];
            lines += &format!(
                "0 @I{family}_{role}@ INDI\n1 NAME Karl Johan /Åkesson {family}/\n2 GIVN Karl Johan\n2 SURN Åkesson {family}\n\
                 1 SEX {sex}\n1 BIRT\n2 DATE {} {month} {year}\n2 PLAC Lövånger, Västerbotten, Sverige\n1 DEAT\n\
                 2 DATE BET {} AND {month} {}\n2 AGE {}y 2m\n1 NOTE the parish book has the second daughter on page {family}\n\
                 2 CONT and the house where they lived\n1 FAM{} @F{family}@\n",
                family % 28 + 1,
                year + 40,
                year + 50,
                year % 70,
                if role == 3 { "C" } else { "S" },
            );
        }
        lines += &format!(
            "0 @F{family}@ FAM\n1 HUSB @I{family}_1@\n1 WIFE @I{family}_2@\n1 CHIL @I{family}_3@\n1 MARR Y\n2 DATE ABT {}\n\
             1 SNOTE @N{family}@\n0 @N{family}@ SNOTE a note that both share\n1 CONT\n1 CONT on three lines\n",
            1700 + family % 300
        );
        let more = lines.lines().filter(|line| !line.contains(" CONT")).count();
        if count + more > cards {
            break;
        }
        count += more;
        file += &lines;
    }
    file += "0 @U@ SUBM\n1 NAME Eve\n0 TRLR\n";
    Input {
        name,
        file: file.into_bytes(),
    }
}

/// A tree of one shape: something before, so many times a part with its number, and something after.
fn shaped(name: &'static str, before: &str, count: usize, part: impl Fn(usize) -> String, after: &str) -> Input {
    let parts: String = (1..=count).map(part).collect();
    Input {
        name,
        file: format!("{HOME_START}{before}{parts}{after}0 TRLR\n").into_bytes(),
    }
}

/// Trees that are within the limits and meant to be slow.
fn hostile() -> Vec<Input> {
    let common = "X".repeat(60);
    vec![
        shaped("bare notes at the top", "", 65_531, |i| format!("0 SNOTE {i}\n"), ""),
        shaped(
            "all point at the last",
            "",
            32_000,
            |i| format!("0 @I{i}@ INDI\n1 ALIA @LAST@\n"),
            "0 @LAST@ INDI\n1 SEX F\n",
        ),
        shaped(
            "names alike for 60 characters",
            "",
            32_000,
            |i| format!("0 @{common}{i}@ INDI\n1 ALIA @{common}{}@\n", i % 32_000 + 1),
            "",
        ),
        shaped(
            "names in falling order",
            "",
            32_000,
            |i| {
                format!(
                    "0 @I{:05}@ INDI\n1 ALIA @I{:05}@\n",
                    40_000 - i,
                    40_000 - (i * 7919) % 32_000 - 1
                )
            },
            "",
        ),
        shaped(
            "substructures of one record",
            "0 FAM\n",
            65_000,
            |_| "1 CHIL @VOID@\n".to_string(),
            "",
        ),
        shaped(
            "a text of many lines",
            "0 SNOTE a\n",
            400_000,
            |i| format!("1 CONT line {i}\n"),
            "",
        ),
        shaped(
            "one note of the largest size",
            "0 SNOTE a\n1 CONT ",
            1,
            |_| "x".repeat(MOST_BYTES - 100) + "\n",
            "",
        ),
    ]
}

fn tell_tally(what: &str, tally: Tally) {
    println!(
        "{} files {what}, the same answers: {} accepted",
        tally.iter().sum::<u64>(),
        tally[0]
    );
    for (number, times) in tally.iter().enumerate().skip(1).filter(|(_, &times)| times > 0) {
        println!("  refused {number:>2}: {times}");
    }
}

fn main() {
    let inputs = [
        people(
            "ASCII",
            &[
                "Karl Johan",
                "the parish book of Lovanger, page 112, has the second daughter",
                "Mary Ann",
                "Whitby, Yorkshire, England",
                "she wrote home every year until the war",
            ],
        ),
        people(
            "many bytes",
            &[
                "Märta Åkesson",
                "Ελένη Παπαδοπούλου από τη Θεσσαλονίκη",
                "山田太郎は京都に生まれた",
                "שרה בת אברהם",
                "Övertorneå 😀 Хапаранда — Торнио",
            ],
        ),
    ];
    let (half, whole) = (families("30,000 cards", 30_000), families("60,000 cards", 60_000));
    let hostile = hostile();
    tell_tally("checked", compare_many(&inputs));
    tell_tally("read", compare_readings(&[families("small", 600)]));
    for input in hostile.iter().chain([&half, &whole]) {
        compare_reading(&input.file, MOST_CARDS, &mut [0; 20]);
    }
    println!();
    println!(
        "{:<40} {:>10} {:>12} {:>12} {:>8}",
        "input", "bytes", "baseline ms", "proved ms", "ratio"
    );
    for input in &inputs {
        row(
            "characters",
            input,
            |file| packed(check_characters(file)),
            proved_characters,
        );
        // the proved check of the lines checks the characters first, so the plain one does too
        row(
            "characters and lines",
            input,
            |file| packed(check_characters(file).and_then(|()| check_lines(file))),
            proved_lines,
        );
    }
    let (plain_half, proved_half) = reading_row(&half);
    let (plain_whole, proved_whole) = reading_row(&whole);
    for input in &hostile {
        reading_row(input);
    }
    for input in [&half, &whole].into_iter().chain(&hostile) {
        writing_row(input);
    }
    println!();
    println!(
        "twice the cards take {:.2} times as long in the baseline, {:.2} times in the proved reading",
        plain_whole / plain_half,
        proved_whole / proved_half
    );
}
