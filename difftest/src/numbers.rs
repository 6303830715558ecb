//! Numbers in all their spellings, and runs of bytes that nearly are numbers, in every place of a statement that takes one.
//! Each text is read and written by both sides; a small account of its own (`known`) says what the answer must be wherever
//! the bytes in the number's place settle it. A share of the texts are lines of whole sheets.

use crate::places::{Known, Place, Texts, LONGEST, PLACES};
use crate::sheets::{Proved, Side};
use crate::spelling::{base_of, Number, Spelling, BASES, PREFIXES};
use staplehorn_difftest::counts::Counts;
use staplehorn_difftest::random::Random;

/// The answer for these bytes in the number's place; none where they make an expression, and where an early `]` leaves it
/// to what follows.
fn known(place: &Place, middle: &[u8]) -> Option<Known> {
    let refused = |column| Some(Known::refused(3, column));
    let start = spaces(middle);
    let run = run_at(middle);
    let column = place.before.len() + start + 1;
    if let Some(b'-' | b'(') = middle.get(start) {
        return None;
    }
    let Some(number) = Number::new(run) else {
        return refused(column);
    };
    let behind = &middle[start + run.len()..];
    let gap = spaces(behind);
    let next = column + run.len() + gap;
    match behind.get(gap) {
        Some(b'+' | b'-' | b'*') => None,
        Some(b';') if place.after == ";" => refused(next + 1),
        Some(b']') if place.after != ";" => None,
        Some(_) => refused(next),
        None => {
            let length = place.before.len() + middle.len() + place.after.len();
            if length > LONGEST {
                return refused(length + 1);
            }
            let value = number.value();
            Some(if value > place.limit.into() { Known::refused(4, column) } else { Known::taken(value) })
        }
    }
}

/// How many spaces the bytes start with.
fn spaces(bytes: &[u8]) -> usize {
    bytes.iter().take_while(|&&b| b == b' ').count()
}

/// The first run of bytes that words have, behind spaces: empty where another byte stands.
fn run_at(middle: &[u8]) -> &str {
    let rest = &middle[spaces(middle)..];
    let length = rest.iter().take_while(|&&b| b.is_ascii_alphanumeric() || b == b'_' || b == b'$').count();
    std::str::from_utf8(&rest[..length]).expect("such bytes are letters, digits and two marks")
}

/// What the counts call a run: the base that it starts like, and whether it ends in a `U`.
fn sort(run: &str) -> &'static str {
    match (base_of(run).map(|(base, _)| base), run.ends_with('U')) {
        (Some(2), false) => "base 2",
        (Some(2), true) => "base 2 with U",
        (Some(8), false) => "base 8",
        (Some(8), true) => "base 8 with U",
        (Some(10), false) => "base 10",
        (Some(10), true) => "base 10 with U",
        (Some(16), false) => "base 16",
        (Some(16), true) => "base 16 with U",
        _ => "no digit first",
    }
}

/// What the counts call the letter of a prefix, if there is one.
fn letter(run: &str) -> Option<&'static str> {
    match run.as_bytes() {
        [b'0', b'x', ..] => Some("letter x"),
        [b'0', b'X', ..] => Some("letter X"),
        [b'0', b'b', ..] => Some("letter b"),
        [b'0', b'B', ..] => Some("letter B"),
        _ => None,
    }
}

struct Numbers<'a, S: Side> {
    texts: Texts<'a, S>,
}

impl<S: Side> Numbers<'_, S> {
    /// Compares the text that has these bytes in the place.
    fn number(&mut self, place: &Place, middle: &[u8]) {
        let reason = self.texts.compare(place, &place.text(middle), known(place, middle));
        self.count(place, run_at(middle), reason);
    }

    fn count(&mut self, place: &Place, run: &str, reason: u32) {
        let counts = &mut self.texts.c.counts;
        let number = Number::new(run);
        if reason == 3 && number.is_some() {
            counts.seen("refused behind a number", 3);
            return;
        }
        counts.seen(sort(run), reason);
        if let Some(letter) = letter(run) {
            counts.seen(letter, reason);
        }
        if run.len() >= 1_000 {
            counts.seen("1,000 bytes and more", reason);
        }
        if let Some(number) = number {
            let (value, limit) = (number.value(), u128::from(place.limit));
            if value == limit {
                counts.seen("at the limit, base", number.base);
            } else if value == limit + 1 {
                counts.seen("one over the limit, base", number.base);
            }
            if run != "0" && number.digits.len() > 1 && number.digits.starts_with('0') {
                counts.seen("leading zeros, base", number.base);
            }
        }
    }

    /// Every spelling of some values, in every place.
    fn every_spelling(&mut self, values: &[u128]) {
        for &value in values {
            for prefix in PREFIXES {
                let zeros = if prefix.is_empty() { &ZEROS[..1] } else { &ZEROS };
                let cases = if prefix.ends_with(['x', 'X']) { &[false, true][..] } else { &[false] };
                for &zeros in zeros {
                    for &capitals in cases {
                        for suffix in [false, true] {
                            let run = Spelling { prefix, capitals, zeros, suffix }.of(value);
                            for place in &PLACES {
                                self.number(place, run.as_bytes());
                            }
                        }
                    }
                }
            }
        }
    }

    /// Any spelling of any value, with spaces around it now and then.
    fn any_spelling(&mut self, r: &mut Random) {
        let place = &PLACES[r.below(PLACES.len() as u64) as usize];
        let run = Spelling::any(r).of(any_value(r, place.limit));
        let mut spaces = || " ".repeat((r.below(10) as usize).saturating_sub(7));
        self.number(place, format!("{}{run}{}", spaces(), spaces()).as_bytes());
    }

    /// A good spelling with a byte or two exchanged, left out or put in.
    fn damaged_spelling(&mut self, r: &mut Random) {
        let place = &PLACES[r.below(PLACES.len() as u64) as usize];
        let mut run = Spelling::any(r).of(any_value(r, place.limit)).into_bytes();
        for _ in 0..1 + r.below(2) {
            let (at, byte) = (r.below(run.len() as u64 + 1) as usize, r.pick(ALPHABET));
            match r.below(3) {
                0 if at < run.len() => run[at] = byte,
                1 if at < run.len() => {
                    run.remove(at);
                }
                _ => run.insert(at, byte),
            }
        }
        self.number(place, &run);
    }

    /// Each byte of good spellings exchanged for each other, and left out, and each byte put in at each place.
    fn single_bytes(&mut self, place: &Place) {
        for good in GOOD {
            for at in 0..=good.len() {
                let mut run = good.as_bytes().to_vec();
                run.insert(at, 0);
                for byte in 0..=255 {
                    run[at] = byte;
                    self.number(place, &run);
                }
                if at < good.len() {
                    run.remove(at);
                    for byte in 0..=255 {
                        run[at] = byte;
                        self.number(place, &run);
                    }
                    run.remove(at);
                    self.number(place, &run);
                }
            }
        }
    }

    /// Every run of some bytes up to a length, each in several places.
    fn all_runs(&mut self, longest: u32) {
        let count = SMALL.len();
        for length in 1..=longest {
            for number in 0..count.pow(length) {
                let run: Vec<u8> = (0..length).map(|at| SMALL[number / count.pow(at) % count]).collect();
                for place in [&PLACES[0], &PLACES[4], &PLACES[number % PLACES.len()]] {
                    self.number(place, &run);
                }
            }
        }
    }

    /// Any bytes of those that numbers have, and a few that they have not.
    fn random_run(&mut self, r: &mut Random) {
        let place = &PLACES[r.below(PLACES.len() as u64) as usize];
        let length = 1 + r.below(8);
        let mut run: Vec<u8> = (0..length).map(|_| r.pick(ALPHABET)).collect();
        if r.below(2) == 0 {
            run[0] = b'0';
        }
        self.number(place, &run);
    }

    /// Thousands of digits: leading zeros, and values that are far over; up to the longest text, and past it.
    fn long(&mut self) {
        let lengths = (1..=20).map(|k| 200 * k).chain(LONGEST - 6..=LONGEST + 6);
        for (turn, length) in lengths.enumerate() {
            for (other, prefix) in PREFIXES.into_iter().enumerate() {
                for suffix in [false, true] {
                    let place = &PLACES[(turn + other) % PLACES.len()];
                    let around = place.before.len() + place.after.len() + prefix.len() + usize::from(suffix);
                    let limit = u128::from(place.limit);
                    if !prefix.is_empty() {
                        for value in [0, 1, limit, limit + 1] {
                            let mut spelling = Spelling { prefix, capitals: false, zeros: 0, suffix };
                            spelling.zeros = length - place.before.len() - place.after.len() - spelling.of(value).len();
                            self.number(place, spelling.of(value).as_bytes());
                        }
                    }
                    for digit in ["1", "8", "0", "b", "_"] {
                        let end = if suffix { "U" } else { "" };
                        self.number(place, format!("{prefix}1{}{end}", digit.repeat(length - around - 1)).as_bytes());
                    }
                }
            }
        }
    }
}

fn any_value(r: &mut Random, limit: u64) -> u128 {
    let limit = u128::from(limit);
    match r.below(8) {
        0 => limit,
        1 => limit + 1,
        2 => limit - u128::from(r.below(100)),
        3 => limit + 1 + u128::from(r.below(1_000)),
        4 => r.pick(&VALUES),
        5 => 1 << r.below(127),
        6 => u128::from(r.next() >> r.below(64)),
        _ => u128::from(r.next() as u32),
    }
}

const ALPHABET: &[u8] = b"0178 9abcdefxXbBUuF_$%";
const SMALL: &[u8] = b"012789abBxXUu";
const ZEROS: [usize; 5] = [0, 1, 2, 7, 33];
/// On both sides of what sizes and bases make a limit, and values that would be small if they were wrapped.
const VALUES: [u128; 56] = [
    0,
    1,
    2,
    7,
    8,
    9,
    10,
    15,
    16,
    31,
    32,
    33,
    52,
    63,
    64,
    65,
    128,
    255,
    256,
    257,
    511,
    512,
    513,
    1_024,
    (1 << 16) - 1,
    1 << 16,
    (1 << 16) + 1,
    (1 << 31) - 1,
    1 << 31,
    (1 << 31) + 1,
    4_294_967_289,
    (1 << 32) - 2,
    (1 << 32) - 1,
    1 << 32,
    (1 << 32) + 1,
    (1 << 32) + 64,
    4_294_967_300,
    10_000_000_000,
    1 << 33,
    1 << 35,
    42_949_672_950,
    (1 << 63) - 1,
    1 << 63,
    (1 << 63) + 1,
    18_446_744_073_709_551_609,
    (1 << 64) - 2,
    (1 << 64) - 1,
    1 << 64,
    (1 << 64) + 1,
    (1 << 64) + 32,
    18_446_744_073_709_551_620,
    1 << 65,
    1 << 67,
    1 << 96,
    1 << 127,
    u128::MAX,
];
/// Good spellings of every sort, of which each byte is changed.
const GOOD: [&str; 30] = [
    "0",
    "7",
    "64",
    "4294967295",
    "4294967296",
    "0U",
    "64U",
    "4294967295U",
    "00",
    "000",
    "00U",
    "040",
    "0777U",
    "037777777777",
    "040000000000U",
    "0x0",
    "0x1F",
    "0Xff",
    "0xFFFFFFFFU",
    "0X0U",
    "0x40U",
    "0x00000000001",
    "0b0",
    "0b1",
    "0B1",
    "0b100000",
    "0B10U",
    "0b1U",
    "0b11111111111111111111111111111111U",
    "18446744073709551615",
];

/// How much is compared.
struct Amount {
    /// Values of which every spelling is made.
    values: &'static [u128],
    /// Turns of what is made at random.
    turns: u64,
    /// The longest of all runs.
    longest: u32,
    /// Places in which the bytes of good spellings are changed.
    changed: &'static [usize],
}

const ALL: Amount = Amount { values: &VALUES, turns: 200_000, longest: 4, changed: &[0, 1, 2, 3, 4, 5, 6, 7, 8, 9] };

fn compare<S: Side>(side: &S, amount: &Amount) -> Counts {
    let mut n = Numbers { texts: Texts::new(side) };
    let mut r = Random::new(6);
    n.every_spelling(amount.values);
    n.all_runs(amount.longest);
    n.long();
    for &place in amount.changed {
        n.single_bytes(&PLACES[place]);
    }
    for _ in 0..amount.turns {
        n.any_spelling(&mut r);
        n.damaged_spelling(&mut r);
        n.random_run(&mut r);
    }
    n.texts.c.counts
}

/// What must have been seen, and how often at least.
fn wanted() -> Vec<(&'static str, u32, u64)> {
    let mut wanted = vec![("texts", 0, 1_000_000), ("no digit first", 3, 1_000), ("refused behind a number", 3, 1_000)];
    for run in ["0b1", "0b1U", "01", "01U", "1", "1U", "0x1", "0x1U"] {
        wanted.extend([0, 3, 4].map(|reason| (sort(run), reason, 1_000)));
    }
    for run in ["0x", "0X", "0b", "0B"] {
        let name = letter(run).expect("each has a letter");
        wanted.extend([0, 3, 4].map(|reason| (name, reason, 1_000)));
    }
    for place in &PLACES {
        wanted.extend([0, 3, 4].map(|reason| (place.name, reason, 1_000)));
    }
    for base in BASES {
        wanted.extend([("at the limit, base", base, 1_000), ("one over the limit, base", base, 1_000)]);
    }
    wanted.extend([2, 8, 16].map(|base| ("leading zeros, base", base, 1_000)));
    wanted.extend([("1,000 bytes and more", 0, 100), ("1,000 bytes and more", 3, 100), ("1,000 bytes and more", 4, 100)]);
    for what in ["known answers", "known texts", "known sheets"] {
        wanted.extend([(what, 0, 1_000), (what, 3, 10_000), (what, 4, 1_000)]);
    }
    wanted.extend([0, 3, 4, 8, 9, 14].map(|reason| ("sheets", reason, 1_000)));
    wanted
}

pub fn run() -> bool {
    compare(&Proved, &ALL).finish("numbers", &wanted())
}

#[cfg(test)]
mod tests {
    use super::*;
    use crate::sheets::Reference;
    use staplehorn_difftest::proved::Answer;

    const FEW: Amount = Amount { values: &[0, 52], turns: 2_000, longest: 3, changed: &[] };

    /// The number that a run is taken for, if it is another.
    type Mistake = fn(&str) -> Option<String>;
    /// What a fault does to the answer of a statement, and of a sheet.
    type StatementFault = fn(&[u8], &mut (u32, usize));
    type SheetFault = fn(&mut Answer);

    /// The reference, asked about another number than the one that stands in the text.
    struct Misread(Mistake);

    impl Misread {
        /// The text with its number misread.
        fn text(&self, text: &[u8]) -> Vec<u8> {
            let whole = |place: &&Place| text.starts_with(place.before.as_bytes()) && text.ends_with(place.after.as_bytes());
            let Some(place) = PLACES.iter().find(whole) else {
                return text.to_vec();
            };
            let Some(middle) = text.get(place.before.len()..text.len() - place.after.len()) else {
                return text.to_vec();
            };
            let run = run_at(middle);
            match self.0(run) {
                Some(other) if middle == run.as_bytes() => [place.before, &other, place.after].concat().into(),
                _ => text.to_vec(),
            }
        }
    }

    impl Side for Misread {
        fn judge(&self, sheet: &[u8], starts: &mut [u16]) -> (u32, Answer) {
            Reference.judge(sheet, starts)
        }

        fn report(&self, sheet: &[u8], room: &mut [u8]) -> (u32, usize) {
            Reference.report(sheet, room)
        }

        fn statement(&self, text: &[u8]) -> (u32, usize) {
            Reference.statement(&self.text(text))
        }

        fn canonical(&self, text: &[u8], room: &mut [u8]) -> (u32, usize) {
            Reference.canonical(&self.text(text), room)
        }
    }

    fn is_found(side: &impl Side) -> bool {
        compare(side, &FEW).differences() > 0
    }

    #[test]
    fn the_reference_agrees_with_itself() {
        assert_eq!(compare(&Reference, &FEW).differences(), 0);
        assert_eq!(compare(&Misread(|_| None), &FEW).differences(), 0);
    }

    /// A run with these ends gets others.
    fn with(run: &str, front: &str, back: &str, front_after: &str, back_after: &str) -> Option<String> {
        let middle = run.strip_prefix(front)?.strip_suffix(back)?;
        Some(format!("{front_after}{middle}{back_after}"))
    }

    #[test]
    fn misread_numbers_are_found() {
        let wrong: [(&str, Mistake); 17] = [
            ("08 is 8", |run| (run == "08").then(|| "8".into())),
            ("octal is decimal", |run| with(run, "0", "", "", "").filter(|rest| rest.starts_with(|c: char| c.is_ascii_digit()))),
            ("octal is refused", |run| with(run, "00", "", "08", "")),
            ("a 2 in binary", |run| (run == "0b2").then(|| "2".into())),
            ("0b102 and other digits in binary", |run| with(run, "0b", "", "0x", "").filter(|_| Number::new(run).is_none())),
            ("0b without digits", |run| (run == "0b").then(|| "0".into())),
            ("0x without digits", |run| (run == "0xU").then(|| "0".into())),
            ("no capital B", |run| with(run, "0B", "", "0B2", "")),
            ("no capital X", |run| with(run, "0X", "", "0Xg", "")),
            ("U twice", |run| with(run, "", "UU", "", "U")),
            ("a small u", |run| with(run, "", "u", "", "U")),
            ("no U behind binary", |run| with(run, "0b", "U", "0b", "UU")),
            ("no U behind 0", |run| (run == "0U").then(|| "0UU".into())),
            ("a digit behind U", |run| with(run, "", "U1", "", "")),
            ("wrapped at 32 bits", |run| Number::new(run).map(|number| (number.value() as u32).to_string())),
            ("wrapped at 64 bits", |run| Number::new(run).map(|number| (number.value() as u64).to_string())),
            ("too long is too large", |run| (run.len() > 80).then(|| "9".repeat(30))),
        ];
        for (name, misread) in wrong {
            assert!(is_found(&Misread(misread)), "{name}");
        }
    }

    /// The reference with another column or answer.
    struct Faulty {
        statement: StatementFault,
        judge: SheetFault,
    }

    impl Side for Faulty {
        fn judge(&self, sheet: &[u8], starts: &mut [u16]) -> (u32, Answer) {
            let (_, mut answer) = Reference.judge(sheet, starts);
            (self.judge)(&mut answer);
            (answer[0], answer)
        }

        fn report(&self, sheet: &[u8], room: &mut [u8]) -> (u32, usize) {
            Reference.report(sheet, room)
        }

        fn statement(&self, text: &[u8]) -> (u32, usize) {
            let mut answer = Reference.statement(text);
            (self.statement)(text, &mut answer);
            answer
        }

        fn canonical(&self, text: &[u8], room: &mut [u8]) -> (u32, usize) {
            Reference.canonical(text, room)
        }
    }

    #[test]
    fn faults_in_places_are_found() {
        let statements: [(&str, StatementFault); 3] = [
            ("the byte behind the prefix", |text, a| {
                if a.0 == 3 && text[a.1 - 1..].starts_with(b"08") {
                    a.1 += 1
                }
            }),
            ("the digits of a number that is too large", |text, a| {
                if a.0 == 4 && text[a.1 - 1..].starts_with(b"0b") {
                    a.1 += 2
                }
            }),
            ("3 for 4", |text, a| {
                if a.0 == 4 && text.len() > 1_000 {
                    a.0 = 3
                }
            }),
        ];
        for (name, statement) in statements {
            assert!(is_found(&Faulty { statement, judge: |_| {} }), "{name}");
        }
        let sheets: [(&str, SheetFault); 3] = [
            ("3 for 9", |a| {
                if a[0] == 9 {
                    a[0] = 3
                }
            }),
            ("the column of 4", |a| {
                if a[0] == 4 {
                    a[2] += 1
                }
            }),
            ("the line of 3", |a| {
                if a[0] == 3 {
                    a[1] += 1
                }
            }),
        ];
        for (name, judge) in sheets {
            assert!(is_found(&Faulty { statement: |_, _| {}, judge }), "{name}");
        }
    }

    /// What both sides are held to comes from neither of them.
    #[test]
    fn known_answers() {
        let answer = |middle: &str| known(&PLACES[0], middle.as_bytes()).map(|known| (known.reason, known.column, known.value));
        assert_eq!(answer("064"), Some((0, 0, 52)));
        assert_eq!(answer(" 0b1U "), Some((0, 0, 1)));
        assert_eq!(answer("08"), Some((3, 12, 0)));
        assert_eq!(answer("  "), Some((3, 14, 0)));
        assert_eq!(answer("64 U"), Some((3, 15, 0)));
        assert_eq!(answer("64;"), Some((3, 15, 0)));
        assert_eq!(answer("040000000000"), Some((4, 12, 0)));
        assert_eq!(known(&PLACES[4], b"1]").map(|known| known.reason), None);
        for expression in ["-1", " (1)", "1+1", "1 - 1", "2*3"] {
            assert_eq!(answer(expression), None);
        }
    }
}
