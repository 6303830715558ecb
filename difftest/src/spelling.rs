//! Numbers in all their spellings: how one is made, and what a run of bytes is. Neither side is asked.

use staplehorn_difftest::random::Random;

/// What stands before the digits: nothing for decimals, which have no leading zero.
pub const PREFIXES: [&str; 6] = ["", "0", "0x", "0X", "0b", "0B"];
pub const BASES: [u32; 4] = [2, 8, 10, 16];

/// How a number is written down.
#[derive(Clone, Copy, Debug)]
pub struct Spelling {
    pub prefix: &'static str,
    /// Whether hexadecimal digits are capitals.
    pub capitals: bool,
    /// Zeros between the prefix and the digits; a decimal has none.
    pub zeros: usize,
    /// Whether a `U` follows.
    pub suffix: bool,
}

impl Spelling {
    /// Any spelling; zeros now and then.
    pub fn any(r: &mut Random) -> Self {
        let zeros = if r.below(4) == 0 { r.below(40) as usize } else { 0 };
        Spelling { prefix: r.pick(&PREFIXES), capitals: r.below(2) == 0, zeros, suffix: r.below(3) == 0 }
    }

    pub fn of(&self, value: u128) -> String {
        let digits = match (self.prefix, self.capitals) {
            ("", _) => format!("{value}"),
            ("0", _) => format!("{value:o}"),
            ("0b" | "0B", _) => format!("{value:b}"),
            (_, false) => format!("{value:x}"),
            (_, true) => format!("{value:X}"),
        };
        let zeros = if self.prefix.is_empty() { 0 } else { self.zeros };
        format!("{}{}{digits}{}", self.prefix, "0".repeat(zeros), if self.suffix { "U" } else { "" })
    }
}

/// A run that is a number: its base, its digits without prefix and `U`, and whether the `U` is there.
#[derive(Clone, Copy, PartialEq, Eq, Debug)]
pub struct Number<'a> {
    pub base: u32,
    pub digits: &'a str,
    pub suffix: bool,
}

impl<'a> Number<'a> {
    pub fn new(run: &'a str) -> Option<Self> {
        let (base, rest) = base_of(run)?;
        let digits = rest.strip_suffix('U').unwrap_or(rest);
        let whole = !digits.is_empty() && digits.chars().all(|c| c.is_digit(base));
        whole.then_some(Number { base, digits, suffix: digits.len() < rest.len() })
    }

    /// The value, or the largest that can be held for any that is larger.
    pub fn value(&self) -> u128 {
        let digits = self.digits.chars().filter_map(|c| c.to_digit(self.base));
        digits.fold(0, |value: u128, digit| value.saturating_mul(self.base.into()).saturating_add(digit.into()))
    }
}

/// The base that a run starts like, and what stands behind its prefix. The zero of an octal is one of its digits.
pub fn base_of(run: &str) -> Option<(u32, &str)> {
    match run.as_bytes() {
        [b'0', b'x' | b'X', ..] => Some((16, &run[2..])),
        [b'0', b'b' | b'B', ..] => Some((2, &run[2..])),
        [b'0', ..] => Some((8, run)),
        [b'1'..=b'9', ..] => Some((10, run)),
        _ => None,
    }
}

#[cfg(test)]
mod tests {
    use super::*;

    #[test]
    fn a_spelling_is_the_number_that_it_was_made_of() {
        let mut r = Random::new(12);
        for _ in 0..20_000 {
            let value = u128::from(r.next()) >> r.below(64) << r.below(60);
            let spelling = Spelling::any(&mut r);
            let text = spelling.of(value);
            let number = Number::new(&text).expect("it is a number");
            assert_eq!((number.value(), number.suffix), (value, spelling.suffix), "{text}");
        }
    }

    #[test]
    fn values() {
        for (text, value) in [("0", 0), ("0U", 0), ("00", 0), ("064", 52), ("64U", 64), ("0xbU", 11), ("0B101", 5), ("0x0b1", 177)] {
            assert_eq!(Number::new(text).map(|number| number.value()), Some(value), "{text}");
        }
        for text in ["", "08", "0b", "0xU", "64u", "0UU", "0b102", "U", "_1", "0o7", "64U1", "00x1"] {
            assert_eq!(Number::new(text), None, "{text}");
        }
    }

    #[test]
    fn a_value_is_never_wrapped() {
        let far = format!("0b1{}", "0".repeat(300));
        assert_eq!(Number::new(&far).map(|number| number.value()), Some(u128::MAX));
    }
}
