//! A reader of expressions that can be told to make a mistake, in the dress of a side.

use crate::places::{Place, PLACES};
use crate::sheets::{Reference, Side};
use crate::spelling::Number;
use crate::trees::{is_in_range, LEVELS, MOST};
use staplehorn_difftest::proved::Answer;

#[derive(Clone, Copy, PartialEq, Eq, Debug)]
pub enum Mistake {
    None,
    TimesLikePlus,
    RightToLeft,
    MinusOfTerm,
    FifteenLevels,
    SeventeenLevels,
    MinusNoLevel,
    LevelsNeverClosed,
    LevelAtTheNumber,
    LargeNumber,
    LargeResult,
    OnlyTheResult,
    ZeroExcuses,
    WrappingProduct,
    WrappingSum,
    GroupAlone,
    ThreeAtTheStart,
    FourAtTheNumber,
    FourBeforeThree,
    NegativeIsThree,
    NoMinusZero,
    UnaryPlus,
    NoSpaces,
    OneOperator,
}

impl Mistake {
    pub const ALL: [Mistake; 23] = [
        Mistake::TimesLikePlus,
        Mistake::RightToLeft,
        Mistake::MinusOfTerm,
        Mistake::FifteenLevels,
        Mistake::SeventeenLevels,
        Mistake::MinusNoLevel,
        Mistake::LevelsNeverClosed,
        Mistake::LevelAtTheNumber,
        Mistake::LargeNumber,
        Mistake::LargeResult,
        Mistake::OnlyTheResult,
        Mistake::ZeroExcuses,
        Mistake::WrappingProduct,
        Mistake::WrappingSum,
        Mistake::GroupAlone,
        Mistake::ThreeAtTheStart,
        Mistake::FourAtTheNumber,
        Mistake::FourBeforeThree,
        Mistake::NegativeIsThree,
        Mistake::NoMinusZero,
        Mistake::UnaryPlus,
        Mistake::NoSpaces,
        Mistake::OneOperator,
    ];
}

/// A value, or none once it is out of range.
type Value = Option<i128>;
/// No form goes on at this byte.
struct Broken(usize);

struct Reader<'t> {
    text: &'t [u8],
    at: usize,
    mistake: Mistake,
    level: usize,
    /// The number behind or at which something was out of range first.
    out_at: Option<usize>,
    last_number: usize,
}

impl Reader<'_> {
    fn peek(&mut self) -> Option<u8> {
        while self.mistake != Mistake::NoSpaces && self.text.get(self.at) == Some(&b' ') {
            self.at += 1;
        }
        self.text.get(self.at).copied()
    }

    fn operator(&mut self, marks: &[u8]) -> Option<u8> {
        let mark = self.peek().filter(|mark| marks.contains(mark))?;
        self.at += 1;
        Some(mark)
    }

    fn sum(&mut self) -> Result<Value, Broken> {
        let marks: &[u8] = if self.mistake == Mistake::TimesLikePlus { b"+-*" } else { b"+-" };
        let mut left = self.term()?;
        while let Some(mark) = self.operator(marks) {
            let right = if self.mistake == Mistake::RightToLeft { self.sum()? } else { self.term()? };
            left = self.both(mark, left, right);
            if self.mistake == Mistake::OneOperator {
                break;
            }
        }
        Ok(left)
    }

    fn term(&mut self) -> Result<Value, Broken> {
        if self.mistake == Mistake::MinusOfTerm && self.peek() == Some(b'-') {
            return self.minus(Self::term);
        }
        let mut left = self.factor()?;
        while self.mistake != Mistake::TimesLikePlus && self.operator(b"*").is_some() {
            let right = self.factor()?;
            left = self.both(b'*', left, right);
        }
        Ok(left)
    }

    fn factor(&mut self) -> Result<Value, Broken> {
        match self.peek() {
            Some(b'-') => self.minus(Self::factor),
            Some(b'+') if self.mistake == Mistake::UnaryPlus => {
                self.at += 1;
                self.factor()
            }
            Some(b'(') => {
                self.open()?;
                let value = self.sum()?;
                self.operator(b")").ok_or(Broken(self.at))?;
                self.close();
                Ok(value)
            }
            _ => self.number(),
        }
    }

    fn minus(&mut self, operand: fn(&mut Self) -> Result<Value, Broken>) -> Result<Value, Broken> {
        if self.mistake == Mistake::MinusNoLevel {
            self.at += 1;
            let value = operand(self)?;
            return Ok(value.and_then(|value| self.partial(-value)));
        }
        self.open()?;
        let value = operand(self)?;
        self.close();
        if self.mistake == Mistake::NoMinusZero && value == Some(0) {
            return Ok(self.partial(MOST + 1));
        }
        Ok(value.and_then(|value| self.partial(-value)))
    }

    fn open(&mut self) -> Result<(), Broken> {
        let most = match self.mistake {
            Mistake::FifteenLevels => LEVELS - 1,
            Mistake::SeventeenLevels => LEVELS + 1,
            Mistake::LevelAtTheNumber => usize::MAX,
            _ => LEVELS,
        };
        if self.level >= most {
            return Err(Broken(self.at));
        }
        self.level += 1;
        self.at += 1;
        Ok(())
    }

    fn close(&mut self) {
        if self.mistake != Mistake::LevelsNeverClosed {
            self.level -= 1;
        }
    }

    fn number(&mut self) -> Result<Value, Broken> {
        let start = self.at;
        let rest = &self.text[start..];
        let length = rest.iter().take_while(|b| b.is_ascii_alphanumeric() || matches!(b, b'_' | b'$')).count();
        let number = std::str::from_utf8(&rest[..length]).ok().and_then(Number::new).ok_or(Broken(start))?;
        if self.level > LEVELS && self.mistake == Mistake::LevelAtTheNumber {
            return Err(Broken(start));
        }
        self.at += length;
        self.last_number = start;
        let value = i128::try_from(number.value()).unwrap_or(i128::MAX);
        if self.mistake == Mistake::LargeNumber && value == MOST + 1 {
            return Ok(Some(value));
        }
        Ok(self.partial(value))
    }

    fn both(&mut self, mark: u8, left: Value, right: Value) -> Value {
        if self.mistake == Mistake::ZeroExcuses && mark == b'*' && (left == Some(0) || right == Some(0)) {
            self.out_at = None;
            return Some(0);
        }
        let (left, right) = (left?, right?);
        match (mark, self.mistake) {
            (b'*', Mistake::WrappingProduct) => Some(i128::from((left as i64).wrapping_mul(right as i64))),
            (b'+', Mistake::WrappingSum) => Some(i128::from((left as i64).wrapping_add(right as i64))),
            (b'+', Mistake::OnlyTheResult) => Some(left + right),
            (b'+', _) => self.partial(left + right),
            (b'-', _) => self.partial(left - right),
            _ => self.partial(left.checked_mul(right).unwrap_or(i128::MAX)),
        }
    }

    fn partial(&mut self, value: i128) -> Value {
        let good = is_in_range(value) || self.mistake == Mistake::LargeResult && value == MOST + 1;
        if !good {
            self.out_at.get_or_insert(self.last_number);
        }
        good.then_some(value)
    }
}

/// The reference, but for expressions.
pub struct Wrong(pub Mistake);

enum Outcome {
    Value(i128),
    Refused(u32, usize),
}

impl Wrong {
    /// What is said of a text, if this reader can tell: its place, and the outcome.
    fn outcome(&self, text: &[u8]) -> Option<(&'static Place, Outcome)> {
        let place = PLACES.iter().find(|place| text.starts_with(place.before.as_bytes()))?;
        if text.len() > 4_096 {
            return None;
        }
        let mut start = place.before.len();
        while text.get(start) == Some(&b' ') {
            start += 1;
        }
        let mut reader = Reader { text, at: start, mistake: self.0, level: 0, out_at: None, last_number: start };
        let read = reader.sum();
        let refused = |reason, at| Some((place, Outcome::Refused(reason, at + 1)));
        let out_at = reader.out_at;
        let value = match (read, out_at, self.0) {
            (Err(_), Some(_), Mistake::FourBeforeThree) => return refused(4, start),
            (Err(_), _, Mistake::ThreeAtTheStart) => return refused(3, start),
            (Err(Broken(at)), ..) => return refused(3, at),
            (Ok(value), ..) => value,
        };
        reader.peek();
        if &text[reader.at..] != place.after.as_bytes() {
            return None;
        }
        let middle = std::str::from_utf8(&text[start..reader.at]).ok()?.trim_end();
        let bare = if self.0 == Mistake::GroupAlone { middle.trim_matches(['(', ')', ' ']) } else { middle };
        let alone = Number::new(bare).map(|number| i128::try_from(number.value()).unwrap_or(i128::MAX));
        let column = if self.0 == Mistake::FourAtTheNumber { out_at.unwrap_or(start) } else { start };
        match alone.or(value) {
            Some(value) if (0..=i128::from(place.limit)).contains(&value) => Some((place, Outcome::Value(value))),
            Some(value) if value < 0 && self.0 == Mistake::NegativeIsThree => refused(3, start),
            _ => refused(4, if alone.is_some() { start } else { column }),
        }
    }
}

impl Side for Wrong {
    fn judge(&self, sheet: &[u8], starts: &mut [u16]) -> (u32, Answer) {
        Reference.judge(sheet, starts)
    }

    fn report(&self, sheet: &[u8], room: &mut [u8]) -> (u32, usize) {
        Reference.report(sheet, room)
    }

    fn statement(&self, text: &[u8]) -> (u32, usize) {
        match self.outcome(text) {
            None => Reference.statement(text),
            Some((_, Outcome::Value(_))) => (0, 0),
            Some((_, Outcome::Refused(reason, column))) => (reason, column),
        }
    }

    fn canonical(&self, text: &[u8], room: &mut [u8]) -> (u32, usize) {
        match self.outcome(text) {
            None => Reference.canonical(text, room),
            Some((place, Outcome::Value(value))) => Reference.canonical(&place.text(value.to_string().as_bytes()), room),
            Some((_, Outcome::Refused(reason, _))) => (reason, 0),
        }
    }
}
