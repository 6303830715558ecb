//! Expressions of `+`, `-`, `*`, unary minus and parentheses, taken token by token
//! from left to right.
//!
//! No token is looked at twice. What is open stands on a stack, the numbers that
//! wait in sums.

/// How many parentheses and minuses may be open.
const DEEPEST: usize = 16;
/// The ends of the range of every partial result.
const LEAST: i128 = -(1 << 63);
const MOST: i128 = (1 << 63) - 1;

/// A number that was read, in any base.
#[derive(Clone, Copy)]
pub enum Number {
    /// Its value.
    Fits(u64),
    /// It is over 2^64-1.
    TooLarge,
}

#[derive(Clone, Copy)]
pub enum Operator {
    Plus,
    Minus,
    Times,
}

/// A sum that is not finished: its terms so far, what comes between them and the
/// next term, and the factors of that one so far.
#[derive(Default)]
struct Sum {
    total: i128,
    subtracts: bool,
    term: Option<i128>,
}

/// What is open around the next operand.
enum Open {
    /// A parenthesis, with the sum in which it stands.
    Parenthesis(Sum),
    Minus,
}

/// An expression as far as it was read.
#[derive(Default)]
pub struct Expression {
    open: Vec<Open>,
    /// The sum in the innermost parenthesis.
    sum: Sum,
    /// Was a partial result, or a number, out of range?
    out_of_range: bool,
    tokens: usize,
    last_number: Option<Number>,
}

impl Expression {
    /// Takes a `(` before an operand, if it is not one level too many.
    #[must_use]
    pub fn open_parenthesis(&mut self) -> Option<()> {
        self.level()?;
        let around = std::mem::take(&mut self.sum);
        self.open.push(Open::Parenthesis(around));
        Some(())
    }

    /// Takes a `-` before an operand, if it is not one level too many.
    #[must_use]
    pub fn open_minus(&mut self) -> Option<()> {
        self.level()?;
        self.open.push(Open::Minus);
        Some(())
    }

    fn level(&mut self) -> Option<()> {
        self.tokens += 1;
        (self.open.len() < DEEPEST).then_some(())
    }

    pub fn number(&mut self, number: Number) {
        self.tokens += 1;
        self.last_number = Some(number);
        let value = match number {
            Number::Fits(value) => i128::from(value),
            Number::TooLarge => MOST + 1,
        };
        let value = self.partial(value);
        self.operand(value);
    }

    /// Takes a `)` behind an operand, if a parenthesis is open.
    #[must_use]
    pub fn close(&mut self) -> Option<()> {
        let Some(Open::Parenthesis(around)) = self.open.pop() else {
            return None;
        };
        self.tokens += 1;
        self.end_term();
        let value = std::mem::replace(&mut self.sum, around).total;
        self.operand(value);
        Some(())
    }

    /// Takes an operator behind an operand.
    pub fn operator(&mut self, operator: Operator) {
        self.tokens += 1;
        if !matches!(operator, Operator::Times) {
            self.end_term();
            self.sum.subtracts = matches!(operator, Operator::Minus);
        }
    }

    /// Is nothing open? Asked behind an operand.
    pub fn is_whole(&self) -> bool {
        self.open.is_empty()
    }

    /// The value of a whole expression; none if it or a partial result is out of
    /// range, or it is negative. A number alone may be larger than one in an
    /// expression.
    pub fn value(mut self) -> Option<u64> {
        if self.tokens == 1 {
            return match self.last_number {
                Some(Number::Fits(value)) => Some(value),
                _ => None,
            };
        }
        self.end_term();
        if self.out_of_range {
            return None;
        }
        u64::try_from(self.sum.total).ok()
    }

    /// An operand, to which the minuses right before it belong.
    fn operand(&mut self, mut value: i128) {
        while let Some(Open::Minus) = self.open.last() {
            self.open.pop();
            value = self.partial(-value);
        }
        let term = match self.sum.term {
            Some(factors) => self.partial(factors * value),
            None => value,
        };
        self.sum.term = Some(term);
    }

    /// Adds the term to those before it, or subtracts it.
    fn end_term(&mut self) {
        let term = self.sum.term.take().unwrap_or(0);
        let total = if self.sum.subtracts { self.sum.total - term } else { self.sum.total + term };
        self.sum.total = self.partial(total);
    }

    /// A partial result. One that is out of range is noted, and 0 stands for it.
    fn partial(&mut self, value: i128) -> i128 {
        if (LEAST..=MOST).contains(&value) {
            value
        } else {
            self.out_of_range = true;
            0
        }
    }
}
