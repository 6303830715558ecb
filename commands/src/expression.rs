//! A constant expression as it stands in a text, taken apart to say which part of it is out of range and which levels are open. Whether
//! it is taken, and what it comes to, is the library's answer: `tests/expressions.rs` holds this reading to it.

/// How many parentheses and unary minuses may be open at once.
pub const LEVELS: usize = 16;
/// The least and the most that a partial result may be.
pub const LEAST: i128 = -(1 << 63);
pub const MOST: i128 = (1 << 63) - 1;

/// A part of an expression: its place in the text, and its value, if 128 bits hold that and what it is made of.
#[derive(Clone, Copy, PartialEq, Eq, Debug)]
pub struct Part {
    pub from: usize,
    pub to: usize,
    pub value: Option<i128>,
}

/// An expression that reads.
#[derive(Clone, Copy, PartialEq, Eq, Debug)]
pub struct Expression {
    /// All of it, with its exact value, whatever its partial results are.
    pub whole: Part,
    /// The first of its partial results that is out of range, in the order in which they are made.
    pub beyond: Option<Part>,
    /// It is one number and nothing else.
    pub alone: bool,
}

/// Why a place that takes numbers from 0 up to a most does not take an expression.
#[derive(Clone, Copy, PartialEq, Eq, Debug)]
pub enum Out {
    /// A partial result is out of range; it may be all of it.
    Partial(Part),
    Negative(i128),
    /// It is over the most; none where it has over 127 bits.
    Large(Option<i128>),
}

impl Expression {
    /// Why it is not taken, if it is not.
    pub fn out(&self, most: i128) -> Option<Out> {
        match (self.beyond, self.whole.value) {
            (Some(part), _) if !self.alone => Some(Out::Partial(part)),
            (_, Some(value)) if value < 0 => Some(Out::Negative(value)),
            (_, Some(value)) if value <= most => None,
            (_, value) => Some(Out::Large(value)),
        }
    }
}

/// Where a text does not go on as an expression.
#[derive(Clone, PartialEq, Eq, Debug)]
pub struct Stop {
    /// The place, spaces before it left out.
    pub at: usize,
    /// Where the levels open that are open there, the outermost first.
    pub open: Vec<usize>,
    /// A number, a unary minus or a `(` must stand there; else an operator or a `)`.
    pub operand: bool,
}

impl Stop {
    /// The parentheses that are open there, the outermost first.
    pub fn parentheses(&self, text: &[u8]) -> Vec<usize> {
        self.open.iter().copied().filter(|&at| text[at] == b'(').collect()
    }

    /// What stands there would open a level too many.
    pub fn is_nested(&self, text: &[u8]) -> bool {
        self.operand && self.open.len() == LEVELS && matches!(text.get(self.at), Some(b'-' | b'('))
    }
}

/// Reads the expression that begins at a place; it ends before what is no part of it.
pub fn read(text: &[u8], from: usize) -> Result<Expression, Stop> {
    deep(text, from, LEVELS)
}

/// The same, nested to another depth.
pub fn deep(text: &[u8], from: usize, levels: usize) -> Result<Expression, Stop> {
    let mut reader = Reader { text, at: from, open: Vec::new(), beyond: None, levels };
    let whole = reader.sum()?;
    let alone = text[whole.from..whole.to].iter().all(u8::is_ascii_alphanumeric);
    Ok(Expression { whole, beyond: reader.beyond, alone })
}

/// The value of a number in one of the four spellings: none if it is none, an inner none if it has over 128 bits.
pub fn number(run: &str) -> Option<Option<u128>> {
    let digits = run.strip_suffix('U').unwrap_or(run);
    let (base, digits) = match digits.as_bytes() {
        [b'0', b'x' | b'X', ..] => (16, &digits[2..]),
        [b'0', b'b' | b'B', ..] => (2, &digits[2..]),
        [b'0', _, ..] => (8, &digits[1..]),
        _ => (10, digits),
    };
    let is_number = !digits.is_empty() && digits.chars().all(|digit| digit.is_digit(base));
    is_number.then(|| u128::from_str_radix(digits, base).ok())
}

struct Reader<'a> {
    text: &'a [u8],
    at: usize,
    open: Vec<usize>,
    beyond: Option<Part>,
    levels: usize,
}

type Read = Result<Part, Stop>;

impl Reader<'_> {
    /// The next place that has no space.
    fn next(&self) -> usize {
        let rest = &self.text[self.at..];
        self.at + rest.iter().take_while(|&&b| b == b' ').count()
    }

    /// Passes one of some marks, if it stands there, and gives it.
    fn take(&mut self, marks: &[u8]) -> Option<u8> {
        let at = self.next();
        let mark = self.text.get(at).copied().filter(|b| marks.contains(b));
        self.at = if mark.is_some() { at + 1 } else { self.at };
        mark
    }

    fn stop<T>(&self, operand: bool) -> Result<T, Stop> {
        Err(Stop { at: self.next(), open: self.open.clone(), operand })
    }

    fn sum(&mut self) -> Read {
        self.chain(b"+-", Self::product)
    }

    fn product(&mut self) -> Read {
        self.chain(b"*", Self::factor)
    }

    /// Operands with operators between them, taken in from left to right.
    fn chain(&mut self, operators: &[u8], operand: fn(&mut Self) -> Read) -> Read {
        let mut left = operand(self)?;
        while let Some(operator) = self.take(operators) {
            let right = operand(self)?;
            let value = left.value.zip(right.value).and_then(|(a, b)| applied(operator, a, b));
            left = self.made(left.from, right.to, value);
        }
        Ok(left)
    }

    /// A number, a minus and what it belongs to, or what stands in parentheses.
    fn factor(&mut self) -> Read {
        let from = self.next();
        match self.text.get(from) {
            Some(b'-' | b'(') if self.open.len() == self.levels => self.stop(true),
            Some(b'-') => {
                let inner = self.level(from, Self::factor)?;
                self.open.pop();
                Ok(self.made(from, inner.to, inner.value.and_then(i128::checked_neg)))
            }
            Some(b'(') => {
                let inner = self.level(from, Self::sum)?;
                if self.take(b")").is_none() {
                    return self.stop(false);
                }
                self.open.pop();
                Ok(Part { from, to: self.at, value: inner.value })
            }
            _ => self.number(from),
        }
    }

    /// What stands behind the mark that opens a level.
    fn level(&mut self, mark: usize, inner: fn(&mut Self) -> Read) -> Read {
        self.open.push(mark);
        self.at = mark + 1;
        inner(self)
    }

    fn number(&mut self, from: usize) -> Read {
        let run = self.text[from..].iter().take_while(|b| b.is_ascii_alphanumeric() || b"_$".contains(b)).count();
        let Some(value) = number(&String::from_utf8_lossy(&self.text[from..from + run])) else { return self.stop(true) };
        self.at = from + run;
        Ok(self.made(from, self.at, value.and_then(|value| i128::try_from(value).ok())))
    }

    /// A partial result.
    fn made(&mut self, from: usize, to: usize, value: Option<i128>) -> Part {
        let part = Part { from, to, value };
        if !value.is_some_and(|value| (LEAST..=MOST).contains(&value)) {
            self.beyond.get_or_insert(part);
        }
        part
    }
}

fn applied(operator: u8, a: i128, b: i128) -> Option<i128> {
    match operator {
        b'+' => a.checked_add(b),
        b'-' => a.checked_sub(b),
        _ => a.checked_mul(b),
    }
}
