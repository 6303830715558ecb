//! The text of a statement, kept as tokens, so that its maker knows where each part stands however it is spaced.

use crate::spelling::Number;
use staplehorn_difftest::random::Random;

/// Operands by what they are for. `Only` is that of a statement with no other name that is looked up.
#[derive(Clone, Copy, PartialEq, Eq, PartialOrd, Ord, Debug)]
pub enum Operand {
    Only,
    D,
    A,
    B,
    Meta,
    Idesc,
}

/// What a token is in its statement.
#[derive(Clone, Copy, PartialEq, Eq, Debug)]
pub enum Role {
    Opcode,
    /// The `[` of an address.
    Open(Operand),
    Name(Operand),
    /// A number, or the first token of an expression in its place.
    Number(Operand),
    /// Another token of an expression.
    More,
    Register,
    Predicate,
    Mark,
}

/// How many spaces stand between tokens.
#[derive(Clone, Copy, PartialEq, Eq, Debug)]
pub enum Spacing {
    /// One behind the opcode and one behind each comma.
    Plain,
    /// None but where two tokens would become one.
    Tight,
    /// Any number anywhere.
    Loose,
}

/// What a token is to those who read: the classes that a form asks for.
#[derive(Clone, Copy, PartialEq, Eq, Debug)]
pub enum Class {
    Name,
    Number,
    Mark(u8),
    /// A run that is neither name nor number.
    Neither,
    /// A byte that starts no token.
    Byte,
}

#[derive(Clone, Default)]
pub struct Text {
    bytes: String,
    /// The end of each token, and its role.
    tokens: Vec<(usize, Role)>,
}

impl Text {
    pub fn new(opcode: &str) -> Self {
        let mut text = Text::default();
        text.push(opcode, Role::Opcode);
        text
    }

    pub fn push(&mut self, token: &str, role: Role) {
        self.bytes.push_str(token);
        self.tokens.push((self.bytes.len(), role));
    }

    /// A number or an expression without spaces.
    pub fn number(&mut self, expression: &str, operand: Operand) {
        let mut role = Role::Number(operand);
        let mut rest = expression;
        while !rest.is_empty() {
            let length = rest.find(|c| !is_word(c)).unwrap_or(rest.len()).max(1);
            self.push(&rest[..length], role);
            (role, rest) = (Role::More, &rest[length..]);
        }
    }

    /// Each character is a token.
    pub fn marks(&mut self, marks: &str) {
        for c in marks.chars() {
            self.bytes.push(c);
            self.tokens.push((self.bytes.len(), Role::Mark));
        }
    }

    /// How many tokens there are.
    pub fn count(&self) -> usize {
        self.tokens.len()
    }

    /// How many bytes the tokens have.
    pub fn length(&self) -> usize {
        self.bytes.len()
    }

    pub fn token(&self, place: usize) -> &str {
        let start = if place == 0 { 0 } else { self.tokens[place - 1].0 };
        &self.bytes[start..self.tokens[place].0]
    }

    pub fn role(&self, place: usize) -> Role {
        self.tokens[place].1
    }

    /// The first token in this role.
    pub fn find(&self, role: Role) -> Option<usize> {
        self.tokens.iter().position(|token| token.1 == role)
    }

    /// The first so many tokens.
    pub fn front(&self, count: usize) -> Text {
        let mut front = Text::default();
        front.copy(self, 0..count);
        front
    }

    /// Adds tokens of another text.
    pub fn copy(&mut self, other: &Text, places: std::ops::Range<usize>) {
        for place in places {
            self.push(other.token(place), other.role(place));
        }
    }

    /// The text with its spaces; where each token starts goes to `starts`, counted from 0.
    pub fn spaced(&self, r: &mut Random, spacing: Spacing, starts: &mut Vec<usize>) -> String {
        let mut text = String::with_capacity(self.bytes.len() + self.tokens.len());
        starts.clear();
        for place in 0..self.count() {
            let token = self.token(place);
            if place > 0 {
                let before = self.token(place - 1);
                let is_opcode = place == 1 && self.role(0) == Role::Opcode;
                let plain = usize::from(before == "," || is_opcode && token != ";");
                let wanted = match spacing {
                    Spacing::Plain => plain,
                    Spacing::Tight => 0,
                    Spacing::Loose => (r.below(7) as usize).saturating_sub(3),
                };
                let least = usize::from(run_together(before, is_opcode, token));
                text.extend(std::iter::repeat_n(' ', wanted.max(least)));
            }
            starts.push(text.len());
            text.push_str(token);
        }
        text
    }

    /// The text with one space where the writer puts it.
    pub fn plain(&self) -> String {
        self.spaced(&mut Random::new(0), Spacing::Plain, &mut Vec::new())
    }

    /// The classes of token that the form can have at this place behind the opcode, given all tokens before it.
    pub fn wanted(&self, place: usize) -> Vec<Class> {
        let marks = |marks: &[u8]| marks.iter().map(|&mark| Class::Mark(mark)).collect();
        let token = self.token(place);
        if let Some(wanted) = self.wanted_in_expression(place) {
            return wanted;
        }
        match (self.role(place), self.role(place - 1)) {
            (Role::Open(Operand::A) | Role::Name(Operand::A), before) if !matches!(before, Role::Open(_)) => {
                vec![Class::Name, Class::Mark(b'[')]
            }
            (Role::Open(_), _) => marks(b"["),
            (Role::Name(_) | Role::Register | Role::Predicate, _) => vec![Class::Name],
            (_, Role::Register) if self.registers(place) == 128 => marks(b"}"),
            (_, Role::Register) => marks(b",}"),
            // an offset may follow a name in brackets, but for the one of an alloc
            (_, Role::Name(_)) if matches!(token, "+" | "]") && !self.token(0).starts_with("tcgen05.alloc") => marks(b"+]"),
            _ => marks(token.as_bytes()),
        }
    }

    /// The classes where an expression starts or goes on, or ends before this place.
    fn wanted_in_expression(&self, place: usize) -> Option<Vec<Class>> {
        let is_first = matches!(self.role(place), Role::Number(_));
        if !is_first && !matches!(self.role(place - 1), Role::Number(_) | Role::More) {
            return None;
        }
        let before = self.token(place - 1);
        if is_first || class(before) != Class::Number && before != ")" {
            return Some(vec![Class::Number, Class::Mark(b'-'), Class::Mark(b'(')]);
        }
        let start = (0..place).rfind(|&place| matches!(self.role(place), Role::Number(_)))?;
        let count = |mark: &str| (start..place).filter(|&place| self.token(place) == mark).count();
        let end = if count("(") > count(")") {
            b')'
        } else if self.token(start - 1) == "+" {
            b']'
        } else {
            b';'
        };
        Some([b'+', b'-', b'*', end].map(Class::Mark).into())
    }

    /// How many registers stand before this place.
    fn registers(&self, place: usize) -> usize {
        self.tokens[..place].iter().filter(|token| token.1 == Role::Register).count()
    }
}

fn is_word(c: char) -> bool {
    c.is_ascii_alphanumeric() || c == '_' || c == '$'
}

/// Would two tokens side by side be read as others? A `%` belongs to the word behind it.
fn run_together(before: &str, is_opcode: bool, token: &str) -> bool {
    let goes_on = |c: char| if is_opcode { c.is_ascii_alphanumeric() || matches!(c, '_' | '.' | ':') } else { is_word(c) };
    let open = if is_opcode { before.ends_with(goes_on) } else { before.ends_with(is_word) || before.ends_with('%') };
    open && token.starts_with(goes_on)
}

/// The class of a token behind the opcode.
pub fn class(token: &str) -> Class {
    let bytes = token.as_bytes();
    if bytes.len() == 1 && b"[]{}+-*(),;".contains(&bytes[0]) {
        return Class::Mark(bytes[0]);
    }
    let run = token.trim_start_matches('%');
    if run.is_empty() || !run.chars().all(is_word) {
        return Class::Byte;
    }
    let percents = token.len() - run.len();
    let is_number = percents == 0 && Number::new(run).is_some();
    let letter = run.starts_with(|c: char| c.is_ascii_alphabetic());
    let is_name = match percents {
        0 if letter => run.len() <= 16,
        0 => run.starts_with(['_', '$']) && (2..=16).contains(&run.len()),
        1 => run.len() <= 15,
        _ => false,
    };
    if is_number {
        Class::Number
    } else if is_name {
        Class::Name
    } else {
        Class::Neither
    }
}
