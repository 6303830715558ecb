//! Expressions made as trees, so that their values and their levels are known without asking either side.

use crate::spelling::Spelling;
use staplehorn_difftest::random::Random;

/// The ends of the range of every partial result.
pub const LEAST: i128 = -(1 << 63);
pub const MOST: i128 = (1 << 63) - 1;
/// How many parentheses and minuses may be open.
pub const LEVELS: usize = 16;

#[derive(Clone, Copy, PartialEq, Eq, Debug)]
pub enum Operator {
    Plus,
    Minus,
    Times,
}

#[derive(Clone, Debug)]
pub enum Tree {
    Number(u128),
    Minus(Box<Tree>),
    /// Parentheses, needed or not.
    Group(Box<Tree>),
    Pair(Operator, Box<Tree>, Box<Tree>),
}

/// How close the outermost operator of a tree binds.
#[derive(Clone, Copy, PartialEq, Eq, PartialOrd, Ord)]
enum Bond {
    Sum,
    Term,
    Factor,
}

pub fn is_in_range(value: i128) -> bool {
    (LEAST..=MOST).contains(&value)
}

impl Tree {
    pub fn pair(operator: Operator, left: Tree, right: Tree) -> Tree {
        Tree::Pair(operator, Box::new(left), Box::new(right))
    }

    pub fn minus(operand: Tree) -> Tree {
        Tree::Minus(Box::new(operand))
    }

    pub fn group(inner: Tree) -> Tree {
        Tree::Group(Box::new(inner))
    }

    /// What it comes to, which may be out of range, but none if something in it is. `each` is called with the tree's result
    /// and all partial ones.
    pub fn visit(&self, each: &mut impl FnMut(i128)) -> Option<i128> {
        let mut part = |tree: &Tree| tree.visit(each).filter(|&value| is_in_range(value));
        let result = match self {
            Tree::Number(number) => i128::try_from(*number).unwrap_or(i128::MAX),
            Tree::Minus(operand) => -part(operand)?,
            Tree::Group(inner) => part(inner)?,
            Tree::Pair(operator, left, right) => {
                let (left, right) = (part(left), part(right));
                match operator {
                    Operator::Plus => left? + right?,
                    Operator::Minus => left? - right?,
                    Operator::Times => left? * right?,
                }
            }
        };
        each(result);
        Some(result)
    }

    /// The value, or none if it or a partial result is out of range.
    pub fn value(&self) -> Option<i128> {
        self.visit(&mut |_| {}).filter(|&value| is_in_range(value))
    }

    fn bond(&self) -> Bond {
        match self {
            Tree::Pair(Operator::Times, ..) => Bond::Term,
            Tree::Pair(..) => Bond::Sum,
            _ => Bond::Factor,
        }
    }

    /// The shortest tree of a value in range.
    fn leaf(value: i128) -> Tree {
        match value {
            0.. => Tree::Number(value as u128),
            LEAST => Tree::pair(Operator::Minus, Tree::minus(Tree::Number(MOST as u128)), Tree::Number(1)),
            _ => Tree::minus(Tree::Number(value.unsigned_abs())),
        }
    }

    /// A tree of this value, which is in range, as all its partial results are.
    pub fn of(r: &mut Random, value: i128, size: u32) -> Tree {
        if size == 0 || r.below(8) == 0 {
            return Tree::leaf(value);
        }
        let rest = size - 1;
        let other = any_value(r);
        match r.below(8) {
            0 => Tree::group(Tree::of(r, value, rest)),
            1 if value != LEAST => Tree::minus(Tree::of(r, -value, rest)),
            2 | 3 if is_in_range(value - other) => Tree::both(r, Operator::Plus, other, value - other, rest),
            4 | 5 if is_in_range(other - value) => Tree::both(r, Operator::Minus, other, other - value, rest),
            6 | 7 => {
                let factor = r.pick(&[1, 2, 3, 4, 5, 7, 8, 16, 32, -1, -2, 256, 65_536, 1 << 32]);
                if value % factor == 0 && is_in_range(value / factor) {
                    return Tree::both(r, Operator::Times, factor, value / factor, rest);
                }
                Tree::of(r, value, rest)
            }
            _ => Tree::of(r, value, rest),
        }
    }

    fn both(r: &mut Random, operator: Operator, left: i128, right: i128, rest: u32) -> Tree {
        let left = Tree::of(r, left, rest / 2);
        Tree::pair(operator, left, Tree::of(r, right, rest - rest / 2))
    }

    /// A tree of any value; partial results may be out of range.
    pub fn any(r: &mut Random, size: u32) -> Tree {
        if size == 0 {
            return Tree::Number(any_number(r));
        }
        let rest = size - 1;
        match r.below(8) {
            0 => Tree::group(Tree::any(r, rest)),
            1 | 2 => Tree::minus(Tree::any(r, rest)),
            3 => Tree::Number(any_number(r)),
            _ => {
                let operator = r.pick(&[Operator::Plus, Operator::Minus, Operator::Times]);
                let left = Tree::any(r, rest / 2);
                Tree::pair(operator, left, Tree::any(r, rest - rest / 2))
            }
        }
    }
}

/// A number that may stand in a tree, small or at an end of a range.
fn any_number(r: &mut Random) -> u128 {
    match r.below(8) {
        0 => {
            r.pick(&[0, 1, MOST as u128 - 1, MOST as u128, MOST as u128 + 1, u128::from(u32::MAX), 1 << 32, u128::from(u64::MAX), 1 << 64])
        }
        1 => 1 << r.below(66),
        2 => u128::from(r.next() >> r.below(64)),
        _ => u128::from(r.below(100)),
    }
}

/// A value in range.
fn any_value(r: &mut Random) -> i128 {
    let value = match r.below(6) {
        0 => r.pick(&[LEAST, LEAST + 1, -1, 0, 1, MOST - 1, MOST, i128::from(u32::MAX), 1 << 32]),
        1 => i128::from(r.next() as i64),
        2 => i128::from(r.next() as i64 >> r.below(64)),
        _ => i128::from(r.below(1_000)),
    };
    if r.below(4) == 0 && value != LEAST {
        -value
    } else {
        value
    }
}

/// A tree written down.
#[derive(Default)]
pub struct Written {
    pub tokens: Vec<String>,
    /// How many levels are open at most.
    pub deepest: usize,
    /// The token that opens one level too many.
    pub too_deep: Option<usize>,
}

/// How a tree is written: needless parentheses one time in so many, never for 0; and whether numbers have any spelling.
pub struct Style {
    pub needless: u64,
    pub spellings: bool,
}

struct Writer<'r> {
    r: &'r mut Random,
    style: Style,
    level: usize,
    out: Written,
}

impl Tree {
    pub fn written(&self, r: &mut Random, style: Style) -> Written {
        let mut writer = Writer { r, style, level: 0, out: Written::default() };
        writer.tree(self, Bond::Sum);
        writer.out
    }
}

impl Writer<'_> {
    /// A tree where one that binds so closely at least may stand.
    fn tree(&mut self, tree: &Tree, least: Bond) {
        let needless = self.style.needless > 0 && self.r.below(self.style.needless) == 0;
        if tree.bond() < least || needless {
            return self.group(tree);
        }
        match tree {
            Tree::Number(number) => self.number(*number),
            Tree::Minus(operand) => {
                self.open("-");
                self.tree(operand, Bond::Factor);
                self.level -= 1;
            }
            Tree::Group(inner) => self.group(inner),
            Tree::Pair(operator, left, right) => {
                let (mark, first, second) = match operator {
                    Operator::Plus => ("+", Bond::Sum, Bond::Term),
                    Operator::Minus => ("-", Bond::Sum, Bond::Term),
                    Operator::Times => ("*", Bond::Term, Bond::Factor),
                };
                self.tree(left, first);
                self.out.tokens.push(mark.into());
                self.tree(right, second);
            }
        }
    }

    fn group(&mut self, inner: &Tree) {
        self.open("(");
        self.tree(inner, Bond::Sum);
        self.out.tokens.push(")".into());
        self.level -= 1;
    }

    fn open(&mut self, mark: &str) {
        if self.level == LEVELS {
            self.out.too_deep.get_or_insert(self.out.tokens.len());
        }
        self.level += 1;
        self.out.deepest = self.out.deepest.max(self.level);
        self.out.tokens.push(mark.into());
    }

    fn number(&mut self, number: u128) {
        let any = self.style.spellings && self.r.below(3) == 0;
        let text = if any { Spelling::any(self.r).of(number) } else { number.to_string() };
        self.out.tokens.push(text);
    }
}

/// The text of tokens, and where each starts. Spaces stand between them one time in so many, never for 0, but always
/// between two that would become one.
pub fn spaced(r: &mut Random, tokens: &[String], one_in: u64) -> (String, Vec<usize>) {
    let is_word = |c: char| c.is_ascii_alphanumeric() || matches!(c, '_' | '$' | '%');
    let (mut text, mut starts) = (String::new(), Vec::with_capacity(tokens.len()));
    for token in tokens {
        if one_in > 0 && r.below(one_in) == 0 {
            text.push_str(&" ".repeat(1 + r.below(3) as usize));
        } else if text.ends_with(is_word) && token.starts_with(is_word) {
            text.push(' ');
        }
        starts.push(text.len());
        text.push_str(token);
    }
    (text, starts)
}

#[cfg(test)]
mod tests {
    use super::*;

    fn text(tree: &Tree) -> String {
        tree.written(&mut Random::new(1), Style { needless: 0, spellings: false }).tokens.concat()
    }

    #[test]
    fn a_tree_is_written_with_the_parentheses_that_it_needs() {
        let [one, two, three] = [1, 2, 3].map(Tree::Number);
        let sum = |operator, left: &Tree, right: &Tree| Tree::pair(operator, left.clone(), right.clone());
        let (plus, minus, times) = (Operator::Plus, Operator::Minus, Operator::Times);
        assert_eq!(text(&sum(minus, &sum(minus, &three, &two), &one)), "3-2-1");
        assert_eq!(text(&sum(minus, &three, &sum(minus, &two, &one))), "3-(2-1)");
        assert_eq!(text(&sum(plus, &three, &sum(plus, &two, &one))), "3+(2+1)");
        assert_eq!(text(&sum(times, &sum(plus, &one, &two), &three)), "(1+2)*3");
        assert_eq!(text(&sum(plus, &one, &sum(times, &two, &three))), "1+2*3");
        assert_eq!(text(&sum(times, &two, &sum(times, &two, &three))), "2*(2*3)");
        assert_eq!(text(&sum(times, &Tree::minus(two.clone()), &Tree::minus(three.clone()))), "-2*-3");
        assert_eq!(text(&Tree::minus(Tree::minus(sum(times, &two, &three)))), "--(2*3)");
    }

    #[test]
    fn a_tree_of_a_value_has_it() {
        let mut r = Random::new(8);
        for _ in 0..20_000 {
            let (value, size) = (any_value(&mut r), r.below(12) as u32);
            let tree = Tree::of(&mut r, value, size);
            assert_eq!(tree.value(), Some(value), "{tree:?}");
        }
    }

    #[test]
    fn levels() {
        let nested = |count: usize| (0..count).fold(Tree::Number(1), |tree, _| Tree::group(tree));
        for (count, too_deep) in [(0, None), (15, None), (16, None), (17, Some(16)), (20, Some(16))] {
            let written = nested(count).written(&mut Random::new(1), Style { needless: 0, spellings: false });
            assert_eq!((written.deepest, written.too_deep), (count, too_deep));
        }
    }

    #[test]
    fn no_partial_result_is_excused() {
        let large = Tree::Number(1 << 63);
        assert_eq!(Tree::pair(Operator::Times, Tree::Number(0), large.clone()).value(), None);
        assert_eq!(Tree::minus(large).value(), None);
        assert_eq!(Tree::leaf(LEAST).value(), Some(LEAST));
    }
}
