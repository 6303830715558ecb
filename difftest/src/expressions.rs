//! Expressions in every place of a statement that takes a number. Each text is read and written by both sides. The maker of a
//! tree works its value out while it makes it, and both sides are held to that; so they are to the column of a token that was
//! put where none of its sort can stand. Single bytes are changed as well. A share of the texts are lines of whole sheets.

use crate::places::{Known, Place, Texts, LONGEST, PLACES};
use crate::sheets::{Proved, Side};
use crate::trees::{is_in_range, spaced, Operator, Style, Tree, Written, LEAST, LEVELS, MOST};
use staplehorn_difftest::counts::Counts;
use staplehorn_difftest::random::Random;

/// Results and partial results on both sides of what is a limit somewhere, with what the counts call them.
const EDGES: [(i128, &str, &str); 13] = [
    (LEAST - 1, "result -2^63-1", "partial -2^63-1"),
    (LEAST, "result -2^63", "partial -2^63"),
    (LEAST + 1, "result -2^63+1", "partial -2^63+1"),
    (-1, "result -1", "partial -1"),
    (0, "result 0", "partial 0"),
    (1, "result 1", "partial 1"),
    ((1 << 32) - 1, "result 2^32-1", "partial 2^32-1"),
    (1 << 32, "result 2^32", "partial 2^32"),
    (MOST - 1, "result 2^63-2", "partial 2^63-2"),
    (MOST, "result 2^63-1", "partial 2^63-1"),
    (MOST + 1, "result 2^63", "partial 2^63"),
    ((1 << 64) - 1, "result 2^64-1", "partial 2^64-1"),
    (1 << 64, "result 2^64", "partial 2^64"),
];

/// Values that places of a sheet ask for.
const USUAL: [i128; 12] = [0, 1, 31, 32, 64, 128, 256, 512, 65_536, 2_097_152, 0x0810_0010, -32];

/// Tokens that cannot stand where an operand is wanted, and where an operator or an end is wanted.
const NO_OPERAND: [&str; 14] = [")", "+", "*", "]", ";", ",", "/", "x", "%r", "08", "0x", "64u", "~", "["];
const NO_OPERATOR: [&str; 14] = ["(", "1", "0x2", "/", "%", "x", "%r", "08", ",", "[", "{", "~", "<", "."];

/// Bytes that are put in.
const BYTES: &[u8] = b"+-*()+-*()0123456789 xUb;,[]%/^._~";
/// Bytes of all short texts.
const SHORT: &[u8] = b"1+-*() 2";

#[derive(Clone, Copy, PartialEq)]
enum Sort {
    Parentheses,
    Minuses,
    Mixed,
}

const SORTS: [(Sort, &str); 3] =
    [(Sort::Parentheses, "levels of parentheses"), (Sort::Minuses, "levels of minuses"), (Sort::Mixed, "levels of both")];

struct Expressions<'a, S: Side> {
    texts: Texts<'a, S>,
    r: Random,
}

impl<S: Side> Expressions<'_, S> {
    fn counts(&mut self) -> &mut Counts {
        &mut self.texts.c.counts
    }

    fn any_place(&mut self) -> &'static Place {
        &PLACES[self.r.below(PLACES.len() as u64) as usize]
    }

    fn any_style(&mut self) -> Style {
        Style { needless: self.r.pick(&[0, 0, 4, 12]), spellings: self.r.below(3) == 0 }
    }

    /// A tree as its maker knows it. Answers how it was written.
    fn tree(&mut self, what: &'static str, place: &Place, tree: &Tree, style: Style) -> Written {
        let written = tree.written(&mut self.r, style);
        let one_in = self.r.pick(&[0, 0, 2, 9]);
        let (middle, starts) = spaced(&mut self.r, &written.tokens, one_in);
        let end = if one_in == 2 { "  " } else { "" };
        let text = place.text(format!("{middle}{end}").as_bytes());
        let known = known(place, tree, &written, &starts, text.len());
        let reason = self.texts.compare(place, &text, Some(known));
        self.counts().seen(what, reason);
        if written.too_deep.is_none() {
            self.count_edges(tree, reason, written.tokens.len() == 1);
        }
        written
    }

    /// Counts what the tree comes to, and what it comes by.
    fn count_edges(&mut self, tree: &Tree, reason: u32, alone: bool) {
        let mut partial = Vec::new();
        let result = tree.visit(&mut |value| partial.push(value));
        for (edge, of_result, of_partial) in EDGES {
            if result == Some(edge) {
                self.counts().seen(if alone && edge > MOST { "alone, over 2^63-1" } else { of_result }, reason);
            }
            if partial.contains(&edge) {
                self.counts().seen(of_partial, reason);
            }
        }
    }

    /// Trees of every sort, each in a place, and what becomes of one when it is changed.
    fn turn(&mut self) {
        let place = self.any_place();
        let (size, style) = (self.r.below(10) as u32, self.any_style());
        let tree = Tree::any(&mut self.r, size);
        self.tree("any tree", place, &tree, style);
        let value = if self.r.below(2) == 0 { self.r.pick(&USUAL) } else { i128::from(self.r.next() as u32 >> self.r.below(32)) };
        let (size, style) = (1 + self.r.below(10) as u32, self.any_style());
        let tree = Tree::of(&mut self.r, value, size);
        let written = self.tree("tree of a value", place, &tree, style);
        self.broken(place, &written.tokens);
        self.cut(place, &written.tokens);
        for _ in 0..4 {
            self.changed(place, &written.tokens);
        }
        let place = self.any_place();
        let tree = edge_tree(&mut self.r);
        let style = self.any_style();
        let written = self.tree("tree at an end", place, &tree, style);
        self.changed(place, &written.tokens);
    }

    /// A token that cannot stand there, put in or in the place of another: the column is its own.
    fn broken(&mut self, place: &Place, tokens: &[String]) {
        let at = self.r.below(tokens.len() as u64 + 1) as usize;
        let depth = tokens[..at].iter().map(|token| i32::from(token == "(") - i32::from(token == ")")).sum::<i32>();
        let wants_operand = at == 0 || !is_end(&tokens[at - 1]);
        let ends: &[&str] = if depth == 0 { &[")"] } else { &["]", ";"] };
        let odd = match (wants_operand, self.r.below(3)) {
            (true, _) => self.r.pick(&NO_OPERAND),
            (false, 0) => self.r.pick(ends),
            (false, _) => self.r.pick(&NO_OPERATOR),
        };
        let mut broken = tokens[..at].to_vec();
        broken.push(odd.into());
        broken.extend_from_slice(&tokens[(at + self.r.below(2) as usize).min(tokens.len())..]);
        let one_in = self.r.pick(&[0, 0, 4]);
        let (middle, starts) = spaced(&mut self.r, &broken, one_in);
        let known = Known::refused(3, place.before.len() + starts[at] + 1);
        self.texts.compare(place, &place.text(middle.as_bytes()), Some(known));
        self.counts().seen(if wants_operand { "no operand" } else { "no operator" }, 3);
    }

    /// The text ends in the expression or behind it: one past the end.
    fn cut(&mut self, place: &Place, tokens: &[String]) {
        let count = self.r.below(tokens.len() as u64 + 1) as usize;
        let (middle, _) = spaced(&mut self.r, &tokens[..count], 5);
        let end = " ".repeat((self.r.below(6) as usize).saturating_sub(3));
        let text = format!("{}{middle}{end}", place.before);
        self.texts.compare(place, text.as_bytes(), Some(Known::refused(3, text.len() + 1)));
        self.counts().seen("cut", 3);
    }

    /// A byte exchanged, left out or put in.
    fn changed(&mut self, place: &Place, tokens: &[String]) {
        let one_in = self.r.pick(&[0, 6]);
        let mut middle = spaced(&mut self.r, tokens, one_in).0.into_bytes();
        let at = self.r.below(middle.len() as u64) as usize;
        let byte = if self.r.below(30) == 0 { self.r.next() as u8 } else { self.r.pick(BYTES) };
        let what = match self.r.below(3) {
            0 => {
                middle[at] = byte;
                "byte exchanged"
            }
            1 => {
                middle.remove(at);
                "byte left out"
            }
            _ => {
                middle.insert(at, byte);
                "byte put in"
            }
        };
        let reason = self.texts.compare(place, &place.text(&middle), None);
        self.counts().seen(what, reason);
    }

    /// Around the last level that is taken, in every place and of every sort.
    fn levels(&mut self) {
        for count in LEVELS - 2..=LEVELS + 2 {
            for (sort, name) in SORTS {
                for place in &PLACES {
                    let tree = nested(&mut self.r, count, sort);
                    let written = self.tree(name, place, &tree, Style { needless: 0, spellings: false });
                    self.counts().seen("levels", written.deepest as u32);
                    let at = written.too_deep.map_or(written.tokens.len(), |at| at + 1);
                    self.broken(place, &written.tokens[..at.min(written.tokens.len()) - 1]);
                }
            }
        }
    }

    /// The ends themselves, alone and as expressions.
    fn ends(&mut self, places: &[Place]) {
        for (edge, _, _) in EDGES {
            for place in places {
                if edge >= 0 {
                    let number = Tree::Number(edge as u128);
                    for tree in [number.clone(), Tree::group(number.clone()), Tree::minus(Tree::minus(number))] {
                        self.tree("end of a range", place, &tree, Style { needless: 0, spellings: true });
                    }
                }
                for _ in 0..20 {
                    let (tree, style) = (reach(&mut self.r, edge), self.any_style());
                    self.tree("end of a range", place, &tree, style);
                }
            }
        }
    }

    /// Every text of a few bytes up to a length.
    fn short(&mut self, longest: u32) {
        let count = SHORT.len();
        for length in 1..=longest {
            for number in 0..count.pow(length) {
                let middle: Vec<u8> = (0..length).map(|at| SHORT[number / count.pow(at) % count]).collect();
                let place = &PLACES[number % PLACES.len()];
                let reason = self.texts.compare(place, &place.text(&middle), None);
                self.counts().seen("short text", reason);
            }
        }
    }

    /// Expressions up to the longest text, and past it.
    fn long(&mut self, places: &[Place]) {
        let room = |place: &Place| LONGEST - place.before.len() - place.after.len();
        for place in places {
            for unit in ["1+", "1-", "0*", "--0-", "(1)-", "2*3-5-", "(-(1-1))+"] {
                for extra in [0, 1, 2, 3, 40] {
                    let times = (room(place) - 1 + extra) / unit.len();
                    let middle = format!("{}1", unit.repeat(times));
                    let reason = self.texts.compare(place, &place.text(middle.as_bytes()), None);
                    self.counts().seen("1,000 bytes and more", reason);
                }
            }
        }
    }
}

/// Can an operator stand behind this token?
fn is_end(token: &str) -> bool {
    token == ")" || token.starts_with(|c: char| c.is_ascii_digit())
}

/// What the maker of a tree knows: of a text of so many bytes, in which the tokens start there.
fn known(place: &Place, tree: &Tree, written: &Written, starts: &[usize], length: usize) -> Known {
    let column = |token: usize| place.before.len() + starts[token] + 1;
    if let Some(token) = written.too_deep {
        return Known::refused(3, column(token));
    }
    if length > LONGEST {
        return Known::refused(3, length + 1);
    }
    let value = match (tree, written.tokens.len()) {
        (Tree::Number(number), 1) => Some(*number),
        _ => tree.value().and_then(|value| u128::try_from(value).ok()),
    };
    match value.filter(|&value| value <= place.limit.into()) {
        Some(value) => Known::taken(value),
        None => Known::refused(4, column(0)),
    }
}

/// A pair whose result is at an end of a range, or one past it; all before it is in range.
fn reach(r: &mut Random, edge: i128) -> Tree {
    loop {
        let other = match r.below(3) {
            0 => r.pick(&[1, 2, -1, 1 << 32, MOST, LEAST, LEAST + 1, edge / 2]),
            1 => i128::from(r.next() as i64),
            _ => i128::from(r.below(1_000)),
        };
        let (operator, left, right) = match r.below(4) {
            0 => (Operator::Plus, other, edge - other),
            1 => (Operator::Minus, other, other - edge),
            2 if other != 0 && edge % other == 0 => (Operator::Times, other, edge / other),
            3 if edge == -LEAST => return Tree::minus(Tree::of(r, LEAST, 3)),
            _ => continue,
        };
        if is_in_range(left) && is_in_range(right) {
            let sizes = (r.below(3) as u32, r.below(3) as u32);
            let left = Tree::of(r, left, sizes.0);
            return Tree::pair(operator, left, Tree::of(r, right, sizes.1));
        }
    }
}

/// A tree that comes by an end of a range, and may come back from it.
fn edge_tree(r: &mut Random) -> Tree {
    let (edge, _, _) = r.pick(&EDGES);
    let tree = reach(r, edge);
    let wanted = i128::from(r.below(1_000));
    match r.below(5) {
        0 => tree,
        1 => Tree::pair(Operator::Times, tree, Tree::Number(0)),
        2 => Tree::pair(Operator::Times, Tree::Number(0), tree),
        3 if is_in_range(wanted - edge) => Tree::pair(Operator::Plus, tree, Tree::of(r, wanted - edge, 1)),
        _ if is_in_range(wanted + edge) => Tree::pair(Operator::Minus, Tree::of(r, wanted + edge, 1), tree),
        _ => tree,
    }
}

/// So many levels around a number, with operands beside some of them.
fn nested(r: &mut Random, count: usize, sort: Sort) -> Tree {
    let mut tree = Tree::Number(u128::from(r.below(3)));
    for _ in 0..count {
        let is_group = sort == Sort::Parentheses || sort == Sort::Mixed && r.below(2) == 0;
        if !is_group {
            tree = Tree::minus(tree);
            continue;
        }
        tree = Tree::group(beside(r, tree));
    }
    beside(r, tree)
}

/// The tree with another operand before it or behind it, or alone.
fn beside(r: &mut Random, tree: Tree) -> Tree {
    let (operator, other) = (r.pick(&[Operator::Plus, Operator::Minus, Operator::Times]), Tree::Number(u128::from(r.below(4))));
    match r.below(6) {
        0 => Tree::pair(operator, other, tree),
        1 => Tree::pair(operator, tree, other),
        _ => tree,
    }
}

/// How much is compared.
struct Amount {
    /// Turns of what is made at random, and rounds of levels.
    turns: u64,
    levels: u64,
    /// The longest of all short texts.
    longest: u32,
    /// How many places have the ends of ranges and long texts.
    places: usize,
}

const ALL: Amount = Amount { turns: 85_000, levels: 150, longest: 6, places: PLACES.len() };

fn compare<S: Side>(side: &S, amount: &Amount) -> Counts {
    let mut e = Expressions { texts: Texts::new(side), r: Random::new(7) };
    e.ends(&PLACES[..amount.places]);
    e.long(&PLACES[..amount.places]);
    e.short(amount.longest);
    for _ in 0..amount.levels {
        e.levels();
    }
    for _ in 0..amount.turns {
        e.turn();
    }
    e.texts.c.counts
}

/// What must have been seen, and how often at least.
fn wanted() -> Vec<(&'static str, u32, u64)> {
    let mut wanted = vec![("texts", 0, 1_000_000), ("cut", 3, 50_000), ("no operand", 3, 20_000), ("no operator", 3, 20_000)];
    for what in ["known answers", "known texts", "known sheets"] {
        wanted.extend([(what, 0, 1_000), (what, 3, 10_000), (what, 4, 1_000)]);
    }
    for what in ["any tree", "tree of a value", "tree at an end", "byte exchanged", "byte left out", "byte put in", "short text"] {
        wanted.extend([(what, 0, 1_000), (what, 4, 1_000)]);
    }
    wanted.extend(["byte exchanged", "byte left out", "byte put in", "short text"].map(|what| (what, 3, 10_000)));
    for place in &PLACES {
        wanted.extend([0, 3, 4].map(|reason| (place.name, reason, 5_000)));
    }
    for (edge, of_result, of_partial) in EDGES {
        let reason = if (0..=MOST).contains(&edge) { 0 } else { 4 };
        wanted.extend([(of_result, reason, 100), (of_partial, 4, 300)]);
        if is_in_range(edge) {
            wanted.push((of_partial, 0, 300));
        }
    }
    wanted.extend([
        ("alone, over 2^63-1", 0, 2),
        ("alone, over 2^63-1", 4, 20),
        ("1,000 bytes and more", 0, 10),
        ("1,000 bytes and more", 3, 10),
    ]);
    for (_, name) in SORTS {
        wanted.extend([0, 3, 4].map(|reason| (name, reason, 1_000)));
    }
    wanted.extend((LEVELS as u32 - 1..=LEVELS as u32 + 1).map(|level| ("levels", level, 4_000)));
    wanted.extend([0, 3, 4, 8, 9, 14].map(|reason| ("sheets", reason, 1_000)));
    wanted
}

pub fn run() -> bool {
    compare(&Proved, &ALL).finish("expressions", &wanted())
}

#[cfg(test)]
mod wrong;

#[cfg(test)]
mod tests {
    use super::wrong::{Mistake, Wrong};
    use super::*;
    use crate::sheets::Reference;

    const FEW: Amount = Amount { turns: 500, levels: 2, longest: 3, places: 2 };

    fn is_found(mistake: Mistake) -> bool {
        compare(&Wrong(mistake), &FEW).differences() > 0
    }

    #[test]
    fn the_reference_agrees_with_itself() {
        assert_eq!(compare(&Reference, &FEW).differences(), 0);
    }

    #[test]
    fn a_reader_without_mistakes_agrees() {
        let more = Amount { turns: 5_000, ..FEW };
        assert_eq!(compare(&Wrong(Mistake::None), &more).differences(), 0);
    }

    #[test]
    fn wrong_readers_are_found() {
        for mistake in Mistake::ALL {
            assert!(is_found(mistake), "{mistake:?}");
        }
    }

    /// What both sides are held to comes from neither of them.
    #[test]
    fn known_answers() {
        let answer = |tree: Tree, place: &Place| {
            let written = tree.written(&mut Random::new(1), Style { needless: 0, spellings: false });
            let starts: Vec<usize> = (0..written.tokens.len()).collect();
            let known = known(place, &tree, &written, &starts, 100);
            (known.reason, known.column, known.value)
        };
        let [narrow, wide, ..] = &PLACES;
        assert_eq!(answer(Tree::Number(1 << 32), wide), (0, 0, 1 << 32));
        assert_eq!(answer(Tree::Number(1 << 32), narrow), (4, 12, 0));
        assert_eq!(answer(Tree::Number(1 << 63), wide), (0, 0, 1 << 63));
        assert_eq!(answer(Tree::group(Tree::Number(1 << 63)), wide), (4, 12, 0));
        assert_eq!(answer(Tree::minus(Tree::Number(0)), narrow), (0, 0, 0));
        assert_eq!(answer(Tree::minus(Tree::Number(1)), narrow), (4, 12, 0));
        let deep = |count| (0..count).fold(Tree::Number(1), |tree, _| Tree::group(tree));
        assert_eq!(answer(deep(16), narrow), (0, 0, 1));
        assert_eq!(answer(deep(17), narrow), (3, 28, 0));
    }
}
