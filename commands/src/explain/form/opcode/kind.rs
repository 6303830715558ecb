//! An mma whose kind is none of the four, or is not there. The same type codes are other types under another kind, so that a kind is
//! offered only where the word under idesc, or the spelling, says which is meant.

use super::super::Spot;
use super::{dotted, is_near, words, write, MMAS};
use crate::explain::descriptors::{hex, moved};
use crate::explain::{listed, Explanation};
use crate::history::Value;
use crate::rules::{kind_of, name_in, types, KINDS};
use crate::statement::{self, Mma, Statement};

/// The mma with one of the kinds.
pub struct Guess<'a> {
    kind: &'static str,
    opcode: String,
    new: Vec<u8>,
    /// What is under idesc, if the statement reads and it is a word.
    word: Option<(&'a Value, u32)>,
    /// The types of a and b, if the library takes the word.
    good: Option<[&'static str; 2]>,
}

pub fn explain(s: &Spot, found: &str, e: &mut Explanation) -> bool {
    let lower = found.to_ascii_lowercase();
    let is_kind = |word: &&str| word.strip_prefix("kind::").and_then(kind_of).is_some();
    let Some(head) = head(&lower).filter(|_| !words(&lower).iter().any(is_kind)) else { return false };
    let wrong: Vec<&str> = words(found).split_off(words(head).len());
    if wrong.len() > 1 && wrong[..] != ["kind", wrong[1]] {
        return false;
    }
    let what = match dotted(1, &wrong) {
        _ if wrong.is_empty() => "the kind of the mma is missing".into(),
        name => format!("`{name}` is not one of the four kinds"),
    };
    e.title(format!("no form has this opcode: {what}"));
    s.point(e, found.len(), what);
    let guesses = kinds(s, found, e);
    let wrong = &lower[head.len()..];
    if guesses.iter().any(|guess| guess.plainly(wrong).is_some_and(|text| write(s, e, text, &guess.new))) {
        return true;
    }
    let good: Vec<&Guess> = guesses.iter().filter(|guess| guess.good.is_some()).collect();
    let value = guesses.iter().find_map(|guess| guess.word).map(|(value, _)| &value.name);
    match (&good[..], value) {
        ([Guess { kind, opcode, new, .. }], Some(name)) => {
            write(s, e, format!("`{name}` is good for `.kind::{kind}` alone: if that is meant, write `{opcode}`"), new);
        }
        ([], Some(name)) => e.help(format!("write the kind whose types a and b have, and move a word of that kind to `{name}`")),
        _ => e.help("write the kind whose types a and b have; the sheet does not show which is meant"),
    }
    true
}

/// What an opcode of an mma has before its kind.
fn head(opcode: &str) -> Option<&'static str> {
    MMAS.into_iter().find(|head| opcode.strip_prefix(head).is_some_and(|rest| rest.is_empty() || rest.starts_with('.')))
}

/// Says which kinds there are, and for which of them the word under idesc is good.
pub fn kinds<'a>(s: &'a Spot, found: &str, e: &mut Explanation) -> Vec<Guess<'a>> {
    let all = KINDS.map(|(_, kind)| format!("`.kind::{kind}`"));
    e.note(format!(
        "the kind is {}: f16 is for f16 and bf16, tf32 for tf32, f8f6f4 for floats of 8, 6 and 4 bits, i8 for integers of 8 bits",
        listed(&all, "or")
    ));
    let Some(head) = head(&found.to_ascii_lowercase()) else { return Vec::new() };
    let guesses: Vec<Guess> = KINDS.into_iter().map(|(_, kind)| Guess::new(s, found, head, kind)).collect();
    if let Some((value, word)) = guesses.iter().find_map(|guess| guess.word) {
        let (name, word) = (&value.name, hex(32, word.into()));
        moved(s.c, e, value, format!("`{name}` gets {word} here"));
        let good: Vec<String> = guesses.iter().filter_map(Guess::says).collect();
        let good = if good.is_empty() { "none of them".into() } else { listed(&good, "and for") };
        e.note(format!("idesc `{name}` is {word}: good for {good}"));
    }
    guesses
}

impl<'a> Guess<'a> {
    fn new(s: &'a Spot, found: &str, head: &str, kind: &'static str) -> Guess<'a> {
        let opcode = format!("{head}.kind::{kind}");
        let new = s.with(found, &opcode);
        let mma = match statement::read(&new) {
            Some(Statement::Mma(mma)) => Some(mma),
            _ => None,
        };
        let value = mma.as_ref().and_then(|mma| s.c.history.value(&mma.idesc)).filter(|value| value.width == 32);
        let word = value.and_then(|value| Some((value, u32::try_from(value.number).ok()?)));
        let good = mma.zip(word).and_then(|(mma, (_, word))| good(&mma, word));
        Guess { kind, opcode, new, word, good }
    }

    /// The kind with the types that the word has under it, if it is good.
    fn says(&self) -> Option<String> {
        let [a, b] = self.good?;
        Some(format!("`.kind::{}` (a {a}, b {b})", self.kind))
    }

    /// What to write, if what stands for the kind is plainly this one: no more than `kind::` is lost or misspelt, or one byte of a long kind, or
    /// it is a type of this kind, for which the word is good.
    fn plainly(&self, wrong: &str) -> Option<String> {
        let at = wrong.rfind([':', '.']).map_or(0, |at| at + 1);
        let (label, value) = (wrong[..at].trim_matches([':', '.']), &wrong[at..]);
        let Guess { kind, opcode, .. } = self;
        if !label.is_empty() && !is_near(label, "kind") {
            return None;
        }
        if value == *kind || value.len() > 4 && strsim::damerau_levenshtein(value, kind) == 1 {
            return Some(format!("write `{opcode}`"));
        }
        let [a, b] = self.good.filter(|_| kind_of(kind).is_some_and(|kind| types(kind).iter().any(|row| row.1 == value)))?;
        Some(format!("{value} is a type of `.kind::{kind}`, for which the word has a {a} and b {b}: write `{opcode}`"))
    }
}

/// The types of a and b in a word, if the library takes it under an opcode.
fn good(mma: &Mma, word: u32) -> Option<[&'static str; 2]> {
    mma.opcode.judge(word).ok()?;
    let fields = mma.opcode.decode(word).ok()?;
    let name = |code: u32| name_in(types(mma.opcode.kind), code.into());
    Some([name(fields.atype)?, name(fields.btype)?])
}

#[cfg(test)]
mod tests {
    use super::*;

    #[test]
    fn heads_of_an_mma() {
        assert_eq!(head("tcgen05.mma.ws.cta_group::1.kind::f16"), Some(MMAS[1]));
        assert_eq!(head("tcgen05.mma.cta_group::1"), Some(MMAS[0]));
        assert_eq!(head("tcgen05.mma.cta_group::12"), None);
    }
}
