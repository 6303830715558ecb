//! An opcode that is none: the nearest ones, and the words in them that differ. An edit is offered as the remedy only where one opcode is
//! plainly meant: the kind and the shape of a statement say what it does, so that a near one is no remedy.

mod kind;

use super::{brief, offer, reads, say, Spot};
use crate::explain::{counted, listed, shown, Explanation};
use crate::rules::KINDS;
use crate::statement::{self, SHAPES};

/// The longest opcode that is compared with others.
const LONGEST: usize = 160;

/// The numbers of `.xN`.
const NUMS: [u32; 8] = [1, 2, 4, 8, 16, 32, 64, 128];
/// What stands before the kind.
const MMAS: [&str; 4] =
    ["tcgen05.mma.cta_group::1", "tcgen05.mma.ws.cta_group::1", "tcgen05.mma.sp.cta_group::1", "tcgen05.mma.ws.sp.cta_group::1"];

/// Every opcode of the forms.
pub fn opcodes() -> Vec<String> {
    const PLAIN: [&str; 11] = [
        "mov.b32",
        "mov.b64",
        "tcgen05.alloc.cta_group::1.sync.aligned.b32",
        "tcgen05.alloc.cta_group::1.sync.aligned.shared::cta.b32",
        "tcgen05.dealloc.cta_group::1.sync.aligned.b32",
        "tcgen05.relinquish_alloc_permit.cta_group::1.sync.aligned",
        "tcgen05.wait::ld.sync.aligned",
        "tcgen05.wait::st.sync.aligned",
        "tcgen05.fence::before_thread_sync",
        "tcgen05.fence::after_thread_sync",
        "exit",
    ];
    let mut all: Vec<String> = PLAIN.iter().map(|&opcode| opcode.into()).collect();
    for shape in &SHAPES {
        for num in NUMS {
            all.extend(["ld", "st"].map(|word| format!("tcgen05.{word}.sync.aligned.{}.x{num}.b32", shape.name)));
        }
    }
    for (_, kind) in KINDS {
        all.extend(MMAS.map(|head| format!("{head}.kind::{kind}")));
    }
    all
}

/// An example of the operands of an opcode that is one, and what each is.
pub fn operands(opcode: &str) -> (&'static str, &'static [&'static str]) {
    const NAME: &str = "a name";
    let begins = |text: &str| opcode.starts_with(text);
    match () {
        () if begins("mov.") => ("x, 1", &[NAME, "the number to move"]),
        () if begins("tcgen05.alloc.") => ("[t], 64", &["the name of the allocation in brackets", "the number of columns"]),
        () if begins("tcgen05.dealloc.") => ("t, 64", &["the name of the allocation", "the number of its columns"]),
        () if begins("tcgen05.ld.") => ("{r0, r1}, [t+32]", &["the registers in braces", "the address in brackets"]),
        () if begins("tcgen05.st.") => ("[t+32], {r0, r1}", &["the address in brackets", "the registers in braces"]),
        () if begins("tcgen05.mma.sp.") || begins("tcgen05.mma.ws.sp.") => (
            "[d], a, b, [meta], i, p",
            &[
                "d, an address in brackets",
                "a, a name or an address in brackets",
                "b, a name",
                "the metadata, an address in brackets",
                "idesc, the name of the instruction descriptor",
                "the predicate, a name",
            ],
        ),
        () if begins("tcgen05.mma.") => (
            "[d], a, b, i, p",
            &[
                "d, an address in brackets",
                "a, a name or an address in brackets",
                "b, a name",
                "idesc, the name of the instruction descriptor",
                "the predicate, a name",
            ],
        ),
        () => ("", &[]),
    }
}

/// A statement with an opcode.
pub fn example(opcode: &str) -> String {
    match operands(opcode).0 {
        "" => format!("{opcode};"),
        operands => format!("{opcode} {operands};"),
    }
}

/// The same for a reader: with as many registers as the opcode takes.
pub fn shortened(opcode: &str) -> String {
    let shape = SHAPES.iter().find(|shape| opcode.split('.').any(|word| word == shape.name));
    let list = match shape.zip(opcode.split('.').find_map(num)).map_or(2, |(shape, num)| shape.registers * num) {
        count @ 0..=4 => (0..count).map(|i| format!("r{i}")).collect::<Vec<_>>().join(", "),
        count => format!("r0, r1, .., r{}", count - 1),
    };
    example(opcode).replace("r0, r1", &list)
}

/// What no sheet has, by how it begins, and what to do about it.
const OUTSIDE: [(&str, &str); 7] = [
    ("tcgen05.commit", "it takes no columns: leave the line out"),
    ("tcgen05.cp", "copies into Tensor Memory are not checked in this version: leave the line out"),
    ("tcgen05.shift", "shifts in Tensor Memory are not checked in this version: leave the line out"),
    ("bra", "write the statements that are executed one after another, a loop as often as it is run, and no branch"),
    ("brx", "write the statements that are executed one after another, a loop as often as it is run, and no branch"),
    ("call", "write the statements of the function in its place"),
    ("ret", "write `exit;` where the block ends"),
];

/// A word of opcodes that is PTX and that no form has.
struct Word {
    /// How it begins.
    begins: &'static str,
    why: &'static str,
    /// What is otherwise in a statement without it, as far as it is said.
    without: &'static str,
}

const fn word(begins: &'static str, why: &'static str, without: &'static str) -> Word {
    Word { begins, why, without }
}

const SCALED: &str = "block-scaled kinds are not read in this version";
const UNSCALED: &str = ", which multiplies without scales";
const COLUMNS: &str = ", which takes other columns";
const QUALIFIER: &str = "this qualifier is not read in this version";

const WORDS: [Word; 14] = [
    word("cta_group::", "a sheet is for one CTA, so `.cta_group::1` alone is read", ", for another count of CTAs"),
    word("kind::mx", SCALED, UNSCALED),
    word("block", SCALED, UNSCALED),
    word("scale_vec", SCALED, UNSCALED),
    word("pack::", "`.pack` is not read in this version", COLUMNS),
    word("unpack::", "`.unpack` is not read in this version", COLUMNS),
    word("16x32bx2", "the shape 16x32bx2 is not read in this version", COLUMNS),
    word("collector", "`.collector` is not read in this version", ""),
    word("ashift", "`.ashift` is not read in this version", ""),
    word("multicast", "`.multicast` is not read in this version", ""),
    word("red", "`.red` is not read in this version", ""),
    word("spcompress", QUALIFIER, ""),
    word("shared::cluster", "only `.shared::cta`, or neither, is read", ""),
    word("decompress", QUALIFIER, ""),
];

/// Words that change nothing where they are superfluous.
const HARMLESS: [&str; 5] = ["sync", "aligned", "b32", "cta_group::1", "shared::cta"];

/// The opcode is none.
pub fn explain(s: &Spot, e: &mut Explanation) -> bool {
    if s.at > 0 {
        return false;
    }
    let found = shown(statement::opcode(s.text));
    s.point(e, s.token.len(), if found.is_empty() { "an opcode must stand here" } else { "not one of a sheet's opcodes" });
    if broken(s, &found, e) {
        return true;
    }
    if found.is_empty() {
        e.title(format!("`{}` begins no statement", shown(s.token)));
        e.note("a statement is `mov`, `exit` or one of `tcgen05.`; scopes and whatever else a kernel does are left out of a sheet");
        return true;
    }
    if let Some((word, remedy)) = OUTSIDE.iter().find(|row| found.split('.').collect::<Vec<_>>().starts_with(&words(row.0))) {
        e.title(format!("`{word}` is not part of a sheet"));
        return say(e, *remedy);
    }
    if found.ends_with(':') {
        e.title(format!("the label `{}` is not part of a sheet", brief(found.as_bytes())));
        return say(e, "write the statements that are executed one after another, without labels and branches");
    }
    let near = |e: &mut Explanation| glued(s, &found, e) || unread(s, &found, e) || kind::explain(s, &found, e) || differs(s, &found, e);
    found.len() <= LONGEST && near(e) || other(&found, e)
}

fn words(opcode: &str) -> Vec<&str> {
    opcode.split('.').collect()
}

/// A byte that no opcode has stands before or in one.
fn broken(s: &Spot, found: &str, e: &mut Explanation) -> bool {
    let (from, to) = (found.len(), found.len() + 1);
    let Some(byte) = s.text.get(from..to).filter(|_| s.reads_with(from, to, b"")) else { return false };
    let place = if from == 0 { "before" } else { "in" };
    e.title(format!("a `{}` stands {place} the opcode", shown(byte)));
    s.point(e, to, "an opcode is one word of letters, digits, `_`, `.` and `:`");
    offer(s, e, "take it out", s.edit(from, to, ""))
}

/// An instruction that is far from all opcodes.
fn other(found: &str, e: &mut Explanation) -> bool {
    e.note("a sheet has `mov.b32` and `mov.b64` of a number, `exit`, and of tcgen05 `alloc`, `dealloc`, `relinquish_alloc_permit`, `ld`, `st`, `wait`, `fence` and `mma`");
    if found.starts_with("tcgen05") {
        e.title(format!("no form has the opcode `{}`", brief(found.as_bytes())));
        return true;
    }
    e.title(format!("`{}` is not part of a sheet", brief(found.as_bytes())));
    say(e, "leave the line out")
}

/// A name that stands directly behind an opcode belongs to it.
fn glued(s: &Spot, found: &str, e: &mut Explanation) -> bool {
    let parted = |opcode: &String| [opcode.as_bytes(), b" ", &s.text[opcode.len()..]].concat();
    let Some(opcode) = opcodes().into_iter().find(|opcode| found.starts_with(opcode.as_str()) && reads(&parted(opcode))) else {
        return false;
    };
    e.title(format!("a space is missing after the opcode `{opcode}`"));
    s.point(e, found.len(), "this is read as one word");
    offer(s, e, "put a space after the opcode", s.edit(opcode.len(), opcode.len(), " "))
}

/// Words of PTX that make another statement of it, which is not judged: no opcode is offered for it.
fn unread(s: &Spot, found: &str, e: &mut Explanation) -> bool {
    let lower = found.to_ascii_lowercase();
    let row = |word: &&str| WORDS.iter().find(|row| word.starts_with(row.begins) && *word != "cta_group::1");
    let have: Vec<&str> = words(&lower).into_iter().skip(1).filter(|word| row(word).is_some()).collect();
    let Some(Word { why, without, .. }) = have.first().and_then(row).filter(|_| is_near(words(&lower)[0], "tcgen05")) else {
        return false;
    };
    let name = dotted(1, &have);
    e.title(format!("`{name}` is not part of any form: {why}"));
    values(&have, e);
    if *why == SCALED {
        kind::kinds(s, found, e);
    }
    say(e, format!("without `{name}` it is another statement{without}; this version judges no statement with `{name}`"))
}

/// Opcodes that are near, with the words that differ.
fn differs(s: &Spot, found: &str, e: &mut Explanation) -> bool {
    let mut near = nearest(s, found);
    let sure = plain(found, &near).cloned();
    if let Some(opcode) = &sure {
        near = vec![opcode.clone()];
    }
    if near.is_empty() {
        return false;
    }
    let (head, have, wants) = between(found, &near);
    let difference = difference(head, &have, &wants);
    e.title(format!("no form has this opcode: {difference}"));
    s.point(e, found.len(), difference);
    values(if near.len() > 1 { &wants[0] } else { &have }, e);
    let mut offered = false;
    let two = near.len() == 2 && near.iter().all(|opcode| is_one(found, opcode));
    for opcode in near.iter().filter(|_| sure.is_some() || two) {
        let text = if two { format!("if `{opcode}` is meant, write it") } else { format!("write `{opcode}`") };
        offered |= write(s, e, text, &s.with(found, opcode));
    }
    if !offered {
        have.iter().for_each(|word| split(word, e));
        e.help(in_words(s, found, &near));
    }
    true
}

/// What is said of opcodes of which none is offered.
fn in_words(s: &Spot, found: &str, near: &[String]) -> String {
    match near {
        [one] if reads(&s.with(found, one)) => format!("the nearest opcode is `{one}`: write it only if that is what the kernel has"),
        [one] => format!("the nearest opcode is `{one}`"),
        _ => "write the one that the kernel has; the sheet does not show which is meant".into(),
    }
}

/// Offers another statement, if the library reads it.
fn write(s: &Spot, e: &mut Explanation, text: String, new: &[u8]) -> bool {
    staplehorn::statement(new).is_ok() && e.fix(s.c.sheet, text, s.instead(new))
}

/// How many words an opcode and others begin with in common, and what each has from there up to the words that all end with.
fn between<'w>(found: &'w str, near: &'w [impl AsRef<str>]) -> (usize, Vec<&'w str>, Vec<Vec<&'w str>>) {
    let have = words(found);
    let all: Vec<Vec<&str>> = near.iter().map(|opcode| words(opcode.as_ref())).collect();
    let head = all.iter().map(|want| have.iter().zip(want).take_while(|(a, b)| a == b).count()).min().unwrap_or(0);
    let same = |want: &Vec<&str>| have[head..].iter().rev().zip(want[head..].iter().rev()).take_while(|(a, b)| a == b).count();
    let tail = all.iter().map(same).min().unwrap_or(0);
    let wants = all.iter().map(|want| want[head..want.len() - tail].to_vec()).collect();
    (head, have[head..have.len() - tail].to_vec(), wants)
}

/// One word is another, too many or missing; `.sync.aligned` counts as one.
fn is_one(found: &str, opcode: &str) -> bool {
    let (_, have, wants) = between(found, std::slice::from_ref(&opcode));
    let count = |words: &[&str]| words.iter().filter(|&&word| word != "aligned").count();
    wants.iter().all(|want| count(&have).max(count(want)) <= 1)
}

/// The one of some opcodes that is plainly meant.
fn plain<'n>(found: &str, near: &'n [String]) -> Option<&'n String> {
    let lower = found.to_ascii_lowercase();
    let apart = |opcode: &&String| strsim::damerau_levenshtein(&lower, opcode);
    let best = near.iter().min_by_key(apart)?;
    let (_, have, wants) = between(&lower, std::slice::from_ref(best));
    let alone = near.len() == 1;
    let is_shape = |word: &&str| SHAPES.iter().any(|shape| shape.name == *word);
    let is_nearest = near.iter().filter(|opcode| apart(opcode) == apart(&best)).count() == 1;
    let is_plain = match (&have[..], &wants.first()?[..]) {
        (have, want) if sorted(have) == sorted(want) => return Some(best),
        ([], want) => alone && !want.iter().any(is_shape),
        (have, []) => alone && have.iter().all(|word| HARMLESS.contains(word) || words(best).contains(word)),
        ([a], [b]) => is_nearest && is_near(a, b) || alone && num(a).is_some(),
        _ => false,
    };
    (is_plain && is_one(&lower, best)).then_some(best)
}

/// One word is a misspelling of another: of two that begin alike up to `::` by what follows.
fn is_near(a: &str, b: &str) -> bool {
    let (a, b) = match (a.rsplit_once("::"), b.rsplit_once("::")) {
        (Some((c, a)), Some((d, b))) if c == d => (a, b),
        _ => (a, b),
    };
    let distance = strsim::damerau_levenshtein(a, b);
    distance <= 1 || distance * 4 <= a.len().max(b.len())
}

/// Words of an opcode, as they stand in it.
fn dotted(head: usize, words: &[&str]) -> String {
    brief(format!("{}{}", if head > 0 { "." } else { "" }, words.join(".")).as_bytes())
}

fn sorted<'w>(words: &[&'w str]) -> Vec<&'w str> {
    let mut words = words.to_vec();
    words.sort_unstable();
    words
}

/// What an opcode has, and what could stand there. Of more than eight none is named.
fn difference(head: usize, have: &[&str], wants: &[Vec<&str>]) -> String {
    let name = |want: &Vec<&str>| if want.is_empty() { "nothing".into() } else { format!("`{}`", dotted(head, want)) };
    let could: Vec<String> = wants.iter().map(name).collect();
    let (found, could) = (dotted(head, have), listed(&could, "or"));
    match (have, wants) {
        (_, [want]) if sorted(have) == sorted(want) => format!("`{found}` must stand in the order {could}"),
        (_, [want]) if want.is_empty() => format!("`{found}` is not part of it"),
        (_, [_, _, _, _, _, _, _, _, _, ..]) => "words of it are wrong or missing".into(),
        ([], _) => format!("{could} is missing"),
        _ => format!("`{found}` stands where {could} could stand"),
    }
}

/// The values of a word that has some.
fn values(have: &[&str], e: &mut Explanation) {
    if have.iter().any(|word| num(word).is_some()) {
        let all = NUMS.map(|n| format!("`.x{n}`"));
        e.note(format!("`.xN` is {}", listed(&all, "or")));
    }
    if have.iter().any(|word| word.starts_with(|ch: char| ch.is_ascii_digit()) && word.contains('x')) {
        let all = SHAPES.each_ref().map(|shape| format!("`.{}`", shape.name));
        e.note(format!("the shape is {}", listed(&all, "or")));
    }
}

/// The N of a word `xN`.
fn num(word: &str) -> Option<u32> {
    word.strip_prefix('x')?.parse().ok()
}

/// A number of `.xN` as a sum of those that there are.
fn split(word: &str, e: &mut Explanation) {
    let Some(n) = num(word).filter(|n| (1..256).contains(n)) else { return };
    let parts: Vec<String> = NUMS.iter().rev().filter(|&&part| n & part > 0).map(|part| format!("`.x{part}`")).collect();
    if parts.len() > 1 {
        e.help(format!("write `.{word}` as {}: {}", counted(parts.len() as u64, "statement"), listed(&parts, "and")));
    }
}

/// Keeps those that a question is true of, if there are any.
fn narrow(all: &mut Vec<String>, keep: impl Fn(&String) -> bool) {
    if all.iter().any(&keep) {
        all.retain(keep);
    }
}

/// Keeps those with the least number.
fn least(all: &mut Vec<String>, number: impl Fn(&String) -> usize) {
    let least = all.iter().map(&number).min();
    all.retain(|opcode| Some(number(opcode)) == least);
}

/// The word that says what is done.
fn operation<'w>(words: &[&'w str]) -> &'w str {
    words.get(usize::from(is_near(words[0], "tcgen05"))).copied().unwrap_or_default()
}

/// Two opcodes are of one operation, whatever follows its `::`.
fn is_kin(have: &[&str], want: &[&str]) -> bool {
    let stem = |words| operation(words).split("::").next();
    is_near(have[0], want[0]) && stem(have) == stem(want)
}

/// The opcodes of the same operation that keep the most of the words, of these those with the fewest other words, and of these those with
/// which the statement reads, if there are such. Where the operation is none, the opcode must be a misspelling of them.
fn nearest(s: &Spot, found: &str) -> Vec<String> {
    let lower = found.to_ascii_lowercase();
    let have = words(&lower);
    let mut all = opcodes();
    let known: Vec<&str> = have.iter().copied().filter(|word| all.iter().any(|opcode| words(opcode).contains(word))).collect();
    let is_order = |opcode: &String| sorted(&words(opcode)) == sorted(&have);
    let is_same = |opcode: &String| is_kin(&have, &words(opcode));
    narrow(&mut all, is_order);
    narrow(&mut all, is_same);
    least(&mut all, |opcode| known.iter().filter(|word| !words(opcode).contains(word)).count());
    least(&mut all, |opcode| strsim::generic_damerau_levenshtein(&have, &words(opcode)));
    narrow(&mut all, |opcode| staplehorn::statement(&s.with(found, opcode)).is_ok());
    let is_misspelt =
        |opcode: &String| is_near(operation(&have), operation(&words(opcode))) && plain(found, std::slice::from_ref(opcode)).is_some();
    all.retain(|opcode| is_order(opcode) || is_same(opcode) || is_misspelt(opcode));
    all
}

impl Spot<'_> {
    /// The statement with another opcode.
    fn with(&self, found: &str, opcode: &str) -> Vec<u8> {
        [opcode.as_bytes(), self.text.get(found.len()..).unwrap_or_default()].concat()
    }
}

#[cfg(test)]
mod tests {
    use super::*;

    #[test]
    fn the_library_reads_every_opcode_with_its_example() {
        let all = opcodes();
        assert_eq!(all.len(), 11 + 4 * 8 * 2 + 16);
        for opcode in &all {
            assert!(staplehorn::canonical(example(opcode).as_bytes()).is_ok(), "{}", example(opcode));
        }
        for other in ["tcgen05.ld.sync.aligned.32x32b.x3.b32", "tcgen05.ld.sync.aligned.32x32b.x256.b32"] {
            assert!(staplehorn::canonical(example(other).as_bytes()).is_err());
        }
    }

    #[test]
    fn an_example_has_as_many_operands_as_are_named() {
        for opcode in opcodes() {
            assert_eq!(statement::operands(example(&opcode).as_bytes()).len(), operands(&opcode).1.len(), "{opcode}");
        }
    }
}
