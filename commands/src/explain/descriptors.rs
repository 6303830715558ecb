//! Reasons 12, 13, 20 and 21: a descriptor of an mma has no reading, or its M, N or types are not listed. `rules` says which rule is
//! broken; which values would do is asked of the library.

use super::{counted, gets_further, grouped, listed, token_end, Context, Explanation};
use crate::history::Value;
use crate::rules::{
    self, kind_name, name_in, Field, Rule, ATYPE, BTYPE, DTYPE, DTYPES, INSTRUCTION, KINDS, M, MAX_SHIFT, N, SELECTOR, SHARED, SPARSE,
};
use crate::sheet::Edit;
use crate::statement::{self, Mma, Operand, Statement};
use staplehorn::{Kind, Opcode, Reason, SharedFields};

pub fn explain(c: &Context, e: &mut Explanation) {
    let Some(Statement::Mma(mma)) = &c.statement else { return };
    let all = descriptors(c, mma);
    let Some(at) = all.iter().position(|d| Some(d.place) == c.operand()) else { return };
    let found = &all[at];
    match (found.role, u32::try_from(found.value.number)) {
        ("idesc", Ok(word)) => instruction(c, e, &Instruction { c, mma, value: found.value, word, users: &users(c, found.value) }),
        ("idesc", _) => return,
        _ => shared(c, e, mma, found),
    }
    if c.answer.reason == Some(Reason::Descriptor) {
        unread_too(e, mma.opcode, found, &all[at + 1..]);
    }
}

/// A descriptor operand of an mma: its place among the operands, what it is, and its value.
struct Descriptor<'a> {
    place: usize,
    role: &'static str,
    value: &'a Value,
}

/// The descriptors of an mma, in the order of its operands.
fn descriptors<'a>(c: &'a Context, mma: &Mma) -> Vec<Descriptor<'a>> {
    let a = match &mma.a {
        Operand::Descriptor(name) => Some((1, "a", name)),
        Operand::Address(_) => None,
    };
    let names = [a, Some((2, "b", &mma.b)), Some((3 + usize::from(mma.metadata.is_some()), "idesc", &mma.idesc))];
    let found = names.into_iter().flatten().map(|(place, role, name)| Some(Descriptor { place, role, value: c.history.value(name)? }));
    found.flatten().collect()
}

/// Says which of the descriptors further right have no reading either.
fn unread_too(e: &mut Explanation, o: Opcode, first: &Descriptor, others: &[Descriptor]) {
    let unread = |d: &Descriptor| match d.role {
        "idesc" => u32::try_from(d.value.number).is_ok_and(|word| o.decode(word).is_err()),
        _ => SharedFields::decode(d.value.number).is_err(),
    };
    let also: Vec<_> = others
        .iter()
        .filter(|d| d.value.name != first.value.name && unread(d))
        .map(|d| format!("`{}` ({})", d.value.name, d.role))
        .collect();
    if !also.is_empty() {
        e.note(format!("{} {} no reading either", listed(&also, "and"), if also.len() == 1 { "has" } else { "have" }));
    }
}

/// A word as the page of its descriptor writes it.
pub fn hex(width: u32, number: u64) -> String {
    format!("0x{number:0digits$X}", digits = width as usize / 4)
}

/// Points at the mov that gave a value its number.
pub fn moved(c: &Context, e: &mut Explanation, value: &Value, label: impl Into<String>) {
    if let Some(&place) = c.operands(value.line).get(1) {
        e.related(value.line, place, label);
    }
}

/// Offers another number for a value: in its mov, or, where the library gets no further so (an earlier line needs the old number), in a
/// mov before the refused line; else in words.
pub fn offer(c: &Context, e: &mut Explanation, value: &Value, number: u64, what: &str) {
    let word = hex(value.width, number);
    let (name, line) = (&value.name, value.line);
    if let Some(&(from, to)) = c.operands(line).get(1) {
        let edit = Edit { line, from, to, text: word.clone().into() };
        if e.fix(c.sheet, format!("{what}: move {word} to `{name}`"), edit) {
            return;
        }
    }
    let mov = Edit::before(c.line(), format!("{}\tmov.b{} {name}, {word};\n", c.warp(), value.width));
    if !e.fix(c.sheet, format!("{what}: move {word} to `{name}` before this line, and leave line {line} as it is"), mov) {
        e.help(format!("{what}: that is {word}"));
    }
}

/// An opcode in words.
pub fn under(o: Opcode) -> String {
    let with = [(o.ws, "`.ws`"), (o.sp, "`.sp`")].iter().filter(|row| row.0).map(|row| row.1.to_string()).collect::<Vec<_>>();
    let kind = format!("`kind::{}`", kind_name(o.kind));
    if with.is_empty() {
        kind
    } else {
        format!("{kind} with {}", listed(&with, "and"))
    }
}

/// Numbers that rise, in words: `64 or 128`, `8 to 256 in eights`.
pub fn runs(numbers: &[u64]) -> String {
    let mut parts = Vec::new();
    let mut left = numbers;
    while let [first, rest @ ..] = left {
        let step = rest.first().map_or(0, |second| second - first);
        let length = 1 + left.windows(2).take_while(|pair| pair[1] - pair[0] == step).count();
        if length < 4 {
            parts.push(first.to_string());
            left = rest;
            continue;
        }
        let steps = match step {
            8 => "eights".to_string(),
            16 => "sixteens".to_string(),
            _ => format!("steps of {step}"),
        };
        parts.push(format!("{first} to {} in {steps}", left[length - 1]));
        left = &left[length..];
    }
    listed(&parts, "or")
}

/// The listed values next to one that is not: below and above it, the nearer first.
pub fn neighbours(numbers: &[u64], found: u64) -> Vec<u64> {
    let below = numbers.iter().copied().filter(|&v| v < found).max();
    let above = numbers.iter().copied().filter(|&v| v > found).min();
    let mut both: Vec<_> = below.into_iter().chain(above).collect();
    both.sort_by_key(|v| v.abs_diff(found));
    both
}

/// An instruction descriptor under its opcode.
struct Instruction<'a> {
    c: &'a Context<'a>,
    mma: &'a Mma,
    value: &'a Value,
    word: u32,
    /// The opcodes of the other mmas that use the value.
    users: &'a [Opcode],
}

/// The opcodes of the mmas, other than the refused one, that have a value as their idesc: from its mov to the next.
fn users(c: &Context, value: &Value) -> Vec<Opcode> {
    let lines = (value.line + 1..=c.sheet.count()).filter(|&line| line != c.line());
    let statements = lines.filter_map(|line| statement::read(c.sheet.statement(line)));
    let same = statements.take_while(|s| !matches!(s, Statement::Mov { name, .. } if *name == value.name));
    let opcode = |s| match s {
        Statement::Mma(mma) if mma.idesc == value.name => Some(mma.opcode),
        _ => None,
    };
    same.filter_map(opcode).collect()
}

fn put(word: u32, at: usize, value: u64) -> u32 {
    INSTRUCTION[at].put(word.into(), value) as u32
}

fn values(word: u32) -> [u64; 13] {
    std::array::from_fn(|i| INSTRUCTION[i].of(word.into()))
}

/// The values of M or N that the library lists. For N the word's M must be listed.
pub fn takes(o: Opcode, word: u32, at: usize) -> Vec<u64> {
    let asked_before: &[Reason] =
        if at == M { &[Reason::Descriptor, Reason::ShapeM] } else { &[Reason::Descriptor, Reason::ShapeM, Reason::ShapeN] };
    let is_listed = |v: &u64| o.judge(put(word, at, *v)).err().is_none_or(|reason| !asked_before.contains(&reason));
    INSTRUCTION[at].values().filter(is_listed).collect()
}

/// The word with an M and an N that are listed: as they are, or the nearest.
fn shaped(o: Opcode, word: u32) -> u32 {
    [M, N].into_iter().fold(word, |word, at| {
        let (found, good) = (INSTRUCTION[at].of(word.into()), takes(o, word, at));
        if good.contains(&found) {
            return word;
        }
        neighbours(&good, found).first().map_or(word, |&v| put(word, at, v))
    })
}

fn instruction(c: &Context, e: &mut Explanation, i: &Instruction) {
    let name = &i.value.name;
    let found: Vec<Rule> = match c.answer.reason {
        Some(Reason::Descriptor) => {
            let rest = rules::rest(&INSTRUCTION, i.word.into());
            i.coded(plain(rules::no_reading(i.mma.opcode, &values(i.word), rest), rest))
        }
        reason => i.not_listed().into_iter().filter(|row| Some(row.0) == reason).map(|row| row.1).collect(),
    };
    let said = if c.answer.reason == Some(Reason::Types) { i.type_names() } else { founds(&found) };
    e.point(token_end(c.bytes(), c.column()), format!("operand idesc (32 bits): `{name}` is {}, {said}", i.hex()));
    moved(c, e, i.value, format!("`{name}` gets {} here", i.hex()));
    match c.answer.reason {
        Some(Reason::Descriptor) => i.unread(e, &found),
        Some(Reason::ShapeM) => i.shape(e, M),
        Some(Reason::ShapeN) => i.shape(e, N),
        Some(Reason::Types) => i.types(e, &found),
        _ => {}
    }
    i.other_opcodes(e);
    if e.helps.is_empty() {
        e.help(CORRECT);
    }
}

const CORRECT: &str = "several fields are wrong: correct each of them, and move the word that has them all";

/// The rules with the bits of no field in words.
fn plain(mut rules: Vec<Rule>, rest: u64) -> Vec<Rule> {
    let bits: Vec<_> = (0..u64::BITS).filter(|i| rest >> i & 1 == 1).map(|i| i.to_string()).collect();
    let word = if bits.len() == 1 { "bit" } else { "bits" };
    for rule in rules.iter_mut().filter(|rule| rule.field.is_none() && rule.wants == "must be 0") {
        rule.found = format!("{word} {} set", listed(&bits, "and"));
    }
    rules
}

fn founds(rules: &[Rule]) -> String {
    listed(&rules.iter().map(|rule| rule.found.clone()).collect::<Vec<_>>(), "and")
}

/// The same with a verb each: `bits 46-48 hold 0 and swizzle is 3`.
fn clauses(rules: &[Rule]) -> String {
    let clause = |rule: &Rule| match (rule.field, rule.found.strip_suffix(" set")) {
        (Some(_), _) => rule.found.replacen(' ', " is ", 1),
        (None, Some(bits)) => format!("{bits} {} set", if bits.starts_with("bits") { "are" } else { "is" }),
        (None, None) => rule.found.clone(),
    };
    listed(&rules.iter().map(clause).collect::<Vec<_>>(), "and")
}

impl Instruction<'_> {
    fn hex(&self) -> String {
        hex(32, self.word.into())
    }

    /// The rules with the codes that the kind takes, where they are about types.
    fn coded(&self, mut rules: Vec<Rule>) -> Vec<Rule> {
        let kind = self.mma.opcode.kind;
        let names: Vec<_> = rules::types(kind).iter().map(|(code, name)| format!("{code} ({name})")).collect();
        for rule in rules.iter_mut().filter(|rule| matches!(rule.field, Some(ATYPE | BTYPE))) {
            rule.wants = format!("`kind::{}` takes {}", kind_name(kind), listed(&names, "or"));
        }
        rules
    }

    fn not_listed(&self) -> Vec<(Reason, Rule)> {
        rules::not_listed(self.mma.opcode, &values(self.word))
    }

    fn title(&self, e: &mut Explanation, found: &str) {
        e.title(format!("the instruction descriptor `{}` has {found}, which {} does not take", self.value.name, under(self.mma.opcode)));
    }

    fn offer(&self, e: &mut Explanation, word: u32, what: &str) {
        offer(self.c, e, self.value, word.into(), what);
    }

    /// M or N is not listed.
    fn shape(&self, e: &mut Explanation, at: usize) {
        let o = self.mma.opcode;
        let (f, sign, reason) = if at == M { (&INSTRUCTION[M], "M", Reason::ShapeM) } else { (&INSTRUCTION[N], "N", Reason::ShapeN) };
        let found = f.of(self.word.into());
        let good = takes(o, self.word, at);
        self.title(e, &format!("{sign} {found}"));
        e.note(format!("{sign} / {} is bits {} of the word: {} there is {sign} {found}", f.unit, f.bits(), found / f.unit));
        e.note(format!("{} takes {sign} {}", under(o), runs(&good)));
        self.elsewhere(e, at, &format!("{sign} {found}"));
        if self.not_listed_too(e, reason) {
            e.help(format!("choose {sign} {}, and correct the other fields too", runs(&good)));
            return;
        }
        for v in neighbours(&good, found) {
            self.offer(e, put(self.word, at, v), &format!("take {sign} {v}"));
        }
    }

    /// Says where a value of M or N that is not listed here is.
    fn elsewhere(&self, e: &mut Explanation, at: usize, found: &str) {
        let o = self.mma.opcode;
        let value = INSTRUCTION[at].of(self.word.into());
        let listed_under = |o: Opcode| {
            let word = [(SPARSE, o.sp.into()), (SELECTOR, 0), (MAX_SHIFT, 0)].iter().fold(self.word, |w, row| put(w, row.0, row.1));
            takes(o, if at == N { shaped(o, word) } else { word }, at).contains(&value)
        };
        if o.sp && listed_under(Opcode { sp: false, ..o }) {
            e.note(format!("{}{found} is for dense alone, without `.sp`", if o.ws { "with `.ws` " } else { "" }));
        }
        if listed_under(Opcode { ws: !o.ws, ..o }) {
            e.note(format!("{found} is listed {} `.ws`", if o.ws { "without" } else { "with" }));
        }
        if at == M && value == 256 {
            e.note("M 256 is that of a pair of CTAs (`.cta_group::2`); a sheet is for one CTA");
        }
    }

    /// Says what else is not listed; whether there is something.
    fn not_listed_too(&self, e: &mut Explanation, asked: Reason) -> bool {
        let others: Vec<_> = self.not_listed().into_iter().filter(|row| row.0 != asked).collect();
        if others.is_empty() {
            return false;
        }
        let (o, word) = (self.mma.opcode, shaped(self.mma.opcode, self.word));
        let rules: Vec<_> = others.iter().map(|row| row.1.clone()).collect();
        let mut lists = Vec::new();
        if others.iter().any(|row| row.0 == Reason::ShapeN) {
            lists.push(format!("N {}", runs(&takes(o, word, N))));
        }
        if others.iter().any(|row| row.0 == Reason::Types) {
            lists.push(types_listed(o, word));
        }
        let are = if rules.len() == 1 && !rules[0].found.starts_with("types") { "is" } else { "are" };
        e.note(format!("{} {are} not listed either: {} takes {}", founds(&rules), under(o), lists.join("; ")));
        true
    }

    fn type_of(&self, at: usize) -> &'static str {
        name_in(codes(self.mma.opcode.kind, at), INSTRUCTION[at].of(self.word.into())).unwrap_or("?")
    }

    fn type_names(&self) -> String {
        format!("dtype {}, a {}, b {}", self.type_of(DTYPE), self.type_of(ATYPE), self.type_of(BTYPE))
    }

    /// The types are not listed.
    fn types(&self, e: &mut Explanation, found: &[Rule]) {
        let (o, v) = (self.mma.opcode, values(self.word));
        if found.iter().any(|rule| rule.field == Some(BTYPE)) {
            let (name, kind) = (&self.value.name, under(o));
            e.title(format!(
                "the instruction descriptor `{name}` mixes types: a is {} and b is {}, and {kind} takes two of one type",
                self.type_of(ATYPE),
                self.type_of(BTYPE)
            ));
        } else {
            self.title(e, &founds(found));
        }
        let part = |what: &str, at: usize| format!("{what} is bits {}: {} is {}", INSTRUCTION[at].bits(), v[at], self.type_of(at));
        e.note(format!("{}; {}; {}", part("dtype", DTYPE), part("the type of a", ATYPE), part("the type of b", BTYPE)));
        e.note(format!("{} takes {}", under(o), types_listed(o, self.word)));
        let good = [BTYPE, ATYPE, DTYPE].into_iter().flat_map(|at| self.good(at).into_iter().map(move |v| (at, v))).collect::<Vec<_>>();
        if good.is_empty() {
            e.help("choose a dtype and types of a and b that stand together in this list");
        }
        // which of the fields is the slip is not known
        for (at, v) in good {
            let i = Instruction { word: put(self.word, at, v), ..*self };
            let types = format!("dtype {} with {}", i.type_of(DTYPE), pair(i.type_of(ATYPE), i.type_of(BTYPE)));
            self.offer(e, i.word, &format!("if {types} is meant, make {}", i.named(at)));
        }
    }

    /// A field with its value, by name where it has one.
    fn named(&self, at: usize) -> String {
        let v = INSTRUCTION[at].of(self.word.into());
        let name = name_in(codes(self.mma.opcode.kind, at), v).map_or_else(|| v.to_string(), str::to_string);
        format!("{} {name}", INSTRUCTION[at].name)
    }

    /// The values of a field with which the library takes the word (its M and N aside), the nearest first.
    fn good(&self, at: usize) -> Vec<u64> {
        let o = self.mma.opcode;
        let is_good = |v: &u64| o.judge(shaped(o, put(self.word, at, *v))).is_ok();
        let mut good: Vec<_> = INSTRUCTION[at].values().filter(is_good).collect();
        good.sort_by_key(|v| v.abs_diff(INSTRUCTION[at].of(self.word.into())));
        good
    }

    /// The word has no reading.
    fn unread(&self, e: &mut Explanation, rules: &[Rule]) {
        let o = self.mma.opcode;
        let name = &self.value.name;
        broken(e, &INSTRUCTION, rules, self.word.into());
        let is_about = |at: usize| rules.iter().any(|rule| rule.field == Some(at));
        match rules {
            _ if is_about(SPARSE) && rules.len() == 1 + usize::from(is_about(SELECTOR)) => self.sparse(e),
            [Rule { field: Some(at), found, .. }] => {
                self.title(e, found);
                self.offer_field(e, *at);
            }
            [rule] => {
                e.title(format!("the instruction descriptor `{name}` has {}, which {}", rule.found, rule.wants));
                let fields = u64::from(self.word) & !rules::rest(&INSTRUCTION, self.word.into());
                self.offer(e, fields as u32, "clear these bits");
            }
            _ => {
                e.title(format!("the instruction descriptor `{name}` has no reading under {}: {}", under(o), clauses(rules)));
                if let Some((word, what)) = self.all_right(rules) {
                    self.offer(e, word, &format!("if the opcode is right, {what}"));
                }
            }
        }
    }

    /// The word with every wrong field put right, and what is done for it; none where a field may have several values.
    fn all_right(&self, rules: &[Rule]) -> Option<(u32, String)> {
        let o = self.mma.opcode;
        let rest = rules::rest(&INSTRUCTION, self.word.into()) as u32;
        let is_right = |word: u32, at: usize| rules::no_reading(o, &values(word), 0).iter().all(|rule| rule.field != Some(at));
        let (mut word, mut fields) = (self.word & !rest, Vec::new());
        for at in rules.iter().filter_map(|rule| rule.field) {
            let good: Vec<u32> = INSTRUCTION[at].values().map(|v| put(word, at, v)).filter(|&word| is_right(word, at)).collect();
            let [one] = good[..] else { return None };
            word = one;
            fields.push(Instruction { word, ..*self }.named(at));
        }
        let cleared = if rest == 0 { "" } else { "clear the bits that must be 0 and " };
        o.decode(word).is_ok().then(|| (word, format!("{cleared}make {}", listed(&fields, "and"))))
    }

    /// One field is wrong: offers the nearest values that would do.
    fn offer_field(&self, e: &mut Explanation, at: usize) {
        let good = self.good(at);
        for &v in good.iter().take(2) {
            let named = Instruction { word: put(self.word, at, v), ..*self }.named(at);
            let what = if good.len() == 1 { format!("make {named}") } else { format!("if {named} is meant") };
            self.offer(e, put(self.word, at, v), &what);
        }
    }

    /// The sparse bit and the opcode's `.sp` differ: either may be meant.
    fn sparse(&self, e: &mut Explanation) {
        let name = &self.value.name;
        if self.mma.opcode.sp {
            e.title(format!("the instruction descriptor `{name}` is dense (bit 2 is 0), but the opcode has `.sp`"));
            self.offer(e, put(self.word, SPARSE, 1), "if the mma is sparse, set bit 2");
            self.without_metadata(e);
        } else {
            e.title(format!("the instruction descriptor `{name}` is sparse (bit 2 is 1), but the opcode has no `.sp`"));
            let dense = put(put(self.word, SELECTOR, 0), SPARSE, 0);
            self.offer(e, dense, "if the mma is dense, clear bits 0-2");
            let opcode = opcode_text(Opcode { sp: true, ..self.mma.opcode });
            e.help(format!("if the mma is sparse, write `{opcode}`, and the metadata's address in brackets before `{name}`"));
        }
    }

    /// Offers the dense opcode, with no metadata.
    fn without_metadata(&self, e: &mut Explanation) {
        let c = self.c;
        let places = c.operands(c.line());
        let (Some(&(first, _)), Some(&(_, b)), Some(&(_, metadata))) = (places.first(), places.get(2), places.get(3)) else { return };
        let Some(kept) = c.bytes().get(first - 1..b - 1) else { return };
        let dense = Opcode { sp: false, ..self.mma.opcode };
        let text = [opcode_text(dense).as_bytes(), b" ", kept].concat();
        let edit = Edit { line: c.line(), from: 3, to: metadata, text };
        self.offer_opcode(e, dense, "if the mma is dense, leave `.sp` and the metadata's address out", edit);
    }

    /// Offers another opcode: as an edit where no other mma that uses the word would have to change too, else in words.
    fn offer_opcode(&self, e: &mut Explanation, opcode: Opcode, text: &str, edit: Edit) {
        let more = self.users.iter().filter(|&&o| o != opcode).count() as u64;
        if more == 0 {
            e.fix(self.c.sheet, text, edit);
        } else if gets_further(self.c.sheet, &self.c.answer, &edit) {
            let uses = if more == 1 { "uses" } else { "use" };
            e.help(format!("{text}, here and in {} that {uses} `{}`", counted(more, "more mma"), self.value.name));
        }
    }

    /// Says under which opcodes the library takes the word as it is, and offers them.
    fn other_opcodes(&self, e: &mut Explanation) {
        let (c, o) = (self.c, self.mma.opcode);
        let kinds = KINDS.into_iter().map(|row| row.0).filter(|&kind| kind != o.kind);
        let others = kinds.map(|kind| Opcode { kind, ..o }).chain([Opcode { ws: !o.ws, ..o }]);
        for other in others.filter(|other| other.judge(self.word).is_ok()) {
            let which = match (other.kind == o.kind, other.ws) {
                (false, _) => format!("for {}, where {}", under(other), self.codes_mean(other.kind)),
                (true, true) => "with `.ws`".into(),
                (true, false) => "without `.ws`".into(),
            };
            let to = 3 + statement::opcode(c.sheet.statement(c.line())).len();
            let edit = Edit { line: c.line(), from: 3, to, text: opcode_text(other).into() };
            let text = format!("{} is good {which}: if that is meant, change the opcode", self.hex());
            self.offer_opcode(e, other, &text, edit);
        }
    }

    /// What the codes of the types are under a kind.
    fn codes_mean(&self, kind: Kind) -> String {
        let [a, b] = [ATYPE, BTYPE].map(|at| INSTRUCTION[at].of(self.word.into()));
        let name = |code: u64| name_in(rules::types(kind), code).unwrap_or("?");
        format!("the type codes {a} and {b} mean {} and {}", name(a), name(b))
    }
}

fn opcode_text(o: Opcode) -> String {
    let (ws, sp) = (if o.ws { ".ws" } else { "" }, if o.sp { ".sp" } else { "" });
    format!("tcgen05.mma{ws}{sp}.cta_group::1.kind::{}", kind_name(o.kind))
}

/// The names of a type field's codes.
fn codes(kind: Kind, at: usize) -> &'static [(u64, &'static str)] {
    match at {
        DTYPE => DTYPES,
        ATYPE | BTYPE => rules::types(kind),
        _ => &[],
    }
}

/// The types that the library lists, by dtype. The word's M and N must be listed.
fn types_listed(o: Opcode, word: u32) -> String {
    let names = rules::types(o.kind);
    let mut rows: Vec<(String, Vec<String>)> = Vec::new();
    for (d, dtype) in DTYPES {
        let good = |a: u64, b: u64| o.judge(put(put(put(word, DTYPE, *d), ATYPE, a), BTYPE, b)).is_ok();
        let pairs = names.iter().flat_map(|a| names.iter().map(move |b| (a, b))).filter(|(a, b)| good(a.0, b.0)).collect::<Vec<_>>();
        if pairs.is_empty() {
            continue;
        }
        let text = if pairs.len() == names.len() * names.len() && names.len() > 1 {
            format!("any two of {}", listed(&names.iter().map(|row| row.1.to_string()).collect::<Vec<_>>(), "and"))
        } else {
            listed(&pairs.iter().map(|(a, b)| pair(a.1, b.1)).collect::<Vec<_>>(), "or")
        };
        match rows.iter_mut().find(|row| row.0 == text) {
            Some(row) => row.1.push((*dtype).into()),
            None => rows.push((text, vec![(*dtype).into()])),
        }
    }
    let rows: Vec<_> = rows.iter().map(|(text, dtypes)| format!("dtype {} with {text}", listed(dtypes, "or"))).collect();
    rows.join("; ")
}

fn pair(a: &str, b: &str) -> String {
    if a == b {
        format!("two {a}")
    } else {
        format!("{a} and {b}")
    }
}

/// A note for each rule that a word breaks, with the field's bits.
fn broken(e: &mut Explanation, fields: &[Field], rules: &[Rule], word: u64) {
    for rule in rules {
        match rule.field.and_then(|at| fields.get(at)) {
            Some(f) => {
                let bits = if f.low == f.high { format!("bit {}", f.low) } else { format!("bits {}", f.bits()) };
                e.note(format!("{} is {bits} of the word, here {}: {}", f.name, f.of(word) / f.unit, rule.wants));
            }
            None => e.note(format!("{}: {}", rule.found, rule.wants)),
        }
    }
}

/// A shared memory descriptor has no reading.
fn shared(c: &Context, e: &mut Explanation, mma: &Mma, found: &Descriptor) {
    let (value, word) = (found.value, found.value.number);
    let name = &value.name;
    let (fixed, rest) = rules::shared_rest(word);
    let v: [u64; 6] = std::array::from_fn(|i| SHARED[i].of(word));
    let broken_rules = plain(rules::no_shared(&v, fixed, rest), rest);
    e.title(match &broken_rules[..] {
        [rule] => format!("the shared memory descriptor `{name}` has no reading: {}, {}", rule.found, is_to_be(rule)),
        rules => format!("the shared memory descriptor `{name}` has no reading: {}", clauses(rules)),
    });
    e.point(token_end(c.bytes(), c.column()), format!("operand {} (64 bits): `{name}` is {}", found.role, hex(64, word)));
    moved(c, e, value, format!("`{name}` gets {} here", hex(64, word)));
    broken(e, &SHARED, &broken_rules, word);
    if broken_rules.iter().any(|rule| rule.field == Some(rules::SWIZZLE)) {
        let names: Vec<_> = rules::SWIZZLES.iter().map(|(code, name)| format!("{code} {name}")).collect();
        e.note(format!("swizzles: {}", names.join(", ")));
    }
    if word == 0 {
        e.note("the whole word is 0: no start address and no offsets either");
    } else if fixed == 0 && word > u32::MAX.into() {
        e.note("a descriptor that was made for wgmma has 0 in bits 46-48");
    }
    match &broken_rules[..] {
        _ if is_instruction(mma, word) => exchanged(e, mma, value),
        [rule] => offer_shared(c, e, value, rule, rest),
        _ => e.help(CORRECT),
    }
}

fn is_to_be(rule: &Rule) -> String {
    if rule.field.is_some() {
        format!("which is to be {}", rule.wants)
    } else {
        format!("which {}", rule.wants)
    }
}

/// The word would do as the instruction descriptor.
fn is_instruction(mma: &Mma, word: u64) -> bool {
    u32::try_from(word).is_ok_and(|word| mma.opcode.judge(word).is_ok())
}

fn exchanged(e: &mut Explanation, mma: &Mma, value: &Value) {
    let (idesc, word) = (&mma.idesc, hex(32, value.number));
    e.note(format!("{word} is a good instruction descriptor for this opcode; the operand idesc is `{idesc}`"));
    e.help(format!("move {word} to `{idesc}` (mov.b32), and to `{}` the shared memory descriptor (mov.b64)", value.name));
}

/// One rule of a shared memory descriptor is broken: offers words that read.
fn offer_shared(c: &Context, e: &mut Explanation, value: &Value, rule: &Rule, rest: u64) {
    let word = value.number;
    let Some(f) = rule.field.and_then(|at| SHARED.get(at)) else {
        let (good, what) =
            if rest != 0 { (word & !rest, "clear these bits") } else { (word & !(7 << 46) | 1 << 46, "put 1 into bits 46-48") };
        offer(c, e, value, good, what);
        return;
    };
    let good: Vec<u64> = f.values().filter(|&v| SharedFields::decode(f.put(word, v)).is_ok()).collect();
    for v in neighbours(&good, f.of(word)) {
        offer(c, e, value, f.put(word, v), &format!("make {} {}", f.name, grouped(v)));
    }
}

#[cfg(test)]
mod tests {
    use super::*;

    #[test]
    fn numbers_in_words() {
        assert_eq!(runs(&[]), "");
        assert_eq!(runs(&[64, 128]), "64 or 128");
        assert_eq!(runs(&[64, 128, 256]), "64, 128 or 256");
        assert_eq!(runs(&[8, 16, 24, 32, 48, 64, 80, 96]), "8 to 32 in eights or 48 to 96 in sixteens");
        assert_eq!(runs(&[1, 2, 3, 4, 9]), "1 to 4 in steps of 1 or 9");
        assert_eq!(neighbours(&[32, 48, 64], 40), [32, 48]);
        assert_eq!(neighbours(&[32, 48, 64], 47), [48, 32]);
        assert_eq!(neighbours(&[32, 48, 64], 70), [64]);
    }

    /// The lists are the library's.
    #[test]
    fn what_is_listed() {
        let takes = |text: &str, at: usize| {
            let o = Opcode { kind: Kind::F16, ws: text.contains("ws"), sp: text.contains("sp") };
            runs(&takes(o, 0x0810_0010 | u32::from(o.sp) << 2, at))
        };
        assert_eq!((takes("", M), takes("", N)), ("64 or 128".into(), "8 to 256 in eights".into()));
        assert_eq!((takes("ws", M), takes("ws", N)), ("32, 64 or 128".into(), "64, 128 or 256".into()));
        assert_eq!((takes("ws sp", M), takes("ws sp", N)), ("32, 64 or 128".into(), "64 or 128".into()));
    }
}
