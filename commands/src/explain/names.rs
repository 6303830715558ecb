//! Reasons 6 and 7: a name that is not bound, is something else, or is taken; and a 129th value name.

use super::booking::{add, any_legal, back, given, uses_of};
use super::outstanding::{missing as waits, once};
use super::{counted, listed, nearest, Context, Explanation};
use crate::history::Allocation;
use crate::sheet::Edit;
use crate::statement::{self, Operand, Statement};
use std::collections::{HashMap, HashSet};

/// What a name has to be.
#[derive(Clone, Copy, PartialEq, Eq, Debug)]
pub enum Sort {
    /// A live allocation.
    Allocation,
    /// A value of so many bits.
    Value(u32),
    /// Neither: an alloc takes it.
    Fresh,
    /// Anything but a live allocation: a mov binds it.
    Bindable,
}

/// A name that a statement looks up, and what for.
pub struct Role<'s> {
    pub what: &'static str,
    pub name: &'s str,
    pub sort: Sort,
}

impl Role<'_> {
    /// It does not bind the name.
    fn is_use(&self) -> bool {
        matches!(self.sort, Sort::Allocation | Sort::Value(_))
    }
}

/// The roles of a statement's operands, in their order; none for numbers, registers and the predicate.
pub fn roles(statement: &Statement) -> Vec<Option<Role<'_>>> {
    use Sort::{Allocation, Bindable, Fresh, Value};
    let role = |what, name, sort| Some(Role { what, name, sort });
    match statement {
        Statement::Mov { name, .. } => vec![role("the target of the mov", name, Bindable), None],
        Statement::Alloc { name, .. } => vec![role("the name of the alloc", name, Fresh), None],
        Statement::Dealloc { name, .. } => vec![role("the name of the dealloc", name, Allocation), None],
        Statement::Access { store: true, address, .. } => vec![role("the address of the st", &address.name, Allocation), None],
        Statement::Access { address, .. } => vec![None, role("the address of the ld", &address.name, Allocation)],
        Statement::Mma(mma) => {
            let a = match &mma.a {
                Operand::Descriptor(name) => role("a of the mma", name, Value(64)),
                Operand::Address(address) => role("a of the mma", &address.name, Allocation),
            };
            let mut all = vec![role("d of the mma", &mma.d.name, Allocation), a, role("b of the mma", &mma.b, Value(64))];
            all.extend(mma.metadata.as_ref().map(|at| role("the metadata of the mma", &at.name, Allocation)));
            all.extend([role("idesc of the mma", &mma.idesc, Value(32)), None]);
            all
        }
        Statement::Relinquish | Statement::Wait { .. } | Statement::Fence | Statement::Exit => Vec::new(),
    }
}

/// Whether a statement looks a name up as something.
pub fn uses(statement: &Statement, name: &str, sort: Sort) -> bool {
    roles(statement).iter().flatten().any(|role| role.name == name && role.sort == sort)
}

/// Whether a statement has a name as anything.
fn has(statement: &Statement, name: &str) -> bool {
    roles(statement).iter().flatten().any(|role| role.name == name)
}

pub fn explain(c: &Context, e: &mut Explanation) {
    let Some(statement) = &c.statement else { return };
    let roles = roles(statement);
    let Some((i, Some(role))) = c.operand().and_then(|i| Some((i, roles.get(i)?.as_ref()))) else { return };
    if matches!(role.sort, Sort::Fresh | Sort::Bindable) {
        return taken(c, e, role);
    }
    let state = state_of(c, role);
    e.title(format!("{} is `{}`, {}; it must be {}", role.what, role.name, state.words(), wanted(role.sort)));
    e.point(c.column() + role.name.len(), state.label());
    behind(c, e, role.name, &state);
    rule(e, statement, role.sort);
    remedy(c, e, (i, role), &roles, &state);
}

fn wanted(sort: Sort) -> String {
    match sort {
        Sort::Allocation => "a live allocation".into(),
        Sort::Value(width) => format!("a {width}-bit value"),
        Sort::Fresh | Sort::Bindable => "a name that is free".into(),
    }
}

/// What a name is where the line is refused. Of a name that is bound later: the first line that does, and whether another does again.
#[derive(Clone, Copy, PartialEq, Eq)]
enum State {
    Value { width: u32, line: usize },
    Allocation { columns: u32, line: usize },
    GivenBack { taken: usize, line: usize },
    Later { line: usize, again: bool },
    Unseen,
}

fn state_of(c: &Context, role: &Role) -> State {
    let name = role.name;
    if let Some(value) = c.history.value(name) {
        return State::Value { width: value.width, line: value.line };
    }
    if let Some(a) = c.history.allocation(name) {
        return State::Allocation { columns: a.columns, line: a.line };
    }
    if let Some((a, line)) = c.history.ended(name).and_then(|a| Some((a, a.end?))) {
        return State::GivenBack { taken: a.line, line };
    }
    let binds = |s: &Statement| matches!(s, Statement::Alloc { name: n, .. } | Statement::Mov { name: n, .. } if n == name);
    let again = |first: usize| c.later().any(|(line, s)| line > first && binds(s));
    bound_later(c, role).map_or(State::Unseen, |line| State::Later { line, again: again(line) })
}

/// The first later line that binds a name as what it has to be.
fn bound_later(c: &Context, role: &Role) -> Option<usize> {
    let binds = |statement: &Statement| match statement {
        Statement::Alloc { name, .. } => role.sort == Sort::Allocation && name == role.name,
        Statement::Mov { name, width, .. } => role.sort == Sort::Value(*width) && name == role.name,
        _ => false,
    };
    c.later().find(|(_, statement)| binds(statement)).map(|(line, _)| line)
}

impl State {
    fn label(&self) -> String {
        match self {
            State::Value { width, line } => format!("a {width}-bit value, moved at line {line}"),
            State::Allocation { columns, line } => format!("an allocation of {}, taken at line {line}", counted(*columns, "column")),
            State::GivenBack { line, .. } => format!("given back at line {line}"),
            State::Later { line, again } => {
                format!("not bound here: line {line} {}", if *again { "is the first that binds it" } else { "binds it" })
            }
            State::Unseen => "no line up to here binds it".into(),
        }
    }

    fn words(&self) -> String {
        match self {
            State::Value { width, .. } => format!("a {width}-bit value"),
            State::Allocation { .. } => "an allocation".into(),
            State::GivenBack { line, .. } => format!("which was given back at line {line}"),
            State::Later { line, .. } => format!("which is not bound before line {line}"),
            State::Unseen => "which is not bound".into(),
        }
    }
}

/// The lines that made a name what it is.
fn behind(c: &Context, e: &mut Explanation, name: &str, state: &State) {
    match *state {
        State::Value { width, line } => e.related(line, c.span(line, 0), format!("`{name}` is bound here by `mov.b{width}`")),
        State::Allocation { columns, line } => {
            e.related(line, c.span(line, 0), format!("`{name}` takes {} here", counted(columns, "column")));
        }
        State::GivenBack { taken, line } => {
            e.related(taken, c.span(taken, 0), format!("`{name}` is taken here"));
            e.related(line, c.span(line, 0), format!("and given back here: from here on `{name}` names nothing"));
        }
        State::Later { line, again } => {
            let words = if again { "first bound here" } else { "bound only here" };
            e.related(line, c.span(line, 0), format!("`{name}` is {words}"));
        }
        State::Unseen => {}
    }
}

/// What the operand is for.
fn rule(e: &mut Explanation, statement: &Statement, sort: Sort) {
    match sort {
        Sort::Value(32) => e.note("idesc is the name of an instruction descriptor: a 32-bit value, bound by `mov.b32`"),
        Sort::Value(_) => e.note("a and b without brackets are names of shared memory descriptors: 64-bit values, bound by `mov.b64`"),
        _ => e.note("a live allocation is a name that an alloc took and no dealloc has given back"),
    }
    if let Statement::Mma(mma) = statement {
        let order = if mma.metadata.is_some() { "[d], a, b, [metadata], idesc, p" } else { "[d], a, b, idesc, p" };
        e.note(format!("the operands of this mma are `{order}`, in this order"));
    }
}

/// What would have been right.
fn remedy(c: &Context, e: &mut Explanation, at: (usize, &Role), roles: &[Option<Role>], state: &State) {
    let role = at.1;
    match *state {
        _ if is_dealloc(c) => not_live(c, e, role, state),
        State::Allocation { .. } | State::Value { .. } => {
            if !(brackets(c, e, role) || exchanged(c, e, at, roles) || width(c, e, role, state)) {
                would_do(c, e, role, &candidates(c, role.sort));
            }
        }
        State::GivenBack { .. } if role.sort != Sort::Allocation => unseen(c, e, at, roles),
        State::GivenBack { taken, line } => given_back(c, e, role, (taken, line)),
        State::Later { line, again } => no_misspelling(c, e, role, Some(line).filter(|_| !again && given(c, role.name).is_empty())),
        State::Unseen => unseen(c, e, at, roles),
    }
}

/// A name that no line up to here binds, and none after it as what it has to be: misspelt, if it stands nowhere else.
fn unseen(c: &Context, e: &mut Explanation, (i, role): (usize, &Role), roles: &[Option<Role>]) {
    let others: Vec<&str> = roles.iter().enumerate().filter(|&(j, _)| j != i).filter_map(|(_, other)| Some(other.as_ref()?.name)).collect();
    let line = c.later().find(|(_, s)| has(s, role.name)).map(|(line, _)| line);
    if let Some(line) = line {
        e.note(format!("line {line} has the name `{}` too", role.name));
    }
    if line.is_some() || others.contains(&role.name) {
        return no_misspelling(c, e, role, None);
    }
    let all = candidates(c, role.sort);
    let offered = near(c, e, role.name, &all, &others);
    // an allocation would at least be given back
    if !offered || role.sort != Sort::Allocation {
        missing(c, e, role, or(e));
    }
    if !offered && !all.is_empty() {
        would_do(c, e, role, &all);
    }
}

/// A name that other lines have too: another is misspelt where it is bound, or the one line that binds it stands too late, or its mov or
/// alloc is missing.
fn no_misspelling(c: &Context, e: &mut Explanation, role: &Role, late: Option<usize>) {
    let unused = unused(c, role.sort);
    if bound_as(c, e, role, &unused) {
        return;
    }
    let is_value = role.sort != Sort::Allocation;
    if let Some(line) = late {
        let number = if is_value { ", if its number is meant here too" } else { "" };
        e.help(format!("move line {line} up, before line {}{number}", c.line()));
    }
    if late.is_none() || is_value {
        missing(c, e, role, or(e));
    }
    if !unused.is_empty() {
        would_do(c, e, role, &unused);
    }
}

/// A use after the dealloc.
fn given_back(c: &Context, e: &mut Explanation, role: &Role, (taken, line): (usize, usize)) {
    let (name, next) = (role.name, bound_later(c, role));
    let columns = c.history.ended(name).map(|a| a.columns);
    match given(c, name).first() {
        Some(&(again, size)) => {
            let text = format!("if the `{name}` of line {taken} is meant, remove its dealloc at line {line}: line {again} gives it back");
            let offered = columns == Some(size) && e.fix(c.sheet, text, c.sheet.without(line));
            missing(c, e, role, if offered { "or, if a new one is meant, " } else { "" });
        }
        None => {
            let own = |line: &usize| next.is_none_or(|next| *line < next);
            let last = uses_of(c, name).into_iter().take_while(own).last().unwrap_or(c.line());
            let is_access = matches!(statement::read(c.sheet.statement(last)), Some(Statement::Access { .. }));
            let wait = if is_access { ", and after the wait for it" } else { "" };
            e.help(format!("move the dealloc of line {line} down, after line {last}, the last that uses `{name}`{wait}"));
            if let Some(next) = next {
                e.help(format!("or, if the `{name}` of line {next} is meant, move line {next} up, before line {}", c.line()));
            }
        }
    }
}

/// A dealloc of what is not live: it means the one allocation of its size that nothing else gives back, or it is one too many.
fn not_live(c: &Context, e: &mut Explanation, role: &Role, state: &State) {
    let name = role.name;
    if let (State::Later { line, .. }, None) = (state, back(c, name)) {
        return e.help(format!("move this line down, after line {line}, which takes `{name}`, and the last line that uses it"));
    }
    let kept: Vec<&Allocation> = c.history.live().filter(|a| back(c, &a.name).is_none()).collect();
    let size = |a: &&&Allocation| matches!(c.statement, Some(Statement::Dealloc { columns, .. }) if columns == a.columns);
    let sized: Vec<&Allocation> = kept.iter().filter(size).copied().collect();
    if let Some(a) = sized.first().filter(|a| sized.len() == 1 && uses_of(c, &a.name).is_empty()) {
        let text = format!("give `{}` back here: no line does ({})", a.name, Candidate::of(a).from);
        if e.fix(c.sheet, text, renamed(c, name, &a.name)) {
            return;
        }
    }
    let all: Vec<Candidate> = (if sized.is_empty() { kept } else { sized }).into_iter().map(Candidate::of).collect();
    let offered = *state == State::Unseen && near(c, e, name, &all, &[]);
    if !offered && !all.is_empty() {
        would_do(c, e, role, &all);
    }
    if all.is_empty() {
        one_too_many(c, e, role);
    }
}

/// A dealloc where all that is held is given back by later lines.
fn one_too_many(c: &Context, e: &mut Explanation, role: &Role) {
    let held = if c.answer.held > 0 { "later lines give back all that is held" } else { "nothing is held" };
    if !e.fix(c.sheet, format!("remove this line: {held}"), c.sheet.without(c.line())) {
        e.help("remove this line: there is nothing that it could give back");
    }
    if let Some(Statement::Dealloc { columns, .. }) = c.statement {
        e.help(format!("or, if a `{}` of {} is meant here, its alloc is missing before this line", role.name, counted(columns, "column")));
    }
}

/// Says that the mov or the alloc of a name is missing. The size of an alloc is that of the dealloc which waits for it.
fn missing(c: &Context, e: &mut Explanation, role: &Role, or: &str) {
    let (name, line) = (role.name, c.line());
    if let Sort::Value(width) = role.sort {
        return e.help(format!("{or}its mov is missing: `mov.b{width} {name}, NUMBER;` must come before line {line}"));
    }
    let line = c.history.relinquished.unwrap_or(line);
    match given(c, name).first() {
        Some(&(back, columns)) => {
            let warp = c.history.booker.map_or(c.sheet.warp(back), |by| by.warp);
            let text = format!(
                "{or}its alloc is missing: it must come before line {line}, with the {} that line {back} gives back",
                counted(columns, "column")
            );
            add(c, e, &text, line, &format!("{warp}\t{}\n", alloc(name, &columns.to_string())));
        }
        None => e.help(format!(
            "{or}its alloc is missing: `{}` must come before line {line}, with {} for COLUMNS",
            alloc(name, "COLUMNS"),
            any_legal()
        )),
    }
}

/// What a further help starts with.
fn or(e: &Explanation) -> &'static str {
    if e.helps.is_empty() {
        ""
    } else {
        "or "
    }
}

/// The names that would do and that no line uses.
fn unused<'c>(c: &'c Context, sort: Sort) -> Vec<Candidate<'c>> {
    let used = looked_up(c);
    let mut all = candidates(c, sort);
    all.retain(|candidate| !used.contains(candidate.name));
    all
}

/// The nearest of the names that no line uses may be misspelt where it is bound.
fn bound_as(c: &Context, e: &mut Explanation, role: &Role, unused: &[Candidate]) -> bool {
    closest(role.name, unused).is_some_and(|best| {
        let (line, (from, to)) = (best.line, name_at(c, best.line, 0));
        let text = format!("if line {line} is meant to bind `{}`, write that there: no line uses `{}`", role.name, best.name);
        e.fix(c.sheet, text, Edit { line, from, to, text: role.name.into() })
    })
}

/// The names that the lines of the sheet use.
fn looked_up(c: &Context) -> HashSet<String> {
    let mut all = HashSet::new();
    let mut note =
        |statement: &Statement| all.extend(roles(statement).into_iter().flatten().filter(Role::is_use).map(|r| r.name.to_string()));
    earlier(c).for_each(|(_, statement)| note(&statement));
    c.statement.iter().for_each(&mut note);
    c.later().for_each(|(_, statement)| note(statement));
    all
}

/// The lines before the refused one, each with its statement.
fn earlier<'c>(c: &'c Context) -> impl Iterator<Item = (usize, Statement)> + 'c {
    (2..c.line()).filter_map(|line| Some((line, statement::read(c.sheet.statement(line))?)))
}

fn is_dealloc(c: &Context) -> bool {
    matches!(c.statement, Some(Statement::Dealloc { .. }))
}

/// Puts a text in place of the name that is refused.
fn renamed(c: &Context, name: &str, text: &str) -> Edit {
    Edit { line: c.line(), from: c.column(), to: c.column() + name.len(), text: text.into() }
}

/// An a that lacks its brackets, or has them where it is a descriptor.
fn brackets(c: &Context, e: &mut Explanation, role: &Role) -> bool {
    let Some(Statement::Mma(mma)) = c.statement.as_ref().filter(|_| role.what == "a of the mma") else { return false };
    let (from, to) = c.span(c.line(), 1);
    let put = |text: String| Edit { line: c.line(), from, to, text: text.into() };
    let name = role.name;
    match &mma.a {
        Operand::Descriptor(_) if fits(c, name, Sort::Allocation) => {
            e.fix(c.sheet, "an a in Tensor Memory is an address, in brackets", put(format!("[{name}]")))
        }
        Operand::Address(at) if at.offset == 0 && fits(c, name, Sort::Value(64)) => {
            e.fix(c.sheet, "an a that is a descriptor has no brackets", put(name.into()))
        }
        _ => false,
    }
}

/// Whether a name is something, where the line is refused.
fn fits(c: &Context, name: &str, sort: Sort) -> bool {
    match sort {
        Sort::Allocation => c.history.allocation(name).is_some(),
        Sort::Value(width) => c.history.value(name).is_some_and(|v| v.width == width),
        Sort::Fresh | Sort::Bindable => false,
    }
}

/// Two operands of an mma, each of which would do for the other. The other stands to the right: what stands to the left is right.
fn exchanged(c: &Context, e: &mut Explanation, (i, role): (usize, &Role), roles: &[Option<Role>]) -> bool {
    let suits = |other: &Role| fits(c, other.name, role.sort) && fits(c, role.name, other.sort);
    let rest = roles.iter().enumerate().skip(i + 1).filter_map(|(j, other)| Some((j, other.as_ref()?)));
    let Some((j, other)) = rest.into_iter().find(|(_, other)| suits(other)) else { return false };
    let (left, right) = (name_at(c, c.line(), i), name_at(c, c.line(), j));
    let piece = |from: usize, to: usize| c.bytes().get(from - 1..to - 1).unwrap_or_default();
    let text = [piece(right.0, right.1), piece(left.1, right.0), piece(left.0, left.1)].concat();
    let order = format!("{} comes before {}", short(role), short(other));
    let edit = Edit { line: c.line(), from: left.0, to: right.1, text };
    e.fix(c.sheet, format!("exchange `{}` and `{}`: {order}", role.name, other.name), edit)
}

/// The name of an operand, as columns: without its bracket and offset.
fn name_at(c: &Context, line: usize, operand: usize) -> (usize, usize) {
    let (from, to) = c.span(line, operand);
    let text = c.sheet.line(line).get(from - 1..to - 1).unwrap_or_default();
    let begins = text.iter().take_while(|b| b"[ ".contains(b)).count();
    let length = text.iter().skip(begins).take_while(|b| !b" +]".contains(b)).count();
    (from + begins, from + begins + length)
}

/// `b` for `b of the mma`.
fn short<'r>(role: &Role<'r>) -> &'r str {
    role.what.trim_start_matches("the ").split(' ').next().unwrap_or(role.what)
}

/// The mov at the width that is wanted, if no line of the sheet wants the one that it has.
fn width(c: &Context, e: &mut Explanation, role: &Role, state: &State) -> bool {
    let (Sort::Value(wanted), &State::Value { width, line }) = (role.sort, state) else { return false };
    let present = Sort::Value(width);
    let wants = |s: &Statement| uses(s, role.name, present);
    let kept = c.statement.iter().any(wants) || c.later().any(|(_, s)| wants(s)) || earlier(c).any(|(_, s)| wants(&s));
    let edit = Edit { line, from: 3, to: 10, text: format!("mov.b{wanted}").into() };
    !kept && e.fix(c.sheet, format!("bind `{}` with {wanted} bits at line {line}", role.name), edit)
}

/// A name that would do, the line that binds it, and what is said of it.
struct Candidate<'h> {
    name: &'h str,
    line: usize,
    from: String,
}

impl<'h> Candidate<'h> {
    fn of(a: &'h Allocation) -> Candidate<'h> {
        Candidate { name: &a.name, line: a.line, from: format!("{}, taken at line {}", counted(a.columns, "column"), a.line) }
    }
}

/// The names that would do.
fn candidates<'c>(c: &'c Context, sort: Sort) -> Vec<Candidate<'c>> {
    let Sort::Value(width) = sort else { return c.history.live().map(Candidate::of).collect() };
    let values = c.history.values.iter().filter(|v| v.width == width);
    values.map(|v| Candidate { name: &v.name, line: v.line, from: format!("moved at line {}", v.line) }).collect()
}

/// The one of some that a name may be a misspelling of: it is nearer than any other. Names of one letter, and names that differ by their
/// digits alone, are different names.
fn closest<'a, 'h>(name: &str, all: &'a [Candidate<'h>]) -> Option<&'a Candidate<'h>> {
    let names = || all.iter().map(|candidate| candidate.name);
    let best = nearest(name, names())?;
    let distance = |other: &str| strsim::damerau_levenshtein(name, other);
    let second = nearest(name, names().filter(|&other| other != best));
    let letters = |name: &str| name.replace(|c: char| c.is_ascii_digit(), "");
    let apart = name.len().max(best.len()) == 1 || letters(name) == letters(best);
    let tie = second.is_some_and(|other| distance(other) == distance(best));
    all.iter().find(|candidate| candidate.name == best).filter(|_| !apart && !tie)
}

/// Offers the nearest name, unless another operand has it.
fn near(c: &Context, e: &mut Explanation, name: &str, candidates: &[Candidate], others: &[&str]) -> bool {
    closest(name, candidates).filter(|best| !others.contains(&best.name)).is_some_and(|best| {
        let text = format!("use `{}`, the nearest name that would do ({})", best.name, best.from);
        e.fix(c.sheet, text, renamed(c, name, best.name))
    })
}

/// Some names, each with where it comes from.
fn named(candidates: &[Candidate]) -> String {
    some_of(candidates.iter().map(|candidate| format!("`{}` ({})", candidate.name, candidate.from)).collect())
}

/// Lists what would do, or says how to have it.
fn would_do(c: &Context, e: &mut Explanation, role: &Role, candidates: &[Candidate]) {
    let (all, or) = (named(candidates), if e.helps.is_empty() { "" } else { "or, if another name is meant, " });
    match candidates.len() {
        0 => e.help(to_have_one(c, role)),
        1 => e.help(format!("{or}the one name that would do: {all}")),
        _ => e.help(format!("{or}names that would do: {all}")),
    }
}

/// What must come before the line where the name is something else, and nothing would do.
fn to_have_one(c: &Context, role: &Role) -> String {
    let line = c.line();
    match role.sort {
        Sort::Value(width) => format!("no {width}-bit value is bound here: `mov.b{width} NAME, NUMBER;` must come before line {line}"),
        _ => format!(
            "no allocation is live here: `{}` must come before line {line}, with {} for COLUMNS",
            alloc("NAME", "COLUMNS"),
            any_legal()
        ),
    }
}

fn alloc(name: &str, columns: &str) -> String {
    format!("tcgen05.alloc.cta_group::1.sync.aligned.b32 [{name}], {columns};")
}

/// The first eight of some, and how many more there are.
pub fn some_of(mut parts: Vec<String>) -> String {
    let more = parts.len().saturating_sub(8);
    if more == 0 {
        return listed(&parts, "and");
    }
    parts.truncate(8);
    format!("{} and {more} more", parts.join(", "))
}

/// An alloc of a name that is live or a value, or a mov to one that is live.
fn taken(c: &Context, e: &mut Explanation, role: &Role) {
    let state = state_of(c, role);
    let (name, alloc) = (role.name, role.sort == Sort::Fresh);
    let verb = if alloc { "the alloc takes the name" } else { "the mov binds the name" };
    let (is, never) = match state {
        State::Allocation { line, .. } => (format!("a live allocation has had since line {line}"), "not given back"),
        State::Value { line, .. } => (format!("a value has, moved at line {line}"), "value names are never freed"),
        _ => return,
    };
    e.title(format!("{verb} `{name}`, which {is}"));
    e.point(c.column() + name.len(), format!("{}; {never}", state.label()));
    behind(c, e, name, &state);
    e.note(if alloc {
        "an alloc takes a name that is neither a live allocation nor a value; \
        a dealloc frees the name of an allocation, nothing frees that of a value"
    } else {
        "a mov binds any name but that of a live allocation"
    });
    if needed_name(c, e, role) {
        return;
    }
    let returns = given(c, name);
    let pasted = alloc && pasted(c, e, &returns);
    e.help(format!(
        "{}use another name here, and in the lines that mean this one",
        if pasted { "or, if a second one is meant, " } else { "" }
    ));
    let needed = if alloc { returns.len() > 1 } else { c.later().any(|(_, s)| uses(s, name, Sort::Allocation)) };
    if let Some(a) = c.history.allocation(name).filter(|_| !needed) {
        let (columns, once) = (counted(a.columns, "column"), once(&waits(c, &[name])));
        e.help(format!("or, if no later line means the {columns} of line {}, give `{name}` back before this line{once}", a.line));
    }
}

/// The name that later lines miss, if there is one, for what is bound; says whether there is.
fn needed_name(c: &Context, e: &mut Explanation, role: &Role) -> bool {
    let sort = match &c.statement {
        Some(Statement::Mov { width, .. }) => Sort::Value(*width),
        _ => Sort::Allocation,
    };
    missed(c, sort).is_some_and(|(name, line)| {
        e.fix(c.sheet, format!("use `{name}`: line {line} needs it, and nothing binds it"), renamed(c, role.name, name))
    })
}

/// Offers to take out an alloc that stands twice, where the name is given back once.
fn pasted(c: &Context, e: &mut Explanation, returns: &[(usize, u32)]) -> bool {
    let (Some(Statement::Alloc { name, columns }), [(line, _)]) = (&c.statement, returns) else { return false };
    let same = c.history.allocation(name).filter(|a| a.columns == *columns);
    same.is_some_and(|a| {
        let text = format!("take this line out: line {} asks for the same, and it is given back once, at line {line}", a.line);
        e.fix(c.sheet, text, c.sheet.without(c.line()))
    })
}

/// The first name that a later line looks up and nothing binds, and that line.
fn missed<'c>(c: &'c Context, sort: Sort) -> Option<(&'c str, usize)> {
    let values = c.history.values.iter().map(|v| v.name.as_str());
    let mut bound: HashSet<&str> = values.chain(c.history.live().map(|a| a.name.as_str())).collect();
    for (line, statement) in c.later() {
        if let Statement::Mov { name, .. } | Statement::Alloc { name, .. } = statement {
            bound.insert(name);
        }
        let found = roles(statement).into_iter().flatten().find(|role| role.sort == sort && !bound.contains(role.name));
        if let Some(role) = found {
            return Some((role.name, line));
        }
    }
    None
}

pub fn full(c: &Context, e: &mut Explanation) {
    let Some(Statement::Mov { name, .. }) = &c.statement else { return };
    let count = c.history.values.len();
    e.title(format!("`{name}` would be value name {}; a sheet has at most {count}", count + 1));
    e.point(c.column() + name.len(), format!("{} are bound already", counted(count as u64, "value name")));
    e.note("a value name is never freed; a mov to a name that is bound binds it again, at either width, and takes no new place");
    let (unused, done) = reusable(c);
    for (what, which) in [("bound, and used by no line since", &unused), ("used for the last time before this line", &done)] {
        if !which.is_empty() {
            e.note(format!("{what}: {}", some_of(which.iter().map(|(name, line)| format!("`{name}` (line {line})")).collect())));
        }
    }
    e.help(match unused.first().or(done.first()) {
        Some((free, _)) => {
            format!("bind `{free}` again in place of `{name}`, here and in the lines that use `{name}`: no later line needs its old number")
        }
        None => format!("later lines use or bind each of the {count} names: bind a name again after its last use, in place of a new one"),
    });
}

/// Names, each with a line.
type Lines<'c> = Vec<(&'c str, usize)>;

/// The value names that no later line uses or binds: those that no line has used since their mov, with its line, and the others with the
/// line of their last use.
fn reusable<'c>(c: &'c Context) -> (Lines<'c>, Lines<'c>) {
    let mut last: HashMap<String, usize> = HashMap::new();
    for (line, statement) in earlier(c) {
        last.extend(values_of(&statement).map(|name| (name.to_string(), line)));
    }
    for (line, statement) in c.later() {
        last.extend(values_of(statement).map(|name| (name.to_string(), line)));
        // what it binds would take the place of the new number
        if let Statement::Mov { name, .. } = statement {
            last.insert(name.clone(), line);
        }
    }
    let (mut unused, mut done) = (Vec::new(), Vec::new());
    for value in &c.history.values {
        match last.get(&value.name) {
            Some(&line) if line > c.line() => {}
            Some(&line) if line > value.line => done.push((value.name.as_str(), line)),
            _ => unused.push((value.name.as_str(), value.line)),
        }
    }
    (unused, done)
}

/// The value names that a statement uses.
fn values_of(statement: &Statement) -> impl Iterator<Item = &str> {
    roles(statement).into_iter().flatten().filter(|role| matches!(role.sort, Sort::Value(_))).map(|role| role.name)
}

#[cfg(test)]
mod tests {
    use super::super::booking::short::{helps, mended, sheet, text, told};
    use super::super::{answer_of, explain, Explanation};
    use crate::sheet::Sheet;

    const I: &str = "0 mov.b32 i, 0x08100010;";
    const A: &str = "0 mov.b64 a, 0x0000400800100000;";
    const B: &str = "0 mov.b64 b, 0x0000400800100000;";
    const D: &str = "0 alloc [d], 64;";
    const BACK: &str = "0 dealloc d, 64;";
    const EXIT: &str = "0 exit;";

    fn label(e: &Explanation) -> &str {
        e.primary.as_ref().map_or("", |span| &span.label)
    }

    #[test]
    fn idesc_and_a_descriptor_exchanged() {
        let told = text(&[I, A, B, D, "0 mma [d], a, i, b, p;", BACK, EXIT]);
        assert_eq!(
            told,
            "6: b of the mma is `i`, a 32-bit value; it must be a 64-bit value\n\
            6:46-47 a 32-bit value, moved at line 2\n\
            2:11-12 `i` is bound here by `mov.b32`\n\
            note: a and b without brackets are names of shared memory descriptors: 64-bit values, bound by `mov.b64`\n\
            note: the operands of this mma are `[d], a, b, idesc, p`, in this order\n\
            help: exchange `i` and `b`: b comes before idesc\n  edit 6:46-50 b, i\n"
        );
        assert_eq!(mended(&[I, A, B, D, "0 mma [d], a, i, b, p;", BACK, EXIT]), "b, i");
        assert_eq!(mended(&[I, A, B, D, "0 mma [ d ], i , b, a, p;", BACK, EXIT]), "a , b, i");
        // d and a
        assert_eq!(mended(&[I, A, B, D, "0 mma [ a+0], d, b, i, p;", BACK, EXIT]), "d+0], a");
        assert_eq!(mended(&["0 mov.b32 i, 0x08100014;", A, B, D, "0 sparse [d], a, i, [d], b, p;", BACK, EXIT]), "b, [d], i");
    }

    #[test]
    fn a_misspelt_name() {
        let lines = ["0 alloc [accu], 64;", "0 ld {r}, [ acu +1];", "0 wait;", "0 dealloc accu, 64;", EXIT];
        let (e, _) = told(&lines);
        assert_eq!(e.title, "the address of the ld is `acu`, which is not bound; it must be a live allocation");
        assert_eq!(label(&e), "no line up to here binds it");
        assert_eq!(e.helps[0].text, "use `accu`, the nearest name that would do (64 columns, taken at line 2)");
        assert_eq!(mended(&lines), "accu");
        assert_eq!(mended(&["0 alloc [accu], 64;", "0 st [Accu], {r};", "0 wait::st;", "0 dealloc accu, 64;", EXIT]), "accu");
        assert_eq!(mended(&["0 mov.b32 idesc, 0x08100010;", "0 mov.b32 desc, 1;", A, D, "0 mma [d], a, a, idsc, p;", BACK, EXIT]), "idesc");
        // only names of the right sort and width
        let told = text(&["0 mov.b64 idesc, 1;", "0 mov.b32 desc_i, 1;", A, D, "0 mma [d], a, a, idsc, p;"]);
        let end = "help: its mov is missing: `mov.b32 idsc, NUMBER;` must come before line 6\n\
            help: or, if another name is meant, the one name that would do: `desc_i` (moved at line 3)\n";
        assert!(told.ends_with(end), "{told}");
        let told = text(&[D, "0 alloc [md], 32;", I, A, "0 sparse [d], a, a, [m], i, p;"]);
        assert!(told.starts_with("6: the metadata of the mma is `m`, which is not bound; it must be a live allocation\n"), "{told}");
    }

    #[test]
    fn names_that_would_do() {
        // two that are equally near
        let told = text(&["0 alloc [acc0], 64;", "0 alloc [acc1], 32;", "0 ld {r}, [acc];"]);
        let list = "help: or, if another name is meant, names that would do: \
            `acc0` (64 columns, taken at line 2) and `acc1` (32 columns, taken at line 3)\n";
        assert!(told.ends_with(list), "{told}");
        let mut lines: Vec<String> = (0..10).map(|i| format!("0 alloc [name{i}], 32;")).collect();
        lines.push("0 ld {name1}, [other];".into());
        let told = text(&lines.iter().map(String::as_str).collect::<Vec<_>>());
        assert!(told.ends_with("`name7` (32 columns, taken at line 9) and 2 more\n"), "{told}");
        // and none
        let told = text(&["0 ld {r}, [t];"]);
        assert!(told.contains("b32 [t], COLUMNS;` must come before line 2, with 32, 64, 128, 256 or 512 for COLUMNS\n"), "{told}");
        let told = text(&[A, "0 ld {r}, [a];"]);
        assert!(told.contains("b32 [NAME], COLUMNS;` must"), "{told}");
        let told = text(&[I, D, "0 mma [d], a, b, i, p;"]);
        assert!(told.ends_with("help: its mov is missing: `mov.b64 a, NUMBER;` must come before line 4\n"), "{told}");
    }

    #[test]
    fn given_back() {
        let told = text(&[D, BACK, "0 ld {r}, [d];", EXIT]);
        assert!(told.starts_with("6: the address of the ld is `d`, which was given back at line 3; it must be a live allocation\n"));
        for part in [
            "4:47-48 given back at line 3\n",
            "2:47-50 `d` is taken here\n",
            "3:49-50 and given back here: from here on `d` names nothing\n",
            "help: move the dealloc of line 3 down, after line 4, the last that uses `d`, and after the wait for it\n",
        ] {
            assert!(told.contains(part), "{told}");
        }
        let told = text(&[D, BACK, "0 ld {r}, [d];", D, BACK, EXIT]);
        assert!(told.contains("help: or, if the `d` of line 5 is meant, move line 5 up, before line 4\n"), "{told}");
        // an mma is not waited for
        let told = text(&[I, A, D, BACK, "0 mma [d], a, a, i, p;", EXIT]);
        assert!(told.ends_with("help: move the dealloc of line 5 down, after line 6, the last that uses `d`\n"), "{told}");
    }

    /// A name that was an allocation, where a value is wanted: to give it back later would not help.
    #[test]
    fn a_value_that_was_an_allocation() {
        let told = text(&["0 alloc [b], 32;", "0 alloc [d], 64;", "0 dealloc b, 32;", "0 mma [d], b, b, i, p;", EXIT]);
        assert!(told.starts_with("6: a of the mma is `b`, which was given back at line 4; it must be a 64-bit value\n"), "{told}");
        assert!(told.ends_with("help: its mov is missing: `mov.b64 b, NUMBER;` must come before line 5\n"), "{told}");
        assert!(!told.contains("move the dealloc"), "{told}");
    }

    #[test]
    fn given_back_twice() {
        let two = [D, "0 alloc [e], 64;", BACK, BACK, EXIT];
        assert_eq!(mended(&two), "e");
        assert_eq!(told(&two).0.helps[0].text, "give `e` back here: no line does (64 columns, taken at line 3)");
        // which a later line uses
        let told_two = text(&[D, "0 alloc [e], 64;", BACK, BACK, "0 ld {r}, [e];", EXIT]);
        assert!(told_two.ends_with("help: the one name that would do: `e` (64 columns, taken at line 3)\n"), "{told_two}");
        // `e` is given back later: the line is one too many
        let three = [D, "0 alloc [e], 64;", BACK, BACK, "0 dealloc e, 64;", EXIT];
        assert_eq!(mended(&three), "");
        assert_eq!(told(&three).0.helps[0].text, "remove this line: later lines give back all that is held");
        assert_eq!(mended(&[D, BACK, BACK, EXIT]), "");
        // the one of the same size
        assert_eq!(mended(&["0 alloc [e], 32;", D, "0 alloc [f], 64;", BACK, "0 dealloc g, 64;", "0 dealloc e, 32;", EXIT]), "f");
    }

    #[test]
    fn bound_later() {
        let told = text(&["0 ld {r}, [t];", "0 mov.b32 x, 1;", "0 alloc [t], 64;", "0 dealloc t, 64;", EXIT]);
        assert!(told.starts_with("6: the address of the ld is `t`, which is not bound before line 4; it must be a live allocation\n"));
        assert!(told.contains("4:47-50 `t` is bound only here\n") && told.contains("help: move line 4 up, before line 2\n"), "{told}");
        // as something else
        assert!(text(&["0 ld {r}, [t];", "0 mov.b32 t, 1;", EXIT]).contains("no line up to here binds it"));
        assert!(text(&[D, "0 mma [d], a, a, i, p;", A]).contains("not bound here: line 4 binds it"));
        assert!(text(&[D, "0 mma [d], i, i, i, p;", I]).contains("no line up to here binds it"));
    }

    #[test]
    fn another_sort_or_width() {
        let told = text(&[D, A, "0 ld {r}, [a];"]);
        assert!(told.contains("is `a`, a 64-bit value; it must be a live allocation\n4:47-48 a 64-bit value, moved at line 3\n"), "{told}");
        let told = text(&[D, I, A, "0 mma [d], a, d, i, p;"]);
        assert!(told.contains("b of the mma is `d`, an allocation; it must be a 64-bit value\n"), "{told}");
        assert!(told.contains("2:47-50 `d` takes 64 columns here\n"), "{told}");
        // an a with and without its brackets
        assert_eq!(mended(&[I, A, D, "0 mma [d], d, a, i, p;", BACK, EXIT]), "[d]");
        assert_eq!(mended(&[I, A, D, "0 mma [d], [a], a, i, p;", BACK, EXIT]), "a");
        let told = text(&[I, A, D, "0 mma [d], [a+8], a, i, p;", BACK, EXIT]);
        assert!(told.ends_with("help: the one name that would do: `d` (64 columns, taken at line 4)\n"), "{told}");
        // the width of the mov
        let wide = ["0 mov.b64 i, 0x08100010;", A, D, "0 mma [d], a, a, i, p;", BACK, EXIT];
        assert_eq!(mended(&wide), "mov.b32");
        assert_eq!(told_help(&wide), "bind `i` with 32 bits at line 2");
        // which something else needs as it is
        assert_eq!(told_help(&[I, A, D, "0 mma [d], i, a, i, p;", BACK, EXIT]), "the one name that would do: `a` (moved at line 3)");
        // and a number that does not fit
        assert_eq!(
            told_help(&[A, D, "0 mma [d], a, a, a, p;", BACK]),
            "no 32-bit value is bound here: `mov.b32 NAME, NUMBER;` must come before line 4"
        );
    }

    fn told_help(lines: &[&str]) -> String {
        told(lines).0.helps.first().map_or(String::new(), |help| help.text.clone())
    }

    #[test]
    fn taken() {
        let told = text(&[D, "0 alloc [d], 32;", BACK, EXIT]);
        assert!(told.starts_with("6: the alloc takes the name `d`, which a live allocation has had since line 2\n"), "{told}");
        assert!(told.contains("3:48-49 an allocation of 64 columns, taken at line 2; not given back\n"), "{told}");
        let end = "help: use another name here, and in the lines that mean this one\n\
            help: or, if no later line means the 64 columns of line 2, give `d` back before this line\n";
        assert!(told.ends_with(end), "{told}");
        // a line that was pasted: the same request, given back once
        let pasted = [D, D, "0 ld {r}, [d];", "0 wait;", BACK, D, BACK, EXIT];
        assert_eq!(
            (mended(&pasted), told_help(&pasted)),
            (String::new(), "take this line out: line 2 asks for the same, and it is given back once, at line 6".into())
        );
        assert!(text(&pasted).contains("help: or, if a second one is meant, use another name here, and in the lines that mean this one\n"));
        let twice = text(&[D, D, BACK, BACK, EXIT]);
        assert!(twice.ends_with("help: use another name here, and in the lines that mean this one\n"), "{twice}");
        // the name that the lines after it mean
        // what is outstanding is waited for first
        let told = text(&[D, "1 st [d+2097152], {r};", "0 alloc [d], 32;", "0 dealloc d, 32;", EXIT]);
        assert!(told.ends_with("line 2, give `d` back before this line, once warp 1 has waited for its store\n"), "{told}");
        let other = [D, "0 alloc [d], 32;", "0 ld {r}, [e];", "0 wait;", BACK, "0 dealloc e, 32;", EXIT];
        assert_eq!((mended(&other), told_help(&other)), ("e".into(), "use `e`: line 4 needs it, and nothing binds it".into()));
        let told = text(&["0 mov.b64 i, 1;", I, "0 alloc [i], 32;", EXIT]);
        assert!(told.starts_with("6: the alloc takes the name `i`, which a value has, moved at line 3\n"), "{told}");
        assert!(told.contains("a 32-bit value, moved at line 3; value names are never freed\n"), "{told}");
        let told = text(&[D, "0 mov.b32 d, 1;", BACK, EXIT]);
        assert!(told.starts_with("6: the mov binds the name `d`, which a live allocation has had since line 2\n"), "{told}");
        // `d` is needed: it is not to be given back here
        assert!(told.ends_with("help: use another name here, and in the lines that mean this one\n"), "{told}");
        assert_eq!(mended(&[I, D, "0 mov.b64 d, 0x0000400800100000;", "0 mma [d], a, a, i, p;", BACK, EXIT]), "a");
    }

    const GEMM: &str = include_str!("../../../examples/gemm.sheet");
    const ATTENTION: &str = include_str!("../../../examples/attention.sheet");
    const SPARSE: &str = include_str!("../../../examples/sparse.sheet");
    const ALLOC: &str = "tcgen05.alloc.cta_group::1.sync.aligned.b32";

    /// A sheet without the first of its lines that has a text.
    fn without(sheet: &str, text: &str) -> String {
        let mut lines: Vec<&str> = sheet.split_inclusive('\n').collect();
        lines.remove(lines.iter().position(|line| line.contains(text)).unwrap());
        lines.concat()
    }

    /// A sheet with a line put before one, counted from 1.
    fn put(sheet: &str, line: usize, new: &str) -> String {
        let mut lines: Vec<&str> = sheet.split_inclusive('\n').collect();
        lines.insert(line - 1, new);
        lines.concat()
    }

    /// The helps for a sheet are these, and with each edit it passes.
    fn helped(sheet: &str, wanted: &str) {
        let e = explain(sheet.as_bytes(), sheet.len());
        assert_eq!(helps(&e), wanted, "{}", e.title);
        for edit in e.helps.iter().filter_map(|help| help.edit.as_ref()) {
            assert_eq!(answer_of(&Sheet::new(sheet.as_bytes()).edited(edit)).reason, None, "{wanted}");
        }
    }

    #[test]
    fn a_mov_is_missing() {
        for (sheet, mov, line) in [
            (GEMM, "mov.b64 bdesc", 6),
            (GEMM, "mov.b64 adesc", 6),
            (GEMM, "mov.b32 idesc", 6),
            (SPARSE, "mov.b64 b", 14),
            (ATTENTION, "mov.b32 ipv", 27),
            (ATTENTION, "mov.b64 v", 27),
        ] {
            helped(&without(sheet, mov), &format!("help: its mov is missing: `{mov}, NUMBER;` must come before line {line}\n"));
        }
        // the one mov that is left is not moved up for good
        let again = [I, A, D, "0 mma [d], a, b, i, p;", B, "0 mma [d], a, b, i, p;", BACK, EXIT];
        let both = "help: move line 6 up, before line 5, if its number is meant here too\n\
            help: or its mov is missing: `mov.b64 b, NUMBER;` must come before line 5\n";
        helped(&String::from_utf8(sheet(&again)).unwrap(), both);
        assert!(text(&again).contains("6:11-12 `b` is bound only here\n"));
        let told = text(&[I, A, D, "0 mma [d], a, b, i, p;", B, B, BACK, EXIT]);
        assert!(told.contains("not bound here: line 6 is the first that binds it\n6:11-12 `b` is first bound here\n"), "{told}");
        assert!(!told.contains("move line"), "{told}");
        // twice in one line
        let x = "0 mov.b64 adesc, 0x0000400800100000;";
        let told = text(&[x, I, D, "0 mma [d], adesc, adesc, i, p;", "0 mma [d], desc, desc, i, p;", BACK, EXIT]);
        assert!(told.contains("help: its mov is missing: `mov.b64 desc, NUMBER;`") && !told.contains("  edit"), "{told}");
    }

    #[test]
    fn an_alloc_is_missing() {
        for (sheet, name, columns, line, back, warp) in [
            (GEMM, "acc0", 128, 6, 109, 0),
            (GEMM, "acc1", 128, 32, 110, 0),
            (SPARSE, "meta", 32, 6, 19, 1),
            (SPARSE, "acc", 64, 14, 32, 1),
            (ATTENTION, "probs", 64, 11, 83, 0),
        ] {
            let wanted = format!(
                "help: its alloc is missing: it must come before line {line}, with the {columns} columns that line {back} gives back\n  \
                edit {line}:1-1 {warp}<tab>{ALLOC} [{name}], {columns};<lf>\n"
            );
            helped(&without(sheet, &format!("[{name}], {columns};")), &wanted);
        }
        // before the relinquish
        let told = text(&["3 relinquish;", "0 ld {r}, [d];", "3 dealloc d, 64;", EXIT]);
        assert!(told.ends_with(&format!("  edit 2:1-1 3<tab>{ALLOC} [d], 64;<lf>\n")), "{told}");
        // where there is no room
        let told = text(&["0 alloc [e], 512;", "0 ld {r}, [d];", BACK, "0 dealloc e, 512;", EXIT]);
        assert!(told.ends_with(&format!("with the 64 columns that line 4 gives back: `{ALLOC} [d], 64;`\n")), "{told}");
        // and a second one later
        let told = text(&["0 ld {r}, [d];", BACK, D, BACK, EXIT]);
        assert!(
            told.contains("`d` is bound only here\n") && told.ends_with(&format!("  edit 2:1-1 0<tab>{ALLOC} [d], 64;<lf>\n")),
            "{told}"
        );
        let told = text(&["0 ld {r}, [d];", D, BACK, D, BACK, EXIT]);
        assert!(told.contains("`d` is first bound here\n") && told.ends_with("or 512 for COLUMNS\n"), "{told}");
    }

    #[test]
    fn an_early_dealloc() {
        let line = "0\ttcgen05.dealloc.cta_group::1.sync.aligned.b32 acc1, 128;\n";
        helped(
            &put(GEMM, 30, line),
            &format!(
                "help: if the `acc1` of line 3 is meant, remove its dealloc at line 30: line 112 gives it back\n  edit 30:1-{} \n\
                help: or, if a new one is meant, its alloc is missing: it must come before line 34, \
                with the 128 columns that line 112 gives back\n  edit 34:1-1 0<tab>{ALLOC} [acc1], 128;<lf>\n",
                line.len() + 1
            ),
        );
        helped(
            &put(&without(GEMM, "b32 acc1, 128"), 30, line),
            "help: move the dealloc of line 30 down, after line 107, the last that uses `acc1`, and after the wait for it\n",
        );
        // of another size
        let told = text(&[D, BACK, "0 ld {r}, [d];", "0 dealloc d, 32;", EXIT]);
        assert!(told.contains("help: its alloc is missing: ") && !told.contains("remove"), "{told}");
        // before its alloc
        let told = text(&[BACK, D, EXIT]);
        assert!(told.ends_with("help: move this line down, after line 3, which takes `d`, and the last line that uses it\n"), "{told}");
        let told = text(&[BACK, D, BACK, EXIT]);
        assert!(told.contains("help: remove this line: nothing is held\n"), "{told}");
        assert!(told.ends_with("help: or, if a `d` of 64 columns is meant here, its alloc is missing before this line\n"), "{told}");
    }

    #[test]
    fn misspelt_where_it_is_bound() {
        for (sheet, right, wrong, line) in [(GEMM, "mov.b64 bdesc", "mov.b64 bdsc", 6), (ATTENTION, "[probs], 64", "[prob], 64", 3)] {
            let bad = sheet.replacen(right, wrong, 1);
            let e = explain(bad.as_bytes(), bad.len());
            assert_eq!((e.helps.len(), e.helps[0].edit.as_ref().map(|edit| edit.line)), (1, Some(line)), "{}", helps(&e));
            assert!(e.helps[0].text.starts_with(&format!("if line {line} is meant to bind `")), "{}", e.helps[0].text);
            assert_eq!(Sheet::new(bad.as_bytes()).edited(e.helps[0].edit.as_ref().unwrap()), sheet.as_bytes());
        }
        // by a name that is not near
        let told = text(&["0 alloc [accumulator], 64;", "0 ld {r}, [acc];", "0 st [acc], {r};", EXIT]);
        assert!(told.ends_with("for COLUMNS\nhelp: or, if another name is meant, the one name that would do: `accumulator` (64 columns, taken at line 2)\n"), "{told}");
    }

    /// An edit that would give an mma another operand than was meant.
    #[test]
    fn different_names() {
        for lines in [
            // two operands of one mma
            &["0 mov.b64 adesc, 0x0000400800100000;", I, D, "0 mma [d], adesc, bdesc, i, p;", BACK, EXIT][..],
            // one letter
            &[A, I, D, "0 mma [d], a, b, i, p;", BACK, EXIT],
            &[A, B, I, D, "0 mma [d], a, b, j, p;", BACK, EXIT],
            // numbers
            &[A, "0 mov.b32 idesc0, 0x08100010;", D, "0 mma [d], a, a, idesc1, p;", BACK, EXIT],
        ] {
            let told = text(lines);
            assert!(told.contains("help: its mov is missing: `mov.b") && !told.contains("  edit"), "{told}");
        }
    }

    #[test]
    fn a_width_that_every_line_wants() {
        let wide = GEMM.replacen("mov.b32 idesc", "mov.b64 idesc", 1);
        helped(&wide, "help: bind `idesc` with 32 bits at line 4\n  edit 4:3-10 mov.b32\n");
        let narrow = GEMM.replacen("mov.b64 adesc, 0x4000404001000002", "mov.b32 adesc, 2", 1);
        let e = explain(narrow.as_bytes(), narrow.len());
        assert_eq!(helps(&e), "help: bind `adesc` with 64 bits at line 8\n  edit 8:3-10 mov.b64\n");
        // an earlier line wants the other
        let both = ["0 mov.b32 x, 0x08100010;", A, D, "0 mma [d], a, a, x, p;", "0 mov.b32 x, 1;", "0 mma [d], x, a, x, p;", BACK, EXIT];
        assert!(!text(&both).contains("  edit"));
    }

    #[test]
    fn no_place_for_a_value() {
        let mut lines: Vec<String> = (0..126).map(|i| format!("0 mov.b32 x{i}, 1;")).collect();
        lines.extend([A, B, D, "0 mov.b32 x7, 0x08100010;", "0 mma [d], a, b, x7, p;", "0 mov.b32 new, 0x08100010;"].map(String::from));
        lines.push("0 mma [d], a, a, x7, p;".into());
        let told = text(&lines.iter().map(String::as_str).collect::<Vec<_>>());
        assert!(
            told.starts_with("7: `new` would be value name 129; a sheet has at most 128\n133:11-14 128 value names are bound already\n"),
            "{told}"
        );
        assert!(told.contains("`x6` (line 8), `x8` (line 10) and 117 more\n"), "{told}");
        assert!(told.contains("note: used for the last time before this line: `b` (line 132)\n"), "{told}");
        assert!(told.contains("help: bind `x0` again in place of `new`"), "{told}");
        // a name that a later line binds would lose the new number there
        lines.push("0 mov.b64 x0, 1;".into());
        let told = text(&lines.iter().map(String::as_str).collect::<Vec<_>>());
        assert!(told.contains("help: bind `x1` again in place of `new`"), "{told}");
    }
}
