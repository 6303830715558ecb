//! Reason 18: an allocation is given back while a load or a store of it is outstanding. And the waits that are missing, for every help that
//! gives something back.

use super::booking::star;
use super::{listed, Context, Explanation};
use crate::history::{Access, By, Use, Wait};
use crate::sheet::Edit;
use crate::statement::{self, Statement};

const WARPS: u32 = 4;
const KINDS: [Use; 2] = [Use::Load, Use::Store];

/// A wait that is missing: of a warp for its loads, or for its stores, with those that are outstanding, in the order of their lines.
pub struct Missing<'c> {
    warp: u32,
    kind: Use,
    accesses: Vec<&'c Access>,
}

/// The waits that must come before some live allocations are given back: at most one for each warp and kind.
pub fn missing<'c>(c: &'c Context, names: &[&str]) -> Vec<Missing<'c>> {
    let pairs = (0..WARPS).flat_map(|warp| KINDS.map(|kind| (warp, kind)));
    let of = |(warp, kind)| {
        let mut accesses: Vec<&Access> = names.iter().flat_map(|name| c.history.outstanding(name, warp, kind)).collect();
        accesses.sort_by_key(|a| a.line);
        Missing { warp, kind, accesses }
    };
    pairs.map(of).filter(|m| !m.accesses.is_empty()).collect()
}

/// The lines of these waits.
pub fn waits(missing: &[Missing]) -> String {
    missing.iter().map(|m| format!("{}\t{}\n", m.warp, wait(m.kind))).collect()
}

/// What a help that gives something back says of these waits; nothing where there is none.
pub fn once(missing: &[Missing]) -> String {
    match warps(missing) {
        _ if missing.is_empty() => String::new(),
        (warps, true) => format!(", once {warps} has waited for its {}", things(missing)),
        (warps, false) => format!(", once {warps} have waited for their {}", things(missing)),
    }
}

fn wait(kind: Use) -> String {
    format!("tcgen05.wait::{}.sync.aligned;", kind.word())
}

fn noun(kind: Use) -> &'static str {
    match kind {
        Use::Store => "store",
        _ => "load",
    }
}

/// How many loads and stores are outstanding.
fn count<'m>(missing: impl IntoIterator<Item = &'m Missing<'m>>) -> usize {
    missing.into_iter().map(|m| m.accesses.len()).sum()
}

/// `warp 1` or `warps 0 and 1`, and whether it is one.
fn warps(missing: &[Missing]) -> (String, bool) {
    let mut all: Vec<String> = missing.iter().map(|m| m.warp.to_string()).collect();
    all.dedup();
    (format!("warp{} {}", if all.len() == 1 { "" } else { "s" }, listed(&all, "and")), all.len() == 1)
}

/// `load`, `stores`, `loads and stores`.
fn things(missing: &[Missing]) -> String {
    let end = if warps(missing).1 && missing.iter().all(|m| m.accesses.len() == 1) { "" } else { "s" };
    let words = KINDS.into_iter().filter(|&kind| missing.iter().any(|m| m.kind == kind)).map(|kind| format!("{}{end}", noun(kind)));
    listed(&words.collect::<Vec<_>>(), "and")
}

/// `a load by warp 1 is`, `loads by warps 0 and 1 and a store by warp 2 are`.
fn under_way(missing: &[Missing]) -> String {
    let mut parts = Vec::new();
    for kind in KINDS {
        let of: Vec<&Missing> = missing.iter().filter(|m| m.kind == kind).collect();
        let by: Vec<String> = of.iter().map(|m| m.warp.to_string()).collect();
        match count(of) {
            0 => {}
            1 => parts.push(format!("a {} by warp {}", noun(kind), listed(&by, "and"))),
            _ => parts.push(format!("{}s by warp{} {}", noun(kind), if by.len() == 1 { "" } else { "s" }, listed(&by, "and"))),
        }
    }
    format!("{} {}", listed(&parts, "and"), if count(missing) == 1 { "is" } else { "are" })
}

pub fn explain(c: &Context, e: &mut Explanation) {
    let Some(Statement::Dealloc { name, columns }) = &c.statement else { return };
    let missing = missing(c, &[name]);
    if missing.is_empty() {
        return;
    }
    e.title(format!("`{name}` is given back while {} outstanding", under_way(&missing)));
    e.point(c.span(c.line(), usize::MAX).1, format!("the {columns} columns of `{name}` are free from here on"));
    for m in &missing {
        point_at(c, e, name, m);
    }
    let others = others(c, &missing);
    for wait in &others {
        let text = format!("this waits for the {}s of warp {} alone{}", noun(wait.kind), wait.by.warp, star(c, wait.by.line));
        e.related(wait.by.line, c.span(wait.by.line, usize::MAX), text);
    }
    if let Some(line) = fence(c, &missing).filter(|_| others.is_empty()) {
        e.related(line, c.span(line, usize::MAX), "a fence waits for no load and no store");
    }
    rule(e, &missing);
    let (who, one) = warps(&missing);
    let first = format!("let {who} wait for {} {} first", if one { "its" } else { "their" }, things(&missing));
    if !e.fix(c.sheet, first.as_str(), Edit::before(c.line(), waits(&missing))) {
        let said = missing.iter().map(|m| format!("`{}` by warp {}", wait(m.kind), m.warp));
        e.help(format!("{first}: {}", listed(&said.collect::<Vec<_>>(), "and")));
    }
    if let [m] = &missing[..] {
        meant(c, e, m, &others);
        too_early(c, e, name, m);
        too_late(c, e, m);
    }
}

/// The last load or store of a warp that is outstanding.
fn point_at(c: &Context, e: &mut Explanation, name: &str, m: &Missing) {
    let Some(line) = m.accesses.last().map(|a| a.line) else { return };
    let (operand, verb) = if m.kind == Use::Store { (0, "stores to") } else { (1, "loads from") };
    let what = match m.accesses.len() {
        1 => format!("warp {} {verb} `{name}` here", m.warp),
        n => format!("warp {} {verb} `{name}` here, the last of {n} times", m.warp),
    };
    let wait = format!("no `wait::{}` by warp {} follows before line {}", m.kind.word(), m.warp, c.line());
    e.related(line, c.span(line, operand), format!("{what}{}: {wait}", star(c, line)));
}

/// The waits that stand between a load or store and the dealloc and do nothing for it: of another warp, or for the other kind. The last two
/// of those that wait for nothing at all; where there is none the last one.
fn others(c: &Context, missing: &[Missing]) -> Vec<Wait> {
    let after = |m: &Missing, line: usize| m.accesses.last().is_some_and(|a| a.line < line);
    let near = |wait: &&Wait| missing.iter().any(|m| after(m, wait.by.line) && (m.warp == wait.by.warp) != (m.kind == wait.kind));
    let all: Vec<Wait> = c.history.waits.iter().filter(near).copied().collect();
    let idle: Vec<Wait> = all.iter().filter(|wait| is_idle(c, wait)).copied().collect();
    let (shown, most) = if idle.is_empty() { (all, 1) } else { (idle, 2) };
    shown[shown.len().saturating_sub(most)..].to_vec()
}

/// The last fence between a load or store and the dealloc.
fn fence(c: &Context, missing: &[Missing]) -> Option<usize> {
    let from = missing.iter().filter_map(|m| m.accesses.last()).map(|a| a.line).min()?;
    (from..c.line()).rev().find(|&line| statement::read(c.sheet.statement(line)) == Some(Statement::Fence))
}

/// When a load and a store are done, and what comes of it if they are not.
fn rule(e: &mut Explanation, missing: &[Missing]) {
    let has = |kind: Use| missing.iter().any(|m| m.kind == kind);
    let (until, harm) = match KINDS.map(has) {
        [true, false] => {
            ("a load is outstanding until its own warp waits with `wait::ld`", "a load that still reads them gets another's data")
        }
        [false, true] => {
            ("a store is outstanding until its own warp waits with `wait::st`", "a store that still writes them overwrites another's data")
        }
        _ => (
            "a load is outstanding until its own warp waits with `wait::ld`, a store until it waits with `wait::st`",
            "a load that still reads them gets another's data, a store that still writes them overwrites it",
        ),
    };
    e.note(format!("{until}; no other warp's wait ends it, no wait of the other kind, and no fence"));
    e.note(format!(
        "columns given back go to the next alloc or the next block: {harm}, and neither ptxas nor its checks at run time look for it"
    ));
}

/// Offers the one wait that is missing in place of one that stands there and waits for nothing.
fn meant(c: &Context, e: &mut Explanation, m: &Missing, others: &[Wait]) {
    let Some(Wait { by: By { line, warp }, kind }) = others.iter().rev().find(|wait| is_idle(c, wait)).copied() else { return };
    let idle = format!("no {} of warp {warp} is outstanding there", noun(kind));
    if kind == m.kind {
        let edit = Edit { line, from: 1, to: 2, text: m.warp.to_string().into() };
        e.fix(c.sheet, format!("or, if the wait of line {line} is meant, let it be by warp {}: {idle}", m.warp), edit);
    } else {
        let old = c.sheet.line(line);
        let edit = Edit::between(line, old, &[&old[..old.len().min(2)], wait(m.kind).as_bytes()].concat());
        e.fix(c.sheet, format!("or, if the wait of line {line} is meant, write `wait::{}`: {idle}", m.kind.word()), edit);
    }
}

/// Its warp has done nothing that it could wait for since it waited before.
fn is_idle(c: &Context, wait: &Wait) -> bool {
    let same = |other: &&Wait| (other.by.warp, other.kind) == (wait.by.warp, wait.kind) && other.by.line < wait.by.line;
    let before = c.history.waits.iter().rev().find(same).map_or(0, |other| other.by.line);
    let busy = |a: &Access| (a.warp, a.kind) == (wait.by.warp, wait.kind) && (before..wait.by.line).contains(&a.line);
    !c.history.accesses.iter().any(busy)
}

/// The one wait that is missing stands before the load or store, where it waits for nothing.
fn too_early(c: &Context, e: &mut Explanation, name: &str, m: &Missing) {
    let (Some(a), Some(first), Some(last)) = (c.history.allocation(name), m.accesses.first(), m.accesses.last()) else { return };
    let between = |wait: &&Wait| (wait.by.warp, wait.kind) == (m.warp, m.kind) && (a.line..first.line).contains(&wait.by.line);
    let found = c.history.waits.iter().rev().find(between).filter(|wait| is_idle(c, wait));
    if let Some(Wait { by: By { line, .. }, .. }) = found {
        e.related(*line, c.span(*line, usize::MAX), format!("this waits for nothing: the {} comes after it", noun(m.kind)));
        e.help(format!("or move line {line}, which waits too early, down after line {}", last.line));
    }
}

/// The one wait that is missing stands after the dealloc, and its warp does nothing before it that needs it there.
fn too_late(c: &Context, e: &mut Explanation, m: &Missing) {
    let of = |statement: &Statement| match statement {
        Statement::Access { store, .. } | Statement::Wait { store } => *store == (m.kind == Use::Store),
        _ => false,
    };
    let next = c.later().find(|&(line, statement)| of(statement) && c.sheet.warp(line) == m.warp);
    if let Some((line, Statement::Wait { .. })) = next {
        e.help(format!("or move line {line}, which waits too late, up before line {}", c.line()));
    }
}

#[cfg(test)]
mod tests {
    use super::super::booking::short::{mended, text, told};
    use super::super::{answer_of, explain};
    use crate::sheet::Sheet;

    const T: &str = "0 alloc [t], 32;";
    const BACK: &str = "0 dealloc t, 32;";
    const EXIT: &str = "0 exit;";
    const LD1: &str = "1 ld {r}, [t+2097152];";
    const ST1: &str = "1 st [t+2097152], {r};";
    const WAIT1: &str = "1\ttcgen05.wait::ld.sync.aligned;\n";

    /// Each of some parts is said.
    fn tells(lines: &[&str], parts: &[&str]) {
        let told = text(lines);
        for part in parts {
            assert!(told.contains(part), "no {part:?} in\n{told}");
        }
    }

    #[test]
    fn a_load() {
        let lines = [T, LD1, BACK, EXIT];
        assert_eq!(
            text(&lines),
            "18: `t` is given back while a load by warp 1 is outstanding\n\
            4:3-48 the 32 columns of `t` are free from here on\n\
            3:46-57 warp 1 loads from `t` here: no `wait::ld` by warp 1 follows before line 4\n\
            note: a load is outstanding until its own warp waits with `wait::ld`; no other warp's wait ends it, no wait of the other kind, and no fence\n\
            note: columns given back go to the next alloc or the next block: a load that still reads them gets another's data, \
            and neither ptxas nor its checks at run time look for it\n\
            help: let warp 1 wait for its load first\n  edit 4:1-1 1<tab>tcgen05.wait::ld.sync.aligned;<lf>\n"
        );
        assert_eq!(mended(&lines), WAIT1);
        // the figures are the library's
        let (e, _) = told(&["0 alloc [u], 64;", T, "0 dealloc u, 64;", LD1, BACK, EXIT]);
        assert_eq!((e.answer.line, e.answer.column, e.answer.held, e.answer.peak), (6, 3, 32, 96));
    }

    #[test]
    fn a_store() {
        let lines = [T, ST1, BACK, EXIT];
        tells(
            &lines,
            &[
                "18: `t` is given back while a store by warp 1 is outstanding\n",
                "3:41-52 warp 1 stores to `t` here: no `wait::st` by warp 1 follows before line 4\n",
                "note: a store is outstanding until its own warp waits with `wait::st`; no other warp's wait ends it, no wait of the other kind, and no fence\n",
                ": a store that still writes them overwrites another's data, and neither ptxas nor its checks at run time look for it\n",
                "help: let warp 1 wait for its store first\n",
            ],
        );
        assert_eq!(mended(&lines), "1\ttcgen05.wait::st.sync.aligned;\n");
    }

    /// One wait for each warp and kind, whatever the number of loads and stores; the last of each is pointed at.
    #[test]
    fn several() {
        let lines = [T, "3 ld {r}, [t+6291456];", LD1, ST1, LD1, "2 st [t+4194304], {r};", BACK, EXIT];
        tells(
            &lines,
            &[
                "18: `t` is given back while loads by warps 1 and 3 and stores by warps 1 and 2 are outstanding\n",
                "6:46-57 warp 1 loads from `t` here, the last of 2 times: no `wait::ld` by warp 1 follows before line 8\n\
                5:41-52 warp 1 stores to `t` here: no `wait::st` by warp 1 follows before line 8\n\
                7:41-52 warp 2 stores to `t` here: no `wait::st` by warp 2 follows before line 8\n\
                3:46-57 warp 3 loads from `t` here: no `wait::ld` by warp 3 follows before line 8\nnote: ",
                "note: a load is outstanding until its own warp waits with `wait::ld`, a store until it waits with `wait::st`; no other",
                ": a load that still reads them gets another's data, a store that still writes them overwrites it, and neither ptxas",
                "help: let warps 1, 2 and 3 wait for their loads and stores first\n",
            ],
        );
        let waits =
            [(1, "ld"), (1, "st"), (2, "st"), (3, "ld")].map(|(warp, kind)| format!("{warp}\ttcgen05.wait::{kind}.sync.aligned;\n"));
        assert_eq!(mended(&lines), waits.concat());
        tells(&[T, LD1, LD1, BACK], &["while loads by warp 1 are outstanding\n", "help: let warp 1 wait for its loads first\n"]);
        tells(
            &[T, LD1, ST1, BACK],
            &["while a load by warp 1 and a store by warp 1 are", "help: let warp 1 wait for its load and store first\n"],
        );
        // those of another allocation are not its own
        let two = ["0 alloc [u], 32;", T, "1 ld {r}, [u+2097152];", "0 ld {r}, [t];", BACK, "0 dealloc u, 32;", EXIT];
        tells(&two, &["18: `t` is given back while a load by warp 0 is outstanding\n"]);
        assert_eq!(answer_of(&edited(&two)).line, 8);
    }

    /// The sheet of some lines with the first edit that is offered.
    fn edited(lines: &[&str]) -> Vec<u8> {
        let bytes = super::super::booking::short::sheet(lines);
        let e = explain(&bytes, bytes.len());
        Sheet::new(&bytes).edited(e.helps[0].edit.as_ref().unwrap())
    }

    #[test]
    fn a_star_is_warp_0() {
        let lines = [T, "* ld {r}, [t];", BACK, EXIT];
        tells(&lines, &["by warp 0 is", "3:46-49 warp 0 loads from `t` here (`*` is read as warp 0): no `wait::ld` by warp 0 follows"]);
        assert_eq!(mended(&lines), "0\ttcgen05.wait::ld.sync.aligned;\n");
        // and waits for it
        tells(&[T, LD1, "* wait;", BACK, EXIT], &["4:3-32 this waits for the loads of warp 0 alone (`*` is read as warp 0)\n"]);
        assert_eq!(answer_of(&super::super::booking::short::sheet(&[T, "* ld {r}, [t];", "0 wait;", BACK, EXIT])).reason, None);
    }

    #[test]
    fn a_wait_by_another_warp() {
        let lines = [T, LD1, "0 wait;", BACK, EXIT];
        tells(
            &lines,
            &[
                "4:3-32 this waits for the loads of warp 0 alone\n",
                "help: or, if the wait of line 4 is meant, let it be by warp 1: no load of warp 0 is outstanding there\n  edit 4:1-2 1\n",
            ],
        );
        assert_eq!(told(&lines).1.iter().filter(|answer| answer.reason.is_none()).count(), 2);
        // which has something to wait for: it is as it is meant
        let both = [T, "0 ld {r}, [t];", LD1, "0 wait;", BACK, EXIT];
        tells(&both, &["5:3-32 this waits for the loads of warp 0 alone\n"]);
        assert!(!text(&both).contains("is meant"));
        // or had, before it waited: the second wait has nothing
        let twice = [T, "0 ld {r}, [t];", LD1, "0 wait;", "0 wait;", "0 ld {r}, [t];", "0 wait;", BACK, EXIT];
        tells(&twice, &["6:3-32 this waits", "if the wait of line 6 is meant, let it be by warp 1: "]);
        assert_eq!(text(&twice).matches("this waits").count(), 1);
        // the last, where each has something to wait for
        let busy = text(&[T, LD1, "0 ld {r}, [t];", "2 ld {r}, [t+4194304];", "0 wait;", "2 wait;", BACK, EXIT]);
        assert!(busy.contains("7:3-32 this waits") && busy.matches("this waits").count() == 1, "{busy}");
        // one that stands before the load is not between
        assert!(!text(&[T, "0 wait;", LD1, BACK, EXIT]).contains("this waits"));
        // the last two, where there are more
        let four = text(&[T, LD1, "0 wait;", "2 wait;", "3 wait;", BACK, EXIT]);
        assert!(!four.contains("4:3-32 ") && four.contains("5:3-32 ") && four.contains("6:3-32 "), "{four}");
        // of two warps no one is meant
        assert!(!text(&[T, LD1, "2 st [t+4194304], {r};", "0 wait;", BACK, EXIT]).contains("is meant"));
    }

    #[test]
    fn a_wait_of_the_other_kind() {
        let lines = [T, ST1, "1 wait;", BACK, EXIT];
        tells(
            &lines,
            &[
                "4:3-32 this waits for the loads of warp 1 alone\n",
                "help: or, if the wait of line 4 is meant, write `wait::st`: no load of warp 1 is outstanding there\n  edit 4:17-19 st\n",
            ],
        );
        assert_eq!(told(&lines).1.iter().filter(|answer| answer.reason.is_none()).count(), 2);
        // of another warp and the other kind
        let other = text(&[T, LD1, "0 wait::st;", BACK, EXIT]);
        assert!(!other.contains("this waits") && !other.contains("is meant"), "{other}");
        // as it is spelled
        let spelled = [T, "* ld {r}, [t];", "* tcgen05.wait::st.sync.aligned ;", BACK, EXIT];
        tells(&spelled, &["write `wait::ld`: no store of warp 0 is outstanding there\n  edit 4:17-33 ld.sync.aligned\n"]);
    }

    #[test]
    fn a_fence_is_no_wait() {
        tells(&[T, LD1, "0 fence;", BACK, EXIT], &["4:3-36 a fence waits for no load and no store\n"]);
        assert!(!text(&[T, "0 fence;", LD1, BACK, EXIT]).contains("a fence waits"));
        // a wait is nearer to what was meant
        assert!(!text(&[T, LD1, "0 fence;", "0 wait;", BACK, EXIT]).contains("a fence waits"));
    }

    #[test]
    fn a_wait_in_another_place() {
        tells(&[T, LD1, BACK, "1 wait;", EXIT], &["help: or move line 5, which waits too late, up before line 4\n"]);
        assert!(!text(&[T, LD1, BACK, "0 wait;", "1 wait::st;", EXIT]).contains("too late"));
        // it waits for another load
        assert!(!text(&[T, LD1, BACK, T, LD1, "1 wait;", BACK, EXIT]).contains("too late"));
        let early = [T, "1 wait;", LD1, BACK, EXIT];
        tells(
            &early,
            &[
                "3:3-32 this waits for nothing: the load comes after it\n",
                "help: or move line 3, which waits too early, down after line 4\n",
            ],
        );
        // for an earlier load
        assert!(!text(&[T, LD1, "1 wait;", LD1, BACK, EXIT]).contains("too early"));
        // of another allocation's time
        assert!(!text(&["1 wait;", T, LD1, BACK, EXIT]).contains("too early"));
    }

    /// Each is asked in its turn, and nothing is said of 18 before.
    #[test]
    fn the_order() {
        for (lines, reason) in [
            (&[T, LD1, "0 dealloc t, 64;", EXIT][..], 9),
            (&[T, LD1, "1 dealloc t, 32;", EXIT], 8),
            (&[T, LD1, "0 dealloc u, 32;", EXIT], 6),
            (&[T, LD1, EXIT], 15),
            (&[T, LD1, BACK], 18),
        ] {
            assert!(text(lines).starts_with(&format!("{reason}: ")), "{}", text(lines));
        }
        // what is offered for those may come to 18, which is asked later
        let half = [T, LD1, "0 dealloc t, 64;", EXIT];
        assert_eq!(told(&half).1.iter().map(|answer| answer.reason.map(|r| r.number())).collect::<Vec<_>>(), [Some(18)]);
    }

    /// Exit is asked for after everything else: to come so far is further.
    #[test]
    fn no_exit_after_it() {
        let lines = [T, LD1, BACK];
        let (e, answers) = told(&lines);
        assert_eq!(e.helps[0].edit.as_ref().map(|edit| edit.text.as_slice()), Some(WAIT1.as_bytes()));
        assert_eq!((answers[0].reason.map(|r| r.number()), answers[0].line), (Some(15), 5));
    }

    /// A sheet with no room for the waits: they are said in words.
    #[test]
    fn no_room_for_a_wait() {
        let mut lines = vec![T, LD1, ST1];
        lines.resize(4_093, "0 mov.b32 x,1;");
        lines.extend([BACK, EXIT]);
        let (e, _) = told(&lines);
        assert_eq!((e.answer.line, e.helps.len(), &e.helps[0].edit), (4_095, 1, &None));
        assert_eq!(
            e.helps[0].text,
            "let warp 1 wait for its load and store first: \
            `tcgen05.wait::ld.sync.aligned;` by warp 1 and `tcgen05.wait::st.sync.aligned;` by warp 1"
        );
    }
}
