//! The operands of an mma: too few or too many of them, the metadata, the mask of lanes.

use super::{brief, expected, is_name, is_number, offer, reads, say, Spot};
use crate::explain::{listed, shown, token_end, Explanation};

fn is_mma(s: &Spot) -> bool {
    s.opcode().starts_with("tcgen05.mma")
}

/// What each operand is called, in order.
fn called(s: &Spot) -> Vec<String> {
    s.roles().iter().filter_map(|role| role.split(',').next()).map(String::from).collect()
}

/// Fewer or more operands than the opcode takes. Most are names alike, so which one it is is not plain: all are named.
pub fn count(s: &Spot, e: &mut Explanation) -> bool {
    let (given, called) = (s.operands(), called(s));
    let few = given.len() < called.len();
    let here = match s.token {
        b"" | b";" => few && !s.before().trim_ascii_end().ends_with(b","),
        b"," => s.could(";"),
        token => few && s.operand() == 0 && is_name(token),
    };
    if !is_mma(s) || !here || given.is_empty() || given.len() == called.len() {
        return false;
    }
    let mut order: Vec<String> = given.iter().zip(&called).map(|(text, role)| format!("`{}` is {role}", brief(text))).collect();
    order.extend(called.iter().skip(given.len()).map(|role| format!("nothing is left for {role}")));
    order.extend(given.iter().skip(called.len()).map(|text| format!("`{}` is left over", brief(text))));
    e.note(format!("read in order, {}", listed(&order, "and")));
    if few {
        e.title(format!("{} of {} operands are given: this mma takes {}", given.len(), called.len(), listed(&called, "and")));
        s.point(e, s.at + s.token.len(), if s.could("[") { expected(s) } else { "the statement ends here".into() });
        return say(e, missing(s, &given, &called));
    }
    let over = given.len() - called.len();
    e.title(format!("{} operands are given, {over} too many: this mma takes {}", given.len(), listed(&called, "and")));
    s.point(e, s.text.strip_suffix(b";").unwrap_or(s.text).len(), "the `;` must stand here");
    surplus(s, e, &given)
}

/// Which operand may be the one that is missing: the first place whose operand does not suit it.
fn missing(s: &Spot, given: &[&[u8]], called: &[String]) -> String {
    let unfit = given.iter().zip(called).find_map(|(text, role)| {
        let text = brief(text);
        let wanted = match role.as_str() {
            "a" | "b" => 64,
            "idesc" => 32,
            "the predicate" => return None,
            _ if text.starts_with('[') || s.c.history.allocation(&text).is_some() => return None,
            _ => return Some(format!("`{text}` is no address, and {role} is one: {role} may be the operand that is missing")),
        };
        let is = match s.c.history.value(&text) {
            _ if role == "a" && text.starts_with('[') => return None,
            Some(value) if value.width == wanted => return None,
            Some(value) => format!("is a {}-bit value", value.width),
            None => "is no value that was moved".into(),
        };
        Some(format!("`{text}` {is}, and {role} is a {wanted}-bit one: the operand before `{text}` may be the missing one, {role}"))
    });
    let next = called.get(given.len()).map_or("", String::as_str);
    match (unfit, given.last()) {
        (Some(unfit), _) => unfit,
        (None, Some(last)) if next == "the predicate" => {
            format!("write the predicate after `{}`: any name, for it is not looked up", brief(last))
        }
        _ => format!("write {} after what is there", listed(&called[given.len().min(called.len())..], "and")),
    }
}

/// What to do about operands that are left over.
fn surplus(s: &Spot, e: &mut Explanation, given: &[&[u8]]) -> bool {
    e.note("an mma's disable-output-lane mask, zero-column mask and scale of d are not read in this version");
    match given {
        // no other operand is a number
        [.., last] if is_number(last) && given.len() == s.roles().len() + 1 => {
            offer(s, e, format!("take the scale of d, `{}`, out", brief(last)), s.instead(&[&s.text[..s.end()], b";"].concat()))
        }
        _ => say(e, "take out what does not belong to them"),
    }
}

/// A mask of lanes where the predicate stands.
pub fn mask(s: &Spot, e: &mut Explanation) -> bool {
    if !is_mma(s) || s.token != b"{" || !s.role().is_some_and(|role| role.starts_with("the predicate")) {
        return false;
    }
    let to = token_end(s.c.bytes(), s.c.column()) - 3;
    e.title("a list stands where the predicate must stand: the disable-output-lane mask is not read in this version");
    s.point(e, to, expected(s));
    offer(s, e, "take the list out", s.edit(s.at, past(s, to), ""))
}

/// Past the comma after a place, and the spaces around it.
fn past(s: &Spot, from: usize) -> usize {
    let rest = s.text[from..].trim_ascii_start();
    s.text.len() - rest.strip_prefix(b",").unwrap_or(rest).trim_ascii_start().len()
}

/// Metadata without `.sp`, and `.sp` without metadata.
pub fn metadata(s: &Spot, e: &mut Explanation) -> bool {
    if !is_mma(s) || s.operand() != 3 || !s.before().trim_ascii_end().ends_with(b",") {
        return false;
    }
    match (s.opcode().contains(".sp."), s.token) {
        (true, token) if is_name(token) => sparse(s, e),
        (false, b"[") => dense(s, e),
        _ => false,
    }
}

/// The statement with another opcode.
fn with(s: &Spot, old: &str, new: &str) -> Vec<u8> {
    let head = s.opcode();
    [head.replacen(old, new, 1).as_bytes(), &s.text[head.len()..]].concat()
}

fn sparse(s: &Spot, e: &mut Explanation) -> bool {
    let given = s.operands();
    let name = shown(s.token);
    let to = s.at + s.token.len();
    let exchanged = s.exchanged(3, 4).filter(|new| given.get(4).is_some_and(|text| text.starts_with(b"[")) && reads(new));
    if let Some(new) = exchanged {
        e.title("the address of the metadata stands one place late: it comes before idesc");
        s.point(e, to, expected(s));
        return offer(s, e, "exchange the two", s.instead(&new));
    }
    // it lacks its brackets
    if given.len() == s.roles().len() && s.c.history.value(&name).is_none() {
        return false;
    }
    e.title("the metadata is missing: with `.sp` operand 4 is its address");
    s.point(e, to, "the address of the metadata must stand here, before idesc");
    let (edit, dense) = (s.instead(&with(s, ".sp.", ".")), "if the mma is dense, write it without `.sp`");
    let is_dense = s.passes(&edit) && e.fix(s.c.sheet, format!("`{name}` has the word of a dense mma: {dense}"), edit);
    say(e, format!("{}write the address of the metadata before idesc, as `[meta]`", if is_dense { "if it is sparse, " } else { "" }));
    is_dense || say(e, dense)
}

fn dense(s: &Spot, e: &mut Explanation) -> bool {
    let given = s.operands();
    let five = given.len() == s.roles().len();
    let inner = given.get(3).map(|text| shown(text)).unwrap_or_default();
    let inner = inner.trim_matches(['[', ']', ' ']);
    // idesc in brackets
    if five && s.c.history.value(inner).is_some() {
        return false;
    }
    let to = token_end(s.c.bytes(), s.c.column()) - 3;
    e.title("an address stands where idesc must stand: only an mma with `.sp` has metadata");
    s.point(e, to, "the name of the instruction descriptor must stand here");
    if five {
        return say(
            e,
            "write the name of the instruction descriptor, without brackets; with `.sp` it comes after the address of the metadata",
        );
    }
    let sparse = ("if the mma is sparse, write it with `.sp`", s.instead(&with(s, ".cta_group", ".sp.cta_group")));
    let dense = ("if the mma is dense, take the metadata out", s.edit(s.at, past(s, to), ""));
    // the word under idesc may tell which it is
    for (text, edit) in [sparse, dense] {
        let passes = s.passes(&edit);
        let _ = passes && e.fix(s.c.sheet, text, edit) || say(e, text);
    }
    e.helps.sort_by_key(|help| help.edit.is_none());
    true
}
