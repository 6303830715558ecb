//! An address whose parts do not stand as `[name+number]`.

use super::{brief, digits, extent, is_name, is_number, offer, say, sum, token, Spot};
use crate::explain::{shown, token_end, Explanation};
use crate::{expression, number};

pub fn explain(s: &Spot, e: &mut Explanation) -> bool {
    !s.opcode().contains("alloc.") && (outside(s, e) || parted(s, e) || first(s, e))
}

/// The number of an offset as it would be written: a number or an expression as it stands, else what it comes to, else what was moved to
/// the name.
fn number(s: &Spot, text: &[u8]) -> Option<String> {
    match shown(text) {
        text if is_number(text.as_bytes()) || number::b32(&text).is_ok() => Some(text),
        text => sum::value(&text)
            .ok()
            .filter(|&value| value >= 0)
            .map(|value| value.to_string())
            .or(digits::known(s, &text).map(|found| found.0)),
    }
}

/// Offers the address with its offset, or says how it is written where the number is not known.
fn write(s: &Spot, e: &mut Explanation, (from, to): (usize, usize), name: &[u8], offset: Option<String>) -> bool {
    let name = shown(name);
    match offset {
        Some(offset) => offer(s, e, format!("write `[{name}+{offset}]`"), s.edit(from, to, format!("[{name}+{offset}]"))),
        None => say(e, format!("write `[{name}+NUMBER]`, with the offset as a number or an expression of numbers")),
    }
}

/// `[t]+32` and `[t][32]`.
fn outside(s: &Spot, e: &mut Explanation) -> bool {
    let before = s.before().trim_ascii_end();
    let Some(open) = before.iter().rposition(|&b| b == b'[').filter(|_| before.ends_with(b"]")) else { return false };
    let inner = before[open + 1..before.len() - 1].trim_ascii();
    let (to, text) = match s.token {
        b"+" => (extent(s.text, s.at, b",;"), &s.text[s.at + 1..]),
        b"[" => (token_end(s.c.bytes(), s.c.column()) - 3, &s.text[s.at + 1..]),
        _ => return false,
    };
    let text = text[..to.saturating_sub(s.at + 1)].trim_ascii();
    let text = text.strip_suffix(b"]").unwrap_or(text).trim_ascii();
    if s.token == b"[" && !is_number(text) {
        return false;
    }
    let mut parts = inner.splitn(2, |&b| b == b'+');
    let name = parts.next().unwrap_or_default().trim_ascii();
    let offset = match parts.next() {
        Some(old) => number(s, &[old, b"+", text].concat()),
        None => number(s, text),
    };
    e.title("the offset stands outside the brackets of the address");
    s.point(e, to, "the offset");
    write(s, e, (open, to), name, offset)
}

/// `[t,32]`.
fn parted(s: &Spot, e: &mut Explanation) -> bool {
    let Some(open) = s.before().iter().rposition(|&b| b == b'[').filter(|_| s.token == b"," && s.could("+")) else { return false };
    let rest = s.rest()[1..].trim_ascii_start();
    let offset = token(rest, false);
    let Some(behind) = rest[offset.len()..].trim_ascii_start().strip_prefix(b"]") else { return false };
    e.title("a `,` stands in the address, where a `+` must stand");
    s.point(e, s.at + 1, "found `,` before the offset");
    write(s, e, (open, s.text.len() - behind.len()), s.text[open + 1..s.at].trim_ascii(), number(s, offset))
}

/// `[32+t]` and `[32]`.
fn first(s: &Spot, e: &mut Explanation) -> bool {
    let is_inside = s.before().trim_ascii_end().ends_with(b"[") && s.rest().contains(&b']');
    let Some(read) = expression::read(s.text, s.at).ok().filter(|_| is_inside) else { return is_inside && named_last(s, e) };
    let found = &s.text[s.at..read.whole.to];
    e.title(format!("the number `{}` stands where a name must stand", brief(found)));
    s.point(e, read.whole.to, "an address begins with the name of an allocation");
    let mut live = s.c.history.live();
    let name = live.next().filter(|_| live.next().is_none()).map_or("NAME", |only| only.name.as_str());
    let offset = match read.whole.value {
        Some(0) => String::new(),
        Some(1..) => format!("+{}", brief(found)),
        _ => "+NUMBER".into(),
    };
    say(e, format!("columns are counted from the start of an allocation: write its name first, as in `[{name}{offset}]`"))
}

/// `[32+t]`, also with an expression before the name.
fn named_last(s: &Spot, e: &mut Explanation) -> bool {
    let Some(close) = s.rest().iter().position(|&b| b == b']').map(|length| s.at + length) else { return false };
    let inner = &s.text[s.at..close];
    let Some(plus) = inner.iter().rposition(|&b| b == b'+') else { return false };
    let (offset, name) = (inner[..plus].trim_ascii(), inner[plus + 1..].trim_ascii());
    let is_offset = is_number(offset) || number::b32(&shown(offset)).is_ok();
    if !is_offset || !is_name(name) {
        return false;
    }
    e.title("the offset stands before the name; an address has its name first");
    s.point(e, close, "a name must stand here");
    write(s, e, (s.end() - 1, close + 1), name, number(s, offset))
}
