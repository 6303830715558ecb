//! What a picture says in words, and how texts are made fit for SVG.

use super::*;

/// What the picture shows, for who does not see it.
pub fn about(plan: &Plan, title: &str) -> String {
    let mut text = String::from("The 512 columns of Tensor Memory across, the lines of the sheet down");
    if plan.drawn > 0 {
        let _ = write!(text, ", up to line {}", grouped(plan.drawn as u64));
    }
    if let Some(history) = plan.history {
        let _ = write!(text, "; {}", counted(history.allocations.len() as u64, "allocation"));
    }
    text.push('.');
    if let Some(reason) = plan.answer.reason {
        let _ = write!(text, " Reason {}: {title}.", reason.number());
    }
    text
}

/// What a block stands for.
pub fn told(a: &Allocation) -> String {
    let start = a.start.unwrap_or(0);
    let end = a.end.map_or("not given back".into(), |line| format!("given back at line {}", grouped(line as u64)));
    let last = start.saturating_add(a.columns).saturating_sub(1);
    let columns = counted(a.columns, "column");
    format!("{}: {columns}, {start} to {last}; taken at line {}, {end}", a.name, grouped(a.line as u64))
}

/// What a mark stands for.
pub fn said(mark: &Mark, a: &Allocation, sheet: &Sheet) -> String {
    let (first, last) = mark.lines;
    let columns = format!("{} of {}", columns_of(mark.from, mark.to), a.name);
    if first == last {
        format!("line {}, warp {}: {}, {columns}", grouped(first as u64), sheet.warp(first), mark.kind.word())
    } else {
        format!("lines {} to {}: {} {}, {columns}", grouped(first as u64), grouped(last as u64), mark.count, mark.kind.word())
    }
}

pub fn at(answer: &Answer) -> String {
    format!("line {}, column {}", grouped(answer.line.into()), grouped(answer.column.into()))
}

/// The library's answer in words.
pub fn verdict(answer: &Answer) -> String {
    let most = format!("held {}, peak {} of {COLUMNS} columns", answer.held, answer.peak);
    match answer.reason {
        Some(reason) => format!("reason {}, {}; {most}", reason.number(), at(answer)),
        None => format!("{}; {most}", counted(answer.line, "line")),
    }
}

/// The lines after the refused one.
pub fn rest(plan: &Plan) -> Option<String> {
    let (first, last) = (plan.drawn + 1, plan.lines);
    match plan.answer.reason? {
        Reason::Size => Some("no line is judged".into()),
        _ if first > last => None,
        _ if first == last => Some(format!("line {} is not judged", grouped(last as u64))),
        _ => Some(format!("lines {} to {} are not judged", grouped(first as u64), grouped(last as u64))),
    }
}

/// The style: what is the same in light and dark, the light colours, and the dark ones for who prefers them.
pub fn style() -> String {
    let light: String = COLOURS.iter().map(|c| format!("{}{{{}:{}}}", c.0, c.1, c.2)).collect();
    let dark: String = COLOURS.iter().map(|c| format!("{}{{{}:{}}}", c.0, c.1, c.3)).collect();
    format!("\n{STYLE}\n{light}\n@media (prefers-color-scheme:dark){{\n{dark}\n}}\n")
}

/// A number with two decimals at the most.
pub fn n(value: f64) -> String {
    let text = format!("{value:.2}");
    text.trim_end_matches('0').trim_end_matches('.').into()
}

pub fn titled(text: &str) -> String {
    if text.is_empty() {
        String::new()
    } else {
        format!("<title>{}</title>", escaped(text))
    }
}

/// Text for XML, in ASCII. What XML may not have, what breaks a line and what turns its direction is replaced.
pub fn escaped(text: &str) -> String {
    let mut out = String::with_capacity(text.len());
    for c in text.chars() {
        match c {
            '&' => out.push_str("&amp;"),
            '<' => out.push_str("&lt;"),
            '>' => out.push_str("&gt;"),
            '"' => out.push_str("&quot;"),
            '\'' => out.push_str("&#39;"),
            ' '..='~' => out.push(c),
            _ if is_hostile(c) => out.push_str("&#xFFFD;"),
            _ => {
                let _ = write!(out, "&#x{:X};", u32::from(c));
            }
        }
    }
    out
}

pub fn is_hostile(c: char) -> bool {
    c.is_control()
        || matches!(c, '\u{200B}'..='\u{200F}' | '\u{2028}'..='\u{202E}' | '\u{2060}'..='\u{206F}' | '\u{FEFF}')
        || matches!(u32::from(c) & 0xFFFF, 0xFFFE | 0xFFFF)
}

/// The end of a text that is too long for a line; a wide letter counts twice.
pub fn shortened(text: &str, most: usize) -> String {
    let wide = |c: char| if c >= '\u{1100}' { 2 } else { 1 };
    if text.chars().map(wide).sum::<usize>() <= most {
        return text.into();
    }
    let mut room = most.saturating_sub(1);
    let fits = text.chars().rev().take_while(|&c| {
        let fits = room >= wide(c);
        room = room.saturating_sub(wide(c));
        fits
    });
    let end: Vec<char> = fits.collect();
    [CUT].into_iter().chain(end.into_iter().rev()).collect()
}

/// A text in lines, cut at spaces where there are some; the last of the most lines says if there was more.
pub fn wrapped(text: &str, width: usize, most: usize) -> Vec<String> {
    let mut lines: Vec<String> = Vec::new();
    let mut rest: Vec<char> = text.chars().collect();
    while !rest.is_empty() && lines.len() < most {
        let cut = match rest.len() <= width {
            true => rest.len(),
            false => rest.iter().take(width + 1).rposition(|&c| c == ' ').filter(|&i| i > width / 2).unwrap_or(width),
        };
        let line: String = rest.drain(..cut).collect();
        lines.push(line.trim().into());
    }
    if let (false, Some(last)) = (rest.is_empty(), lines.last_mut()) {
        last.push(CUT);
    }
    lines
}
