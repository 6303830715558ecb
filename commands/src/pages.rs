//! The page of a reason: what docs/FORMAT.md says of it, laid out for a terminal. Nothing is said here that is not said there.

use std::collections::BTreeSet;
use std::fmt::Write as _;

const FORMAT: &str = include_str!("../../docs/FORMAT.md");
/// Columns of a terminal that a sentence may take.
const WIDTH: usize = 80;

/// The page of a reason, if the format lists it.
pub fn page(number: u32) -> Option<String> {
    if !numbers().contains(&number) {
        return None;
    }
    let mut page = format!("Reason {number}\n\n");
    for sentence in tables().filter_map(|table| table.sentence(number)) {
        page += &filled(&sentence);
    }
    for example in examples(number) {
        page += &laid_out(example);
    }
    for table in tables() {
        page += &table.rows_of(number);
    }
    Some(page.trim_end().to_string() + "\n")
}

/// The reasons that have a page.
pub fn numbers() -> BTreeSet<u32> {
    let rows = tables().filter(|table| table.titles[0] == "No.").flat_map(|table| table.rows);
    rows.filter_map(|row| row[0].parse().ok()).collect()
}

struct Table {
    titles: Vec<&'static str>,
    rows: Vec<Vec<&'static str>>,
}

/// The cells of a table's line.
fn cells(line: &'static str) -> Vec<&'static str> {
    line.trim_matches('|').split('|').map(str::trim).collect()
}

/// The tables of the format.
fn tables() -> impl Iterator<Item = Table> {
    FORMAT.split("\n\n").filter_map(|paragraph| {
        let mut lines = paragraph.lines().filter(|line| line.starts_with('|'));
        let titles = cells(lines.next()?);
        Some(Table { titles, rows: lines.skip(1).map(cells).collect() })
    })
}

impl Table {
    /// What a table of reasons says of one: its title and its cell are a sentence.
    fn sentence(&self, number: u32) -> Option<String> {
        let &[first, title] = self.titles.as_slice() else { return None };
        let rows = if matches!(first, "No." | "Reason") { self.rows.as_slice() } else { &[] };
        let row = rows.iter().find(|row| row[0].split(", ").any(|n| n == number.to_string()))?;
        Some(format!("{title} {}.", row.get(1)?).trim_start().to_string())
    }

    /// The rows of a reason in a table that has a column of reasons, without that column.
    fn rows_of(&self, number: u32) -> String {
        let Some(at) = self.titles.iter().position(|&title| title == "Reason").filter(|&at| at > 0) else { return String::new() };
        let of = self.rows.iter().filter(|row| row.get(at) == Some(&number.to_string().as_str()));
        let mut rows: Vec<Vec<&str>> = of.cloned().collect();
        if rows.is_empty() {
            return String::new();
        }
        rows.insert(0, self.titles.clone());
        for row in &mut rows {
            row.remove(at);
        }
        let width = |i: usize| rows.iter().map(|row| row[i].len()).max().unwrap_or(0);
        let widths: Vec<usize> = (0..self.titles.len() - 1).map(width).collect();
        let mut text = String::new();
        for row in &rows {
            let cells: Vec<String> = row.iter().zip(&widths).map(|(cell, width)| format!("{cell:<width$}")).collect();
            let _ = writeln!(text, "{}", cells.join("  ").trim_end());
        }
        text
    }
}

/// The examples of a reason: each from its number in bold up to the next number or heading.
fn examples(number: u32) -> impl Iterator<Item = &'static str> {
    let sections = FORMAT.split("\n## ").flat_map(|section| section.split("\n**"));
    sections.filter_map(move |part| part.strip_prefix(&format!("{number}** ")))
}

/// Sentences and blocks of an example: sentences filled, what is in a block as it is, under the block's name.
fn laid_out(example: &str) -> String {
    let mut text = String::new();
    for (i, part) in example.split("```").enumerate() {
        match part.split_once('\n') {
            Some((name, block)) if i % 2 == 1 => {
                let _ = writeln!(text, "{name}:");
                block.lines().for_each(|line| text += &format!("    {line}\n"));
                text.push('\n');
            }
            _ => part.split("\n\n").for_each(|paragraph| text += &filled(paragraph)),
        }
    }
    text
}

/// A paragraph in lines of at most `WIDTH`, and an empty line; nothing where it has no word.
fn filled(paragraph: &str) -> String {
    let mut text = String::new();
    let mut length = 0;
    for word in paragraph.split_whitespace() {
        match length {
            0 => {}
            _ if length + 1 + word.len() > WIDTH => {
                text.push('\n');
                length = 0;
            }
            _ => {
                text.push(' ');
                length += 1;
            }
        }
        text += word;
        length += word.len();
    }
    if !text.is_empty() {
        text += "\n\n";
    }
    text
}

#[cfg(test)]
mod tests {
    use super::*;
    use staplehorn::Reason;

    /// A page without its line breaks.
    fn words(page: &str) -> String {
        page.split_whitespace().collect::<Vec<_>>().join(" ")
    }

    #[test]
    fn each_reason_has_a_page() {
        for number in 0..100 {
            let known = Reason::from_number(number).is_some_and(|reason| !matches!(reason, Reason::Other(_)));
            assert_eq!((page(number).is_some(), numbers().contains(&number)), (known, known), "{number}");
        }
    }

    #[test]
    fn a_page_has_the_rows_and_the_examples() {
        let mut examples = 0;
        let (_, reasons) = FORMAT.split_once("\n## Reasons\n").expect("a section of reasons");
        for line in reasons.lines() {
            // each row of a table of reasons stands in the page of its number
            let row: Vec<&str> = line.split(" | ").collect();
            if let ([number, said], true) = (&row[..], line.starts_with("| ")) {
                if let Ok(number) = number.trim_start_matches("| ").parse() {
                    let said = words(said.trim_end_matches(" |"));
                    assert!(page(number).is_some_and(|page| words(&page).contains(&said)), "{line}");
                }
            }
            // each example stands in the page of its number
            if let Some((number, said)) = line.strip_prefix("**").and_then(|rest| rest.split_once("** ")) {
                let page = page(number.parse().expect("a number")).expect("a page");
                assert!(words(&page).contains(said), "{line}");
                examples += 1;
            }
        }
        assert!(examples >= 18);
    }

    #[test]
    fn what_a_page_looks_like() {
        let page = page(8).expect("a page");
        let first = "Reason 8\n\nThe line is refused because the warp is wrong, or the lane of a ld or st is not\nthe warp's.\n\n\
            The column is that of the address of a ld or st, at its `[`; else the warp\nfield: 1.\n\n\
            Warp 0 allocated, so warp 1 may not give back: the warp field.\n\nsheet:\n    sheet\t1\tsm_100a\n    0\ttcgen05.alloc.";
        assert!(page.starts_with(first), "{page}");
        assert!(page.contains("report:\n    8\t3\t1\t32\t32\n\nexplain:\n    error[8]: "), "{page}");
        assert!(page.contains("\n\nLane 0 is not one of warp 1: the address.\n\nsheet:\n"), "{page}");
        assert!(page.contains("report:\n    8\t3\t46\t32\t32\n\nexplain:\n    error[8]: "), "{page}");
    }

    #[test]
    fn rows_of_statements() {
        let page = page(4).expect("a page");
        assert!(page.contains("\nStatement "), "{page}");
        assert!(page.contains("`mov.b32 x,4294967296;`  "), "{page}");
        assert!(!page.contains("`exit"), "{page}");
    }

    #[test]
    fn a_block_of_any_name_is_shown() {
        let text = laid_out("One.\n\n```sheet\na\tb\n```\n\n```explain\nerror[2]\n  --> x\n```\n");
        assert_eq!(text, "One.\n\nsheet:\n    a\tb\n\nexplain:\n    error[2]\n      --> x\n\n");
    }
}
