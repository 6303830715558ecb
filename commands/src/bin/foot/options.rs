//! The command line of foot.

use clap::error::{ContextKind, ContextValue, ErrorKind};
use clap::{value_parser, Arg, ArgAction, ArgMatches, Command};
use commands::command::{standard, version};
use commands::pages;
use std::ffi::{OsStr, OsString};
use std::io::IsTerminal;
use std::os::unix::ffi::OsStrExt;
use std::path::PathBuf;

const HELP: &str = "\
usage: foot [FILE ...]
       foot --explain [FILE ...]
       foot --explain REASON

Judges tcgen05 sheets, and says why one is refused. A sheet is the record of one
block's tcgen05 statements in the order in which they are issued: a header line,
then in each line a warp, a tab and a PTX statement.

Prints the report of each FILE, or of standard input where no FILE or - is
given: reason, line, column, columns held and their peak; after a pass a row for
each allocation. With more than one FILE each report stands under a line with
the file's name and a colon. What follows -- is a FILE, whatever its name.

Options:
{options}

Examples:
  foot kernel.sheet                       the report
  foot --explain kernel.sheet             what is wrong, and what would be right
  foot --explain 14                       what reason 14 means, with examples
  foot --format json *.sheet              an object for each sheet
  foot --picture kernel.svg kernel.sheet  the report, and the sheet drawn

Exit status:
  0  every sheet passed
  1  a sheet is refused
  2  a sheet could not be read, something could not be written, or the command
     line is wrong; standard error then says which

Read on: man foot; docs/FORMAT.md has the format, every rule and every reason.
";

// clap puts these beside the options
const EXPLAIN: &str = "\
in place of the report say in words what is wrong,
where, and what would be right; with the number of a
reason: its page (a file of that name: ./14)";
const FORMAT: &str = "\
report, the default; text, as --explain; json, one
object in a line for each FILE; sarif, one SARIF
2.1.0 log for all of them";
const PICTURE: &str = "\
besides, draw the one sheet given: the 512 columns
across, the lines down";
const COLOR: &str = "\
auto, the default: on a terminal, unless NO_COLOR is
set or TERM is dumb; always; never";

/// What a command line asks for.
pub enum Asked {
    /// A text, whatever the sheets: help, version, pages.
    Text(String),
    Sheets(Sheets),
}

#[derive(Clone, Copy, PartialEq, Eq)]
pub enum Format {
    Report,
    Text,
    Json,
    Sarif,
}

pub struct Sheets {
    pub files: Vec<OsString>,
    pub format: Format,
    pub picture: Option<PathBuf>,
    pub colour: bool,
}

impl Sheets {
    /// More is asked for than the report.
    pub fn explains(&self) -> bool {
        self.format != Format::Report || self.picture.is_some()
    }
}

/// A name on one line: a byte that does not print, or a backslash, as \x and two digits.
pub fn shown(name: &OsStr) -> String {
    let lossy = name.to_string_lossy();
    lossy.chars().map(|c| if c.is_control() || c == '\\' { format!("\\x{:02x}", c as u32) } else { c.into() }).collect()
}

/// Reads a command line; else what is wrong with it.
pub fn asked(args: impl Iterator<Item = OsString>) -> Result<Asked, String> {
    match table().try_get_matches_from(args) {
        Ok(found) => with_options(&found),
        Err(e) if e.kind() == ErrorKind::DisplayHelp => Ok(Asked::Text(e.to_string())),
        Err(e) if e.kind() == ErrorKind::DisplayVersion => Ok(Asked::Text(version("foot"))),
        Err(e) => Err(fault(&e)),
    }
}

fn table() -> Command {
    let flag = |name: &'static str, action| Arg::new(name).long(name).action(action);
    let choice = |name, values: &[&'static str]| flag(name, ArgAction::Set).value_parser(values.to_vec()).hide_possible_values(true);
    let files = |name: &'static str| Arg::new(name).num_args(0..).action(ArgAction::Append).value_parser(value_parser!(OsString));
    // clap asks for a version; what is printed is the library's
    let foot = Command::new("foot").version(env!("CARGO_PKG_VERSION")).help_template(HELP);
    foot.no_binary_name(true).disable_help_flag(true).disable_version_flag(true).args([
        flag("explain", ArgAction::SetTrue).help(EXPLAIN),
        choice("format", &["report", "text", "json", "sarif"]).value_name("FORMAT").help(FORMAT),
        flag("picture", ArgAction::Set).value_name("OUT.svg").value_parser(value_parser!(PathBuf)).help(PICTURE),
        choice("color", &["auto", "always", "never"]).value_name("WHEN").help(COLOR),
        flag("help", ArgAction::Help).short('h').help("this text"),
        flag("version", ArgAction::Version).help("the version of the library"),
        files("files"),
        // what follows --
        files("names").last(true),
    ])
}

fn with_options(found: &ArgMatches) -> Result<Asked, String> {
    let values = |name| found.get_many::<OsString>(name).unwrap_or_default().cloned();
    let chosen = |name| found.get_one::<String>(name).map(String::as_str);
    let explain = found.get_flag("explain");
    let format = match chosen("format") {
        Some("report") if explain => return Err("--explain and --format report exclude each other".into()),
        Some("report") => Format::Report,
        Some("json") => Format::Json,
        Some("sarif") => Format::Sarif,
        None if !explain => Format::Report,
        _ => Format::Text,
    };
    let picture = found.get_one::<PathBuf>("picture").cloned();
    let mut files: Vec<OsString> = values("files").collect();
    if explain && files.iter().any(|name| is_number(name)) {
        let sheets = files.len() + values("names").count() - 1;
        if sheets > 0 || picture.is_some() || format != Format::Text {
            return Err("the page of a reason is printed by itself: --explain, a number and nothing else".into());
        }
        return page(&files[0]).map(Asked::Text);
    }
    files.extend(values("names"));
    checked(Sheets { files, format, picture, colour: colour(chosen("color")) }).map(Asked::Sheets)
}

fn is_number(name: &OsStr) -> bool {
    !name.is_empty() && name.as_bytes().iter().all(u8::is_ascii_digit)
}

fn page(number: &OsStr) -> Result<String, String> {
    let known = pages::numbers();
    let found = known.iter().find(|known| *number == *known.to_string());
    found.and_then(|&number| pages::page(number)).ok_or_else(|| {
        let known: Vec<String> = known.iter().map(u32::to_string).collect();
        format!("there is no reason {}, only {}", shown(number), known.join(" "))
    })
}

fn colour(when: Option<&str>) -> bool {
    let is_set = |name| std::env::var_os(name).is_some_and(|value| !value.is_empty());
    match when {
        Some("always") => true,
        Some("never") => false,
        _ => standard(1).is_terminal() && !is_set("NO_COLOR") && std::env::var_os("TERM").is_none_or(|term| term != "dumb"),
    }
}

/// What must hold of the files.
fn checked(mut sheets: Sheets) -> Result<Sheets, String> {
    if sheets.files.is_empty() {
        sheets.files.push("-".into());
    }
    if sheets.files.iter().filter(|name| *name == "-").count() > 1 {
        return Err("standard input can be read once only".into());
    }
    if let Some(path) = &sheets.picture {
        if sheets.files.len() > 1 {
            return Err(format!("--picture draws one sheet, and {} files are given", sheets.files.len()));
        }
        // else a forgotten name would make the sheet itself the picture
        if path.extension().is_none_or(|end| end != "svg") {
            return Err(format!("--picture takes the name of a file that ends in .svg, not {}", shown(path.as_os_str())));
        }
    }
    Ok(sheets)
}

/// What clap found wrong, on one line.
fn fault(e: &clap::Error) -> String {
    let said = |kind| match e.get(kind) {
        Some(ContextValue::String(text)) => shown(OsStr::new(text)),
        Some(ContextValue::Strings(texts)) => texts.join(", "),
        _ => String::new(),
    };
    let arg = said(ContextKind::InvalidArg);
    // an option that is known comes with its value's name
    let arg = arg.split(" <").next().unwrap_or_default();
    match e.kind() {
        ErrorKind::UnknownArgument => match e.get(ContextKind::SuggestedArg) {
            Some(ContextValue::String(near)) => format!("unknown option {arg} (there is {near})"),
            _ => format!("unknown option {arg}"),
        },
        ErrorKind::InvalidValue if said(ContextKind::InvalidValue).is_empty() => format!("{arg} has no value"),
        ErrorKind::InvalidValue => format!("{arg} takes {}, not {}", said(ContextKind::ValidValue), said(ContextKind::InvalidValue)),
        ErrorKind::ArgumentConflict => format!("{arg} is given twice"),
        kind if arg.is_empty() => kind.to_string(),
        kind => format!("{arg}: {kind}"),
    }
}
