//! Compares the proved library with the reference: `words`, `fragments`, `statements` (`numbers` and `expressions` among them)
//! and `sheets` with made inputs, `entries` with sheets whose answers were worked out by hand, `data` with the cases of a
//! folder, of which `cases` writes most.

mod cases;
mod entries;
mod expressions;
mod faults;
mod forms;
mod fragments;
mod maker;
mod numbers;
mod places;
mod readings;
mod sheets;
mod spelling;
mod statements;
mod tokens;
mod trees;
mod words;

fn main() {
    let args: Vec<String> = std::env::args().skip(1).collect();
    let args: Vec<&str> = args.iter().map(String::as_str).collect();
    let good = match args[..] {
        ["words"] => words::run(),
        ["fragments", command] => fragments::run(command),
        ["statements"] => statements::run(),
        ["numbers"] => numbers::run(),
        ["expressions"] => expressions::run(),
        ["sheets"] => sheets::run(),
        ["entries"] => entries::run(),
        ["cases", folder] => cases::write(folder.as_ref()),
        ["data", folder] => cases::compare(folder.as_ref()),
        _ => {
            eprintln!("usage: difftest words|statements|numbers|expressions|sheets|entries, difftest fragments COMMAND, or difftest cases|data FOLDER");
            std::process::exit(2);
        }
    };
    std::process::exit(if good { 0 } else { 1 });
}
