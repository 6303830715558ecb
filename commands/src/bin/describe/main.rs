//! describe: what a descriptor word says, and the word of a descriptor's fields. Whether it is good is the library's answer;
//! `rules.rs` says in words which rule is broken.
#![deny(clippy::undocumented_unsafe_blocks)]
#![no_main]

use commands::command::{self, complain, print, FAILED, PASSED, REFUSED};
use commands::number::{self, Fault};
use commands::rules::{
    self, kind_of, name_in, types, Field, Rule, ATYPE, BTYPE, DTYPE, DTYPES, INSTRUCTION, MODE, MODES, SHARED, SWIZZLE, SWIZZLES,
};
use staplehorn::{InstructionFields, Opcode, Reason, SharedFields};
use std::ffi::c_int;
use std::fmt::Write as _;

const HELP: &str = "\
usage: describe OPCODE WORD
       describe encode OPCODE FIELD=VALUE ...

Says what a descriptor word means, field by field, and if it is refused, which rule it breaks. With encode: the word of
the fields given. A field that is not given is 0, a type the first of its kind, and sparse what OPCODE says.

OPCODE  f16, tf32, f8f6f4 or i8, with .ws and .sp behind it where they stand; or shared
WORD    a number as in a sheet: decimal, 0x and hex digits, 0b and binary digits, or 0 and octal digits; a U may follow;
        or an expression of such with + - * and parentheses, as '0x08000000+(64*16384)+16'
FIELD   of an instruction descriptor: selector sparse saturate dtype atype btype negate_a negate_b transpose_a
        transpose_b n m max_shift; of a shared memory descriptor: start leading stride base mode swizzle
VALUE   a number as WORD; for a type, a mode or a swizzle also its name, as dtype=f32 or swizzle=128B

  describe i8 0x080A00A0
  describe encode f16.ws m=64 n=128 dtype=f32
  describe encode shared leading=256 stride=128

Exit status: 0 the word is good, 1 refused, 2 the command line is wrong, or the answer could not be written.
";

/// What is asked about: an instruction descriptor under an opcode, or a shared memory descriptor.
#[derive(Clone, Copy)]
enum Sort {
    Instruction(Opcode),
    Shared,
}

impl Sort {
    fn parse(text: &str) -> Option<Sort> {
        if text == "shared" {
            return Some(Sort::Shared);
        }
        let (text, sp) = text.strip_suffix(".sp").map_or((text, false), |t| (t, true));
        let (text, ws) = text.strip_suffix(".ws").map_or((text, false), |t| (t, true));
        let kind = kind_of(text)?;
        Some(Sort::Instruction(Opcode { kind, ws, sp }))
    }

    fn fields(self) -> &'static [Field] {
        match self {
            Sort::Instruction(_) => &INSTRUCTION,
            Sort::Shared => &SHARED,
        }
    }

    /// The names of a field's codes.
    fn codes(self, field: usize) -> &'static [(u64, &'static str)] {
        match (self, field) {
            (Sort::Instruction(_), DTYPE) => DTYPES,
            (Sort::Instruction(o), ATYPE | BTYPE) => types(o.kind),
            (Sort::Shared, MODE) => MODES,
            (Sort::Shared, SWIZZLE) => SWIZZLES,
            _ => &[],
        }
    }
}

/// An answer: what is printed, and whether the word is good.
struct Said {
    text: String,
    good: bool,
}

impl Said {
    fn reason(reason: Option<Reason>) -> Said {
        let text = match reason {
            None => "reason 0: good\n".into(),
            Some(r) => format!("reason {}: {r}\n", r.number()),
        };
        Said { text, good: reason.is_none() }
    }

    fn broken(&mut self, rules: impl IntoIterator<Item = Rule>) {
        for rule in rules {
            self.text += &format!("broken: {rule}\n");
        }
    }

    /// Each field with its bits and its value, and the name of a type.
    fn table(&mut self, sort: Sort, values: &[u64]) {
        for (i, (f, &v)) in sort.fields().iter().zip(values).enumerate() {
            let name = name_in(sort.codes(i), v).map_or(String::new(), |name| format!(" {name}"));
            let _ = writeln!(self.text, "{:<6} {:<12} {v}{name}", f.bits(), f.name);
        }
    }
}

fn instruction(o: Opcode, word: u32) -> Said {
    let values: [u64; 13] = std::array::from_fn(|i| INSTRUCTION[i].of(word.into()));
    let reason = o.judge(word).err();
    let mut said = Said::reason(reason);
    match reason {
        Some(Reason::Descriptor) => said.broken(rules::no_reading(o, &values, rules::rest(&INSTRUCTION, word.into()))),
        Some(_) => said.broken(rules::not_listed(o, &values).into_iter().map(|row| row.1)),
        None => {}
    }
    // what the library read; for a word without a reading what its bits hold
    let read = o.decode(word).map(<[u32; 13]>::from).map(|f| f.map(u64::from));
    said.table(Sort::Instruction(o), &read.unwrap_or(values));
    let _ = writeln!(said.text, "{:<6} {:<12} {}", "", "k", o.k());
    said
}

fn shared(word: u64) -> Said {
    let values: [u64; 6] = std::array::from_fn(|i| SHARED[i].of(word));
    let read = SharedFields::decode(word);
    let mut said = Said::reason(read.err());
    let (fixed, rest) = rules::shared_rest(word);
    if read.is_err() {
        said.broken(rules::no_shared(&values, fixed, rest));
    }
    let read = read.map(|f| [f.start, f.leading, f.stride, f.base, f.mode, f.swizzle]);
    said.table(Sort::Shared, &read.unwrap_or(values));
    said
}

/// The word of fields: described like any other; or the rules that they break.
fn encode(sort: Sort, values: &[u64]) -> Said {
    let (made, broken) = match sort {
        Sort::Instruction(o) => {
            let v: [u64; 13] = std::array::from_fn(|i| values[i]);
            let broken = rules::no_reading(o, &v, 0);
            // a flag over 1, or a number over 32 bits, has no place in the library's fields; each breaks a rule of its width
            let fits = v.iter().all(|&x| x <= u32::MAX.into()) && [1, 2, 6, 7, 8, 9].iter().all(|&i| v[i] <= 1);
            let fields = InstructionFields::from(v.map(|x| x as u32));
            let word = if fits { o.encode(fields) } else { Err(Reason::Descriptor) };
            (word.map(|word| (format!("word {word:#010x}\n"), instruction(o, word))), broken)
        }
        Sort::Shared => {
            let v: [u64; 6] = std::array::from_fn(|i| values[i]);
            let fields = SharedFields { start: v[0], leading: v[1], stride: v[2], base: v[3], mode: v[4], swizzle: v[5] };
            (fields.encode().map(|word| (format!("word {word:#018x}\n"), shared(word))), rules::no_shared(&v, 1, 0))
        }
    };
    match made {
        Ok((line, said)) => Said { text: line + &said.text, ..said },
        Err(reason) => {
            let mut said = Said { text: format!("reason {}: no word has these fields\n", reason.number()), good: false };
            said.broken(broken);
            said.table(sort, values);
            said
        }
    }
}

/// The word that a text spells, described.
fn spelled(sort: Sort, text: &str) -> Result<Said, Fault> {
    match sort {
        Sort::Instruction(o) => Ok(instruction(o, number::b32(text)?)),
        Sort::Shared => Ok(shared(number::b64(text)?)),
    }
}

/// Puts FIELD=VALUE in its place.
fn assign(sort: Sort, text: &str, values: &mut [u64]) -> Result<(), String> {
    let field = text.split_once('=').and_then(|(name, value)| Some((sort.fields().iter().position(|f| f.name == name)?, value)));
    let (at, value) = field.ok_or_else(|| format!("no field and value: {text}"))?;
    let names = sort.codes(at);
    values[at] = match names.iter().find(|row| row.1 == value) {
        Some(row) => row.0,
        None => number::b64(value).map_err(|fault| match fault {
            Fault::Spelling if !names.is_empty() => format!("no number and no name: {text}"),
            _ => format!("{}: {text}", fault.after(text.len() - value.len())),
        })?,
    };
    Ok(())
}

fn encoded(sort: Sort, args: &[&str]) -> Result<Said, String> {
    let mut values = vec![0; sort.fields().len()];
    if let Sort::Instruction(o) = sort {
        values[1] = o.sp.into();
        values[ATYPE] = types(o.kind)[0].0;
        values[BTYPE] = types(o.kind)[0].0;
    }
    for arg in args {
        assign(sort, arg, &mut values)?;
    }
    Ok(encode(sort, &values))
}

fn answer(args: &[&str]) -> Result<Said, String> {
    let sort = |text: &str| Sort::parse(text).ok_or_else(|| format!("no opcode: {text}"));
    match args {
        ["--help" | "-h"] => Ok(Said { text: HELP.into(), good: true }),
        ["--version"] => Ok(Said { text: command::version("describe"), good: true }),
        ["encode", opcode, fields @ ..] => encoded(sort(opcode)?, fields),
        [opcode, word] => spelled(sort(opcode)?, word).map_err(|fault| format!("{fault}: {word}")),
        _ => Err("an opcode and a word, or encode, an opcode and fields".into()),
    }
}

#[no_mangle]
pub extern "C" fn main() -> c_int {
    command::ignore_sigpipe();
    let args: Vec<String> = std::env::args_os().skip(1).map(|a| a.to_string_lossy().into_owned()).collect();
    let args: Vec<&str> = args.iter().map(String::as_str).collect();
    match answer(&args) {
        Ok(said) => print("describe", said.text.as_bytes()).max(if said.good { PASSED } else { REFUSED }),
        Err(fault) => {
            complain("describe", &format!("{fault}; describe --help shows the usage"));
            FAILED
        }
    }
}
