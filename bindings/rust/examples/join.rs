//! Joins two circuits: join KIND FIRST SECOND > FILE
//! FIRST and SECOND are column files, and so is what is printed; with an empty line and samples behind it, `play` plays it.
//! KIND is that of a composition, 7 to 11, or its sign in Faust: `:` sequence, `,` parallel, `<:` split, `:>` merge,
//! `~` recursion.
use circuit::{Refusal, FILE_BYTES, TABLE_NUMBERS};
use std::io::Write;
use std::process::ExitCode;
use std::{env, fs, io};

/// The signs of the compositions, from kind 7 on.
const SIGNS: [&str; 5] = [":", ",", "<:", ":>", "~"];

fn refused(what: &str) -> impl Fn(Refusal) -> String + '_ {
    move |r| format!("{what}: refusal {}, place {}", r.number, r.place)
}

/// A kind by its sign or its number. One that is no composition is left to the engine, which refuses it.
fn kind(text: &str) -> Option<i32> {
    let signs = SIGNS.iter().zip(7..);
    let signed = signs
        .filter(|(sign, _)| **sign == text)
        .map(|(_, kind)| kind);
    signed.chain(text.parse()).next()
}

/// A column file and its name.
struct File<'a> {
    name: &'a str,
    bytes: Vec<u8>,
}

impl File<'_> {
    fn named(name: &str) -> Option<File<'_>> {
        let bytes = fs::read(name).ok()?;
        Some(File { name, bytes })
    }

    /// The table, checked here, since the refusal of a join does not say in which of the two it is.
    fn table(&self) -> Result<Vec<i32>, String> {
        let mut table = vec![0; TABLE_NUMBERS];
        let at = |what| format!("{what} {}", self.name);
        let nodes = circuit::read(&self.bytes, &mut table).map_err(refused(&at("read")))?;
        table.truncate(3 * nodes);
        circuit::check(&table).map_err(refused(&at("check")))?;
        Ok(table)
    }
}

fn run(kind: i32, first: &File, second: &File) -> Result<(), String> {
    let (first, second) = (first.table()?, second.table()?);
    let mut joined = [0; TABLE_NUMBERS];
    let numbers = circuit::join(kind, &first, &second, &mut joined).map_err(refused("join"))?;
    let mut file = [0; FILE_BYTES];
    let bytes = circuit::write(&joined[..numbers], &mut file).map_err(refused("write"))?;
    let printed = io::stdout().write_all(&file[..bytes]);
    printed.map_err(|error| format!("standard output: {error}"))
}

/// The kind and both files.
fn named(arguments: &[String]) -> Option<(i32, File<'_>, File<'_>)> {
    let [_, sign, first, second] = arguments else {
        return None;
    };
    Some((kind(sign)?, File::named(first)?, File::named(second)?))
}

fn main() -> ExitCode {
    let arguments: Vec<String> = env::args().collect();
    let Some((kind, first, second)) = named(&arguments) else {
        eprintln!("usage: join KIND FIRST SECOND > FILE");
        return ExitCode::from(2);
    };
    match run(kind, &first, &second) {
        Ok(()) => ExitCode::SUCCESS,
        Err(refusal) => {
            eprintln!("{refusal}");
            ExitCode::FAILURE
        }
    }
}
