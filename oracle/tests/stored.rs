//! The stored scripts of the repository's programs, against the oracle.

use oracle::arity::check;
use oracle::column;
use oracle::generate::generate;
use oracle::parse::parse;
use oracle::programs::{played, translated};
use oracle::script::{expected, plays_in_pieces, render};
use std::fs::{read, read_dir};

fn path(program: &str, file: &str) -> String {
    format!("{}/../crates/{program}/{file}", env!("CARGO_MANIFEST_DIR"))
}

fn stored(program: &str, file: &str) -> Vec<u8> {
    let path = path(program, file);
    read(&path).unwrap_or_else(|error| panic!("{path}: {error}"))
}

/// Cases written by hand: the oracle expects what the proved entries must print.
fn holds(program: &str) {
    let script = stored(program, "stdin");
    assert!(plays_in_pieces(&script));
    let commands = parse(&script);
    assert!(expected(&commands).into_bytes() == stored(program, "stdout"));
}

#[test]
fn samples() {
    holds("samples");
}

#[test]
fn cases() {
    holds("cases");
}

/// The stored random cases are those of the default seed.
#[test]
fn vectors() {
    let commands = generate(1, 3000);
    assert!(render(&commands) == stored("vectors", "stdin"));
    assert!(expected(&commands).into_bytes() == stored("vectors", "stdout"));
}

#[test]
fn format() {
    holds("format");
}

/// The document's own print, and the samples of the same circuit.
#[test]
fn programs() {
    let translate = translated(&stored("translate", "stdin"));
    assert!(translate.into_bytes() == stored("translate", "stdout"));
    let play = played(&stored("play", "stdin"));
    assert!(play.into_bytes() == stored("play", "stdout"));
}

/// The circuits for users are accepted ones.
#[test]
fn circuits() {
    let folder = format!("{}/../samples", env!("CARGO_MANIFEST_DIR"));
    for file in read_dir(folder).unwrap() {
        let path = file.unwrap().path();
        let table = column::parse(&read(&path).unwrap());
        let counts = table.and_then(|table| check(&table));
        assert!(counts.is_ok(), "{path:?}: {counts:?}");
    }
}

/// The runs of a program on the files of a folder: of each a line with its name, then what is printed.
fn runs(program: &str, printed: fn(&[u8]) -> String) {
    let stdout = String::from_utf8(stored(program, "stdout")).unwrap();
    let folder = read_dir(path(program, "data")).unwrap();
    let files: Vec<String> = folder
        .map(|file| file.unwrap().file_name().into_string().unwrap())
        .collect();
    // a file that is there again as bytes at hand
    let named = |line: &str| {
        files
            .iter()
            .find(|&file| file == line.strip_suffix(" held").unwrap_or(line))
    };
    let titles: Vec<(&str, &String)> = stdout
        .lines()
        .filter_map(|line| Some((line, named(line)?)))
        .collect();
    let mut expected = String::new();
    for (title, file) in &titles {
        expected += &format!(
            "{title}\n{}",
            printed(&stored(program, &format!("data/{file}")))
        );
    }
    assert!(expected == stdout);
    assert!(files
        .iter()
        .all(|file| titles.iter().any(|(_, named)| *named == file)));
}

#[test]
fn translate_runs() {
    runs("translate_runs", translated);
}

#[test]
fn play_runs() {
    runs("play_runs", played);
}
