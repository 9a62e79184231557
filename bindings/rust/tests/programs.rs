//! The programs `translate` and `play` against the oracle, on fresh random inputs that a pipe gives in pieces of any length.
//! The seed is taken from the clock and printed; `SEED=n` plays it again, `CASES=n` plays so many cases.
use oracle::play_cases::{case, file};
use oracle::programs::{played, translated};
use oracle::random::Random;
use std::env;
use std::io::{stderr, Write};
use std::path::PathBuf;
use std::process::{Command, Stdio};
use std::thread;
use std::time::{Duration, SystemTime, UNIX_EPOCH};

fn number(name: &str) -> Option<u64> {
    let text = env::var(name).ok()?;
    Some(text.parse().expect("a number in the environment"))
}

fn random(what: &str) -> (Random, u64) {
    let clock = || SystemTime::now().duration_since(UNIX_EPOCH);
    let seed =
        number("SEED").unwrap_or_else(|| clock().expect("a clock past 1970").as_nanos() as u64);
    let count = number("CASES").unwrap_or(400);
    // Not by a macro, whose output is kept back where the test passes.
    writeln!(stderr(), "{what}: seed {seed}, {count} cases").expect("standard error");
    (Random::new(seed), count)
}

/// What the program prints when its input comes in these pieces.
fn output(program: &str, pieces: Vec<Vec<u8>>) -> String {
    let path = PathBuf::from(env!("CARGO_MANIFEST_DIR"))
        .join("../../target/bin")
        .join(program);
    let mut child = Command::new(&path)
        .stdin(Stdio::piped())
        .stdout(Stdio::piped())
        .spawn()
        .unwrap_or_else(|error| {
            panic!(
                "{}: {error}; run `tools/build programs` first",
                path.display()
            )
        });
    let mut input = child.stdin.take().expect("a pipe");
    // A pause, so that each piece is a read of its own. A program that ends early closes its input, and the rest is not taken.
    let writer = thread::spawn(move || {
        for piece in pieces {
            if input.write_all(&piece).is_err() {
                return;
            }
            thread::sleep(Duration::from_millis(3));
        }
    });
    let output = child.wait_with_output().expect("the program's output");
    writer.join().expect("the input's thread");
    String::from_utf8(output.stdout).expect("text")
}

/// The input whole, or cut into a few pieces.
fn pieces(random: &mut Random, input: &[u8]) -> Vec<Vec<u8>> {
    let mut rest = input;
    let mut pieces = Vec::new();
    let cuts = random.pick(&[0, 0, 0, 0, 1, 2, 5]);
    for _ in 0..cuts {
        let (piece, behind) = rest.split_at(random.below(rest.len() + 1));
        pieces.push(piece.to_vec());
        rest = behind;
    }
    pieces.push(rest.to_vec());
    pieces
}

fn compare(program: &str, input: &[u8], wanted: String, got: String) {
    assert!(
        wanted == got,
        "{program} on\n{}\nexpected:\n{wanted}\ngot:\n{got}",
        String::from_utf8_lossy(input)
    );
}

#[test]
fn play_fresh_cases() {
    let (mut random, count) = random("play");
    for _ in 0..count {
        let input = case(&mut random);
        let got = output("play", pieces(&mut random, &input));
        compare("play", &input, played(&input), got);
    }
}

#[test]
fn translate_fresh_cases() {
    let (mut random, count) = random("translate");
    for _ in 0..count {
        let (_, input) = file(&mut random);
        let got = output("translate", pieces(&mut random, &input));
        compare("translate", &input, translated(&input), got);
    }
}

/// 512 lines, the empty line behind them, and samples, cut about the empty line.
#[test]
fn play_cut_at_the_limit() {
    let input = include_bytes!("../../../crates/play_runs/data/lines_512");
    for at in 20990..=20996 {
        let (piece, behind) = input.split_at(at);
        let got = output("play", vec![piece.to_vec(), behind.to_vec()]);
        compare("play", input, played(input), got);
    }
}
