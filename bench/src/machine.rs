//! The machine and the compilers.
use std::fs::read_to_string;
use std::process::Command;
use std::thread::available_parallelism;

/// The first line that a program prints.
fn first_line(program: &str, word: &str) -> String {
    let output = Command::new(program).arg(word).output();
    let text = output.map(|o| String::from_utf8_lossy(&o.stdout).into_owned());
    let text = text.unwrap_or_default();
    text.lines().next().unwrap_or("unknown").to_string()
}

fn model() -> String {
    let text = read_to_string("/proc/cpuinfo").unwrap_or_default();
    let line = text.lines().find(|line| line.starts_with("model name"));
    let model = line.and_then(|line| line.split(": ").nth(1));
    model.unwrap_or("unknown").to_string()
}

pub fn print() {
    let cores = available_parallelism().map_or(0, usize::from);
    println!("| machine | |");
    println!("|---|---|");
    println!("| processor | {}, cores: {cores} |", model());
    println!("| C | {}, -O2 |", first_line("gcc", "--version"));
    println!("| Rust | {}, release |", first_line("rustc", "--version"));
    println!("| Rattle | {} |", first_line("rt", "version"));
}
