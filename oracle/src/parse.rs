//! The text of a script, read back.

use crate::script::{Command, Lent};

/// Numbers, each with one space before it; `v*k` stands for k times the number v.
fn numbers(text: &str) -> Vec<u32> {
    let mut numbers = Vec::new();
    for word in text.split(' ').skip(1) {
        let (value, times) = word.split_once('*').unwrap_or((word, "1"));
        let value: i32 = value.parse().expect("a number");
        let times: usize = times.parse().expect("a count");
        numbers.extend(std::iter::repeat_n(value as u32, times));
    }
    numbers
}

fn command(name: &str, rest: &str) -> Command {
    let all = numbers(rest);
    let size = |i: usize| all[i] as usize;
    match name {
        "table" => Command::Table(all),
        "second" => Command::Second(all),
        "code" => Command::Code(all),
        "inputs" => Command::Inputs(all),
        "controls" => Command::Controls(all),
        "memory" => Command::Memory(all[0]),
        "check" => Command::Check,
        "read" => Command::Read(size(0)),
        "write" => Command::Write(size(0)),
        "translate" => Command::Translate(size(0)),
        "join" => Command::Join(all[0], size(1)),
        "print" => Command::Print,
        "play" => Command::Play,
        "load" => Command::Load(all[0], size(1)),
        "walk" => Command::Walk(all[0], size(1), size(2)),
        "run" => Command::Run(all[0], size(1), size(2)),
        "probes" => Command::Probes(all),
        "latest" => Command::Latest(all),
        "probed" => Command::Probed(Lent {
            ticks: all[0],
            cells: size(1),
            out: size(2),
            latest: size(3),
            recording: size(4),
        }),
        "cells" => Command::Cells(size(0)),
        _ => panic!("no command {name}"),
    }
}

/// The commands of a script. Panics where the text is none.
pub fn parse(script: &[u8]) -> Vec<Command> {
    let mut commands = Vec::new();
    let mut at = 0;
    while at < script.len() {
        let feed = script[at..].iter().position(|&byte| byte == b'\n');
        let end = at + feed.expect("a line feed");
        let line = std::str::from_utf8(&script[at..end]).expect("ASCII");
        at = end + 1;
        let (name, rest) = line.split_at(line.find(' ').unwrap_or(line.len()));
        match name {
            "" => {}
            "#" => commands.push(Command::Title(rest[1..].to_string())),
            "file" => {
                let bytes = numbers(rest)[0] as usize;
                commands.push(Command::File(script[at..at + bytes].to_vec()));
                at += bytes;
            }
            _ => commands.push(command(name, rest)),
        }
    }
    commands
}
