//! Scripts: their commands, their text, and what they print.

use crate::engine::Engine;
use crate::scene::{perform, Live, Oracle};

/// "A script is played in pieces of 65,536 bytes."
pub const PIECE: usize = 65536;

#[derive(Clone, Debug, PartialEq, Eq)]
pub enum Command {
    Title(String),
    Table(Vec<u32>),
    /// The second table of joins.
    Second(Vec<u32>),
    Code(Vec<u32>),
    Inputs(Vec<u32>),
    Controls(Vec<u32>),
    File(Vec<u8>),
    Memory(u32),
    Check,
    Read(usize),
    Write(usize),
    Translate(usize),
    /// The kind of the joining node, the length of the buffer.
    Join(u32, usize),
    Print,
    Play,
    /// The named count of cells, the count of lent ones.
    Load(u32, usize),
    /// Ticks, lent cells, length of the output buffer.
    Walk(u32, usize, usize),
    Run(u32, usize, usize),
    /// The node and the output of each probe.
    Probes(Vec<u32>),
    /// The first numbers of the list of latest values.
    Latest(Vec<u32>),
    Probed(Lent),
    Cells(usize),
}

/// What a walk with probes is lent: ticks, and the lengths of cells, outputs, list and recording.
#[derive(Clone, Copy, Debug, PartialEq, Eq)]
pub struct Lent {
    pub ticks: u32,
    pub cells: usize,
    pub out: usize,
    pub latest: usize,
    pub recording: usize,
}

/// What the script must print, by the oracle.
pub fn expected(commands: &[Command]) -> String {
    perform(commands, &mut Oracle::default())
}

/// What an engine makes the script print.
pub fn play(commands: &[Command], engine: &impl Engine) -> String {
    perform(commands, &mut Live(engine))
}

/// "A space stands before each number, and two or more equal numbers in a row, as many as
/// there are, are one `v*k`."
pub fn list(numbers: &[u32]) -> String {
    let mut text = String::new();
    for run in numbers.chunk_by(|a, b| a == b) {
        text.push_str(&format!(" {}", run[0] as i32));
        if run.len() > 1 {
            text.push_str(&format!("*{}", run.len()));
        }
    }
    text
}

/// The script's text, with line feeds that fill up a piece where a command does not fit.
pub fn render(commands: &[Command]) -> Vec<u8> {
    let mut text = Vec::new();
    for command in commands {
        let lines = render_one(command);
        assert!(lines.len() <= PIECE, "a command longer than a piece");
        let used = text.len() % PIECE;
        if used + lines.len() > PIECE {
            text.resize(text.len() + PIECE - used, b'\n');
        }
        text.extend(lines);
    }
    text
}

fn render_one(command: &Command) -> Vec<u8> {
    let line = match command {
        Command::Title(title) => format!("# {title}\n"),
        Command::Table(numbers) => format!("table{}\n", list(numbers)),
        Command::Second(numbers) => format!("second{}\n", list(numbers)),
        Command::Code(numbers) => format!("code{}\n", list(numbers)),
        Command::Inputs(numbers) => format!("inputs{}\n", list(numbers)),
        Command::Controls(numbers) => format!("controls{}\n", list(numbers)),
        Command::File(bytes) => format!("file {}\n", bytes.len()),
        Command::Memory(value) => format!("memory {}\n", *value as i32),
        Command::Check => "check\n".to_string(),
        Command::Read(length) => format!("read {length}\n"),
        Command::Write(length) => format!("write {length}\n"),
        Command::Translate(length) => format!("translate {length}\n"),
        Command::Join(kind, length) => format!("join {} {length}\n", *kind as i32),
        Command::Print => "print\n".to_string(),
        Command::Play => "play\n".to_string(),
        Command::Load(named, lent) => format!("load {} {lent}\n", *named as i32),
        Command::Walk(ticks, cells, out) => format!("walk {} {cells} {out}\n", *ticks as i32),
        Command::Run(ticks, cells, out) => format!("run {} {cells} {out}\n", *ticks as i32),
        Command::Probes(numbers) => format!("probes{}\n", list(numbers)),
        Command::Latest(numbers) => format!("latest{}\n", list(numbers)),
        Command::Probed(lent) => {
            let sizes = [lent.cells, lent.out, lent.latest, lent.recording];
            let sizes = sizes.map(|size| format!(" {size}")).concat();
            format!("probed {}{sizes}\n", lent.ticks as i32)
        }
        Command::Cells(count) => format!("cells {count}\n"),
    };
    let mut text = line.into_bytes();
    if let Command::File(bytes) = command {
        text.extend(bytes);
    }
    text
}

/// Whether each line of a script, and a file's line and bytes at once, lie within one piece.
pub fn plays_in_pieces(script: &[u8]) -> bool {
    let mut at = 0;
    while at < script.len() {
        let feed = script[at..].iter().position(|&byte| byte == b'\n');
        let line = &script[at..at + feed.expect("a line feed")];
        let line = std::str::from_utf8(line).expect("ASCII");
        let bytes = line
            .strip_prefix("file ")
            .map_or(0, |n| n.parse().expect("a count"));
        let end = at + line.len() + 1 + bytes;
        if at / PIECE != (end - 1) / PIECE {
            return false;
        }
        at = end;
    }
    true
}
