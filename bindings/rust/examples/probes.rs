//! Shows wires of a circuit on samples: probes FILE NODE:OUTPUT.. < SAMPLES
//! FILE is a column file; a probe names a node and an output of it, counted from 0; SAMPLES are decimal numbers, each
//! tick's inputs one after another. Each probe has a column, headed by the node's kind and the probe; each tick a line.
//! Without inputs there is nothing to wait for: one block is walked.
use circuit::{Refusal, CELLS, CONTROLS, PROBES, TABLE_NUMBERS, WIDTH};
use std::process::ExitCode;
use std::{env, fs, io};

/// Ticks of a call.
const BLOCK: usize = 64;

/// The kinds of nodes, from 1 on.
const KINDS: [&str; 12] = [
    "number",
    "control",
    "operation",
    "delay",
    "cable",
    "cut",
    "sequence",
    "parallel",
    "split",
    "merge",
    "recursion",
    "ondemand",
];

fn refused(what: &str) -> impl Fn(Refusal) -> String + '_ {
    move |r| format!("{what}: refusal {}, place {}", r.number, r.place)
}

/// The samples of standard input, up to the first word that is no number.
fn samples() -> Vec<i32> {
    let text = io::read_to_string(io::stdin()).unwrap_or_default();
    let numbers = text.split_ascii_whitespace().map(str::parse);
    numbers.map_while(Result::ok).collect()
}

/// The node and the output of NODE:OUTPUT.
fn probe(text: &str) -> Option<[i32; 2]> {
    let (node, output) = text.split_once(':')?;
    Some([node.parse().ok()?, output.parse().ok()?])
}

/// The heading of each column, for probes that name outputs of the table; none is narrower than the longest number.
fn headings(table: &[i32], probes: &[[i32; 2]]) -> Vec<String> {
    let heading = |&[node, output]: &[i32; 2]| {
        let kind = KINDS[table[3 * node as usize] as usize - 1];
        format!("{:>11}", format!("{kind} {node}:{output}"))
    };
    probes.iter().map(heading).collect()
}

/// A tick's numbers, each at the right of its column.
fn row(headings: &[String], numbers: &[i32]) -> String {
    let columns = headings.iter().zip(numbers);
    let cells: Vec<String> = columns
        .map(|(heading, number)| format!("{number:>0$}", heading.len()))
        .collect();
    cells.join("  ")
}

/// A circuit with its probes, and what goes on from block to block.
struct Walk<'a> {
    table: &'a [i32],
    probes: Vec<i32>,
    cells: [i32; CELLS],
    latest: [i32; PROBES],
}

impl Walk<'_> {
    /// What the probes show at each tick of a block.
    fn block(&mut self, ticks: usize, inputs: &[i32]) -> Result<Vec<i32>, String> {
        let (mut outputs, mut recording) = ([0; BLOCK * WIDTH], [0; BLOCK * PROBES]);
        let answer = circuit::walk_probed(
            self.table,
            &self.probes,
            ticks as u32,
            inputs,
            &[0; CONTROLS],
            &mut self.cells,
            &mut outputs,
            &mut self.latest,
            &mut recording,
        );
        answer.map_err(refused("walk"))?;
        Ok(recording[..ticks * self.probes.len() / 2].to_vec())
    }
}

fn run(file: &[u8], probes: &[[i32; 2]]) -> Result<(), String> {
    let mut table = [0; TABLE_NUMBERS];
    let nodes = circuit::read(file, &mut table).map_err(refused("read"))?;
    let table = &table[..3 * nodes];
    let counts = circuit::check(table).map_err(refused("check"))?;
    let mut walk = Walk {
        table,
        probes: probes.concat(),
        cells: [0; CELLS],
        latest: [0; PROBES],
    };
    circuit::load(counts.cells, &mut walk.cells).map_err(refused("load"))?;

    walk.block(0, &[])?; // Wrong probes are refused, before a heading looks for its node.
    let headings = headings(table, probes);
    println!("{}", headings.join("  "));
    let mut show = |ticks: usize, inputs: &[i32]| {
        for numbers in walk.block(ticks, inputs)?.chunks(probes.len()) {
            println!("{}", row(&headings, numbers));
        }
        Ok(())
    };
    let n = counts.inputs as usize;
    if n == 0 {
        return show(BLOCK, &[]);
    }
    for inputs in samples().chunks(BLOCK * n) {
        let ticks = inputs.len() / n;
        show(ticks, &inputs[..ticks * n])?;
    }
    Ok(())
}

/// The bytes of FILE, and the probes, of which there is at least one.
fn named(arguments: &[String]) -> Option<(Vec<u8>, Vec<[i32; 2]>)> {
    let [_, name, first, others @ ..] = arguments else {
        return None;
    };
    let mut probes = vec![probe(first)?];
    for other in others {
        probes.push(probe(other)?);
    }
    Some((fs::read(name).ok()?, probes))
}

fn main() -> ExitCode {
    let arguments: Vec<String> = env::args().collect();
    let Some((file, probes)) = named(&arguments) else {
        eprintln!("usage: probes FILE NODE:OUTPUT.. < SAMPLES");
        return ExitCode::from(2);
    };
    match run(&file, &probes) {
        Ok(()) => ExitCode::SUCCESS,
        Err(refusal) => {
            eprintln!("{refusal}");
            ExitCode::FAILURE
        }
    }
}
