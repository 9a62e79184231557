//! Runs a circuit on samples: example FILE < SAMPLES
//! FILE is a column file; SAMPLES are decimal numbers, each tick's inputs one after another. Each tick's outputs are
//! printed on a line. Without inputs there is nothing to wait for: one block is run.
use circuit::{Refusal, CELLS, CODE_NUMBERS, CONTROLS, TABLE_NUMBERS, WIDTH};
use std::process::ExitCode;
use std::{env, fs, io};

/// Ticks of a call.
const BLOCK: usize = 64;

fn refused(what: &str) -> impl Fn(Refusal) -> String + '_ {
    move |r| format!("{what}: refusal {}, place {}", r.number, r.place)
}

/// The samples of standard input, up to the first word that is no number.
fn samples() -> Vec<i32> {
    let text = io::read_to_string(io::stdin()).unwrap_or_default();
    let numbers = text.split_ascii_whitespace().map(str::parse);
    numbers.map_while(Result::ok).collect()
}

fn run(file: &[u8]) -> Result<(), String> {
    let mut table = [0; TABLE_NUMBERS];
    let nodes = circuit::read(file, &mut table).map_err(refused("read"))?;
    let mut code = [0; CODE_NUMBERS];
    let numbers = circuit::translate(&table[..3 * nodes], &mut code);
    let code = &code[..numbers.map_err(refused("translate"))?];
    let (n, m, count) = (code[0] as usize, code[1] as usize, code[3] as u32);
    let mut cells = [0; CELLS];
    circuit::load(count, &mut cells).map_err(refused("load"))?;

    let controls = [0; CONTROLS];
    let mut outputs = [0; BLOCK * WIDTH];
    let mut block = |ticks: usize, inputs: &[i32]| {
        let answer = circuit::run(
            code,
            ticks as u32,
            inputs,
            &controls,
            &mut cells,
            &mut outputs,
        );
        let samples = answer.map_err(refused("run"))?.samples;
        for tick in outputs[..samples].chunks(m.max(1)) {
            let line: Vec<String> = tick.iter().map(i32::to_string).collect();
            println!("{}", line.join(" "));
        }
        Ok(())
    };
    if n == 0 {
        return block(BLOCK, &[]);
    }
    for inputs in samples().chunks(BLOCK * n) {
        let ticks = inputs.len() / n;
        block(ticks, &inputs[..ticks * n])?;
    }
    Ok(())
}

fn main() -> ExitCode {
    let arguments: Vec<String> = env::args().collect();
    let file = match &arguments[..] {
        [_, name] => fs::read(name).ok(),
        _ => None,
    };
    let Some(file) = file else {
        eprintln!("usage: example FILE < SAMPLES");
        return ExitCode::from(2);
    };
    match run(&file) {
        Ok(()) => ExitCode::SUCCESS,
        Err(refusal) => {
            eprintln!("{refusal}");
            ExitCode::FAILURE
        }
    }
}
