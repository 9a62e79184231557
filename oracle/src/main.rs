//! `oracle SEED CASES SCRIPTFILE OUTPUTFILE` writes a random script and its expected output.

use oracle::{generate::generate, script};
use std::process::ExitCode;

fn main() -> ExitCode {
    let arguments: Vec<String> = std::env::args().skip(1).collect();
    let [seed, cases, script_file, output_file] = arguments.as_slice() else {
        eprintln!("oracle SEED CASES SCRIPTFILE OUTPUTFILE");
        return ExitCode::FAILURE;
    };
    let (Ok(seed), Ok(cases)) = (seed.parse(), cases.parse()) else {
        eprintln!("SEED and CASES are whole numbers");
        return ExitCode::FAILURE;
    };
    let commands = generate(seed, cases);
    let script = script::render(&commands);
    let output = script::expected(&commands);
    let written =
        std::fs::write(script_file, script).and_then(|()| std::fs::write(output_file, output));
    match written {
        Ok(()) => ExitCode::SUCCESS,
        Err(error) => {
            eprintln!("{error}");
            ExitCode::FAILURE
        }
    }
}
