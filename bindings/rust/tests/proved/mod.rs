//! The package as an engine that the oracle's cases are played on; and the seed of the cases, which is taken from the clock
//! and printed: `SEED=n` plays them again, `CASES=n` plays so many.
use oracle::engine::{Block, Counts, Engine, Probes, Refusal, Worked};
use std::env;
use std::io::{stderr, Write};
use std::time::{SystemTime, UNIX_EPOCH};

/// The wrapper as an engine of the oracle, whose numbers are the words.
pub struct Proved;

type Answer = Result<u32, Refusal>;
pub type Work = Result<Worked, Refusal>;

fn signed(words: &[u32]) -> Vec<i32> {
    words.iter().map(|&word| word as i32).collect()
}

/// A call that is lent the words as numbers.
fn lent<T>(words: &mut [u32], call: impl FnOnce(&mut [i32]) -> T) -> T {
    let mut numbers = signed(words);
    let answer = call(&mut numbers);
    words
        .iter_mut()
        .zip(numbers)
        .for_each(|(word, number)| *word = number as u32);
    answer
}

fn refusal(refusal: circuit::Refusal) -> Refusal {
    Refusal {
        number: refusal.number,
        place: refusal.place,
    }
}

fn answer(answer: Result<usize, circuit::Refusal>) -> Answer {
    answer.map(|count| count as u32).map_err(refusal)
}

fn work(answer: Result<circuit::Worked, circuit::Refusal>) -> Work {
    let worked = answer.map_err(refusal)?;
    Ok(Worked {
        samples: worked.samples as u32,
        clipped: worked.clipped as u32,
    })
}

impl Engine for Proved {
    fn check(&self, table: &[u32]) -> Result<Counts, Refusal> {
        let counts = circuit::check(&signed(table)).map_err(refusal)?;
        Ok(Counts {
            inputs: counts.inputs,
            outputs: counts.outputs,
            instructions: counts.instructions,
            cells: counts.cells,
        })
    }

    fn read(&self, file: &[u8], table: &mut [u32]) -> Answer {
        answer(lent(table, |table| circuit::read(file, table)))
    }

    fn write(&self, table: &[u32], file: &mut [u8]) -> Answer {
        answer(circuit::write(&signed(table), file))
    }

    fn translate(&self, table: &[u32], code: &mut [u32]) -> Answer {
        answer(lent(code, |code| circuit::translate(&signed(table), code)))
    }

    fn join(&self, kind: u32, first: &[u32], second: &[u32], joined: &mut [u32]) -> Answer {
        let (first, second) = (signed(first), signed(second));
        answer(lent(joined, |joined| {
            circuit::join(kind as i32, &first, &second, joined)
        }))
    }

    fn load(&self, named: u32, cells: &mut [u32]) -> Answer {
        answer(lent(cells, |cells| circuit::load(named, cells)))
    }

    fn walk(
        &self,
        table: &[u32],
        block: &Block,
        cells: &mut [u32],
        outputs: &mut [u32],
    ) -> Work {
        let table = signed(table);
        let (inputs, controls) = (signed(block.inputs), signed(block.controls));
        work(lent(cells, |cells| {
            lent(outputs, |outputs| {
                circuit::walk(&table, block.ticks, &inputs, &controls, cells, outputs)
            })
        }))
    }

    fn walk_probed(
        &self,
        table: &[u32],
        block: &Block,
        cells: &mut [u32],
        outputs: &mut [u32],
        probes: &mut Probes,
    ) -> Work {
        let (table, named) = (signed(table), signed(probes.named));
        let (inputs, controls) = (signed(block.inputs), signed(block.controls));
        work(lent(cells, |cells| {
            lent(outputs, |outputs| {
                lent(probes.latest, |latest| {
                    lent(probes.recording, |recording| {
                        circuit::walk_probed(
                            &table,
                            &named,
                            block.ticks,
                            &inputs,
                            &controls,
                            cells,
                            outputs,
                            latest,
                            recording,
                        )
                    })
                })
            })
        }))
    }

    fn run(
        &self,
        code: &[u32],
        block: &Block,
        cells: &mut [u32],
        outputs: &mut [u32],
    ) -> Work {
        let code = signed(code);
        let (inputs, controls) = (signed(block.inputs), signed(block.controls));
        work(lent(cells, |cells| {
            lent(outputs, |outputs| {
                circuit::run(&code, block.ticks, &inputs, &controls, cells, outputs)
            })
        }))
    }
}

fn number(name: &str) -> Option<u64> {
    let text = env::var(name).ok()?;
    Some(text.parse().expect("a number in the environment"))
}

fn from_clock() -> u64 {
    let now = SystemTime::now().duration_since(UNIX_EPOCH);
    now.expect("a clock past 1970").as_nanos() as u64
}

/// A seed and a count of cases, which are told.
pub fn seeded(what: &str, usual: u64) -> (u64, u64) {
    let seed = number("SEED").unwrap_or_else(from_clock);
    let count = number("CASES").unwrap_or(usual);
    // Not by a macro, whose output is kept back where the test passes.
    writeln!(stderr(), "{what}: seed {seed}, {count} cases").expect("standard error");
    (seed, count)
}
