//! The oracle's answers to the calls that use cells. Samples and cells come from the meaning
//! over the whole history wherever there is one; elsewhere from the interpreter.

use crate::arity::{check, Checked};
use crate::engine::{Block, Counts, Probes, Refusal, Worked};
use crate::flat::{self, MOST_CELLS};
use crate::meaning::Meaning;
use crate::probes::{walk_by, wires, Recorder};
use crate::samples::operate;

/// What is known of a memory.
enum Life {
    Unknown,
    /// A load named so many cells and nothing ran since.
    Cleared(usize),
    /// The cells are those of a table after a history that began with a load.
    Told(Vec<u32>, Box<Meaning>),
}

/// One memory's past.
pub struct Past(Life);

impl Default for Past {
    fn default() -> Past {
        Past(Life::Unknown)
    }
}

impl Past {
    /// "Load: 11, 12." "A load sets the named count of cells to 0 and touches no others."
    pub fn load(&mut self, named: u32, cells: &mut [u32]) -> Result<u32, Refusal> {
        if named as usize > MOST_CELLS {
            return Err(Refusal::nowhere(11));
        }
        if cells.len() < named as usize {
            return Err(Refusal::nowhere(12));
        }
        cells[..named as usize].fill(0);
        self.0 = Life::Cleared(named as usize);
        Ok(named)
    }

    /// "Walker: table, 11, 14, 12."
    pub fn walk(
        &mut self,
        table: &[u32],
        block: &Block,
        cells: &mut [u32],
        outputs: &mut [u32],
    ) -> Result<Worked, Refusal> {
        let counts = walkable(table)?.counts;
        block_fits(&counts, block)?;
        room(&counts, block.ticks, cells, outputs)?;
        let clipped = self.go_on(table, block, cells, outputs, &mut Recorder::none());
        Ok(worked(&counts, block, clipped))
    }

    /// E5: "Refusal 15 .. is checked after 14 and before 12."
    pub fn walk_probed(
        &mut self,
        table: &[u32],
        block: &Block,
        cells: &mut [u32],
        outputs: &mut [u32],
        probes: &mut Probes,
    ) -> Result<Worked, Refusal> {
        let checked = walkable(table)?;
        let counts = checked.counts;
        block_fits(&counts, block)?;
        let wires = wires(probes.named, &checked)?;
        room(&counts, block.ticks, cells, outputs)?;
        let mut recorder = Recorder::new(wires, block.ticks, probes)?;
        let clipped = self.go_on(table, block, cells, outputs, &mut recorder);
        Ok(worked(&counts, block, clipped))
    }

    /// "Runner: 13, 14, 12." `table` is the one whose translation the code is, if it is one's.
    pub fn run(
        &mut self,
        code: &[u32],
        table: Option<&[u32]>,
        block: &Block,
        cells: &mut [u32],
        outputs: &mut [u32],
    ) -> Result<Worked, Refusal> {
        let counts = flat::check(code)?;
        block_fits(&counts, block)?;
        room(&counts, block.ticks, cells, outputs)?;
        let none = &mut Recorder::none();
        let told = table.and_then(|table| self.tell(table, block, cells, outputs, none));
        let clipped = told.unwrap_or_else(|| {
            self.interpreted(block);
            let ticks = block.ticks as usize;
            flat::interpret(code, block.inputs, block.controls, cells, outputs, ticks)
        });
        Ok(worked(&counts, block, clipped))
    }

    /// An accepted walk; gives the count of ticks with a clipped delay.
    fn go_on(
        &mut self,
        table: &[u32],
        block: &Block,
        cells: &mut [u32],
        outputs: &mut [u32],
        recorder: &mut Recorder,
    ) -> u32 {
        let told = self.tell(table, block, cells, outputs, recorder);
        told.unwrap_or_else(|| {
            self.interpreted(block);
            walk_by(operate, table, block, cells, outputs, recorder)
        })
    }

    /// Adds the block to the history, if there is one, and writes what the meaning says; gives the
    /// meaning's count of clipped ticks among the block's.
    fn tell(
        &mut self,
        table: &[u32],
        block: &Block,
        cells: &mut [u32],
        outputs: &mut [u32],
        recorder: &mut Recorder,
    ) -> Option<u32> {
        let checked = check(table).expect("an accepted table");
        let counts = checked.counts;
        if matches!(self.0, Life::Cleared(many) if many >= counts.cells as usize) {
            let meaning = Meaning::of_checked(table, &checked);
            self.0 = Life::Told(table.to_vec(), Box::new(meaning));
        }
        let Life::Told(known, meaning) = &mut self.0 else {
            return None;
        };
        if known != table {
            return None;
        }
        let first = meaning.ticks();
        let (n, m) = (counts.inputs as usize, counts.outputs as usize);
        for tick in 0..block.ticks as usize {
            let inputs = &block.inputs[tick * n..(tick + 1) * n];
            let wires = recorder.wires.clone();
            let before: Vec<usize> = wires.iter().map(|&wire| meaning.reached(wire)).collect();
            let samples = meaning.tick(inputs, block.controls);
            outputs[tick * m..(tick + 1) * m].copy_from_slice(&samples);
            recorder.tick(tick, |i| {
                let reached = meaning.reached(wires[i]) > before[i];
                reached.then(|| meaning.shows(wires[i]))
            });
        }
        cells[..counts.cells as usize].copy_from_slice(&meaning.cells());
        Some(meaning.clipped_from(first) as u32)
    }

    fn interpreted(&mut self, block: &Block) {
        if block.ticks > 0 {
            self.0 = Life::Unknown;
        }
    }

    pub fn forget(&mut self) {
        self.0 = Life::Unknown;
    }
}

/// The answer of an accepted call.
fn worked(counts: &Counts, block: &Block, clipped: u32) -> Worked {
    Worked {
        samples: block.ticks * counts.outputs,
        clipped,
    }
}

/// A table that the walker takes: the table's rows, then row 11.
fn walkable(table: &[u32]) -> Result<Checked, Refusal> {
    let checked = check(table)?;
    if checked.counts.cells as usize > MOST_CELLS {
        return Err(Refusal::nowhere(11));
    }
    Ok(checked)
}

/// Row 14: "ticks not 0 to 4,096; inputs not ticks × n; controls not 16".
fn block_fits(counts: &Counts, block: &Block) -> Result<(), Refusal> {
    let ticks = block.ticks as usize;
    if ticks > 4096
        || block.inputs.len() != ticks * counts.inputs as usize
        || block.controls.len() != 16
    {
        return Err(Refusal::nowhere(14));
    }
    Ok(())
}

/// Row 12: "the buffer to be filled or changed is shorter than needed; last".
fn room(counts: &Counts, ticks: u32, cells: &[u32], outputs: &[u32]) -> Result<(), Refusal> {
    let ticks = ticks as usize;
    if cells.len() < counts.cells as usize || outputs.len() < ticks * counts.outputs as usize {
        return Err(Refusal::nowhere(12));
    }
    Ok(())
}
