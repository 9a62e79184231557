//! A circuit made ready to run, and the implementations that run it.
use crate::circuits::Circuit;
use crate::engine::{self, Block, Counts, HEADER_NUMBERS, INSTRUCTION_NUMBERS, Worked};
use crate::interpreter;
use crate::random::Random;

/// The longest block, in ticks.
pub const TICKS: usize = 4096;

pub struct Case {
    pub name: String,
    pub table: Vec<u32>,
    pub code: Vec<u32>,
    pub counts: Counts,
    inputs: Vec<u32>,
    controls: Vec<u32>,
}

impl Case {
    pub fn new(circuit: Circuit) -> Case {
        let counts = engine::check(&circuit.table);
        let instructions = INSTRUCTION_NUMBERS * counts.instructions;
        let mut code = vec![0; HEADER_NUMBERS + instructions + counts.outputs];
        assert_eq!(engine::translate(&circuit.table, &mut code), code.len());
        let mut inputs = Random::new(7).words(TICKS * counts.inputs);
        for tick in inputs.chunks_mut(counts.inputs.max(1)) {
            tick[..circuit.clocks].fill(circuit.clock);
        }
        let controls = (0..16).map(|slot| slot % 3).collect();
        let (name, table) = (circuit.name, circuit.table);
        Case {
            name,
            table,
            code,
            counts,
            inputs,
            controls,
        }
    }

    pub fn nodes(&self) -> usize {
        self.table.len() / 3
    }

    /// The first so many ticks.
    pub fn block(&self, ticks: usize) -> Block<'_> {
        let inputs = &self.inputs[..ticks * self.counts.inputs];
        Block {
            ticks,
            inputs,
            controls: &self.controls,
        }
    }

    /// The next ticks from the given one on, with controls of their own.
    pub fn block_from<'a>(&'a self, from: usize, ticks: usize, controls: &'a [u32]) -> Block<'a> {
        let inputs = &self.inputs[from * self.counts.inputs..][..ticks * self.counts.inputs];
        Block {
            ticks,
            inputs,
            controls,
        }
    }

    /// Cells that held something else before the load.
    pub fn loaded(&self) -> Vec<u32> {
        let mut cells = Random::new(11).words(self.counts.cells);
        engine::load(self.counts.cells, &mut cells);
        cells
    }

    /// One who runs the circuit.
    fn implementation<'a>(
        &self,
        name: &'static str,
        program: &'a [u32],
        run: Run,
    ) -> Implementation<'a> {
        let cells = self.loaded();
        let outputs = vec![0; TICKS * self.counts.outputs];
        Implementation {
            name,
            program,
            run,
            cells,
            outputs,
        }
    }

    /// The runner, both interpreters and the walker, in four copies each.
    pub fn implementations(&self) -> [Implementation<'_>; 16] {
        let code = |name, run| self.implementation(name, &self.code, run);
        let [w0, w1, w2, w3] = self.walkers();
        [
            code("runner, copy 0", engine::run::<0>),
            code("runner, copy 1", engine::run::<1>),
            code("runner, copy 2", engine::run::<2>),
            code("runner, copy 3", engine::run::<3>),
            code("C, copy 0", engine::run_in_c::<0>),
            code("C, copy 1", engine::run_in_c::<1>),
            code("C, copy 2", engine::run_in_c::<2>),
            code("C, copy 3", engine::run_in_c::<3>),
            code("Rust, copy 0", interpreter::run::<0>),
            code("Rust, copy 1", interpreter::run::<1>),
            code("Rust, copy 2", interpreter::run::<2>),
            code("Rust, copy 3", interpreter::run::<3>),
            w0,
            w1,
            w2,
            w3,
        ]
    }

    pub fn walkers(&self) -> [Implementation<'_>; 4] {
        let table = |name, run| self.implementation(name, &self.table, run);
        [
            table("walker, copy 0", engine::walk::<0>),
            table("walker, copy 1", engine::walk::<1>),
            table("walker, copy 2", engine::walk::<2>),
            table("walker, copy 3", engine::walk::<3>),
        ]
    }
}

/// Runs a code or walks a table: program, block, cells, outputs.
pub type Run = fn(&[u32], &Block, &mut [u32], &mut [u32]) -> Worked;

pub struct Implementation<'a> {
    pub name: &'static str,
    pub program: &'a [u32],
    pub run: Run,
    pub cells: Vec<u32>,
    pub outputs: Vec<u32>,
}

impl Implementation<'_> {
    pub fn play(&mut self, block: &Block) -> Worked {
        (self.run)(self.program, block, &mut self.cells, &mut self.outputs)
    }
}
