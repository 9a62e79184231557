//! A walk with probes that a rule answers, and what the rules are made of.

use crate::flat::Flat;
use oracle::arity::{check, Checked, Node};
use oracle::engine::{Block, Counts, Engine, Probes, Refusal, Worked};
use oracle::flat::{instruction, trace, Trace};
use oracle::probes::{wires, Wire};
use oracle::samples::operate;
use oracle::translate::{placed, Place};

type Answer = Result<u32, Refusal>;
pub type Work = Result<Worked, Refusal>;

/// A walk with probes, on buffers of its own.
#[derive(Clone)]
pub struct Call {
    pub table: Vec<u32>,
    pub ticks: u32,
    pub inputs: Vec<u32>,
    pub controls: Vec<u32>,
    pub cells: Vec<u32>,
    pub outputs: Vec<u32>,
    pub named: Vec<u32>,
    pub latest: Vec<u32>,
    pub recording: Vec<u32>,
}

#[derive(Clone, Copy)]
pub struct Rule {
    pub name: &'static str,
    /// In so many cases of the default mix, at least, it shows.
    pub least: usize,
    probed: fn(&mut Call) -> Work,
}

pub const fn rule(name: &'static str, least: usize, probed: fn(&mut Call) -> Work) -> Rule {
    Rule {
        name,
        least,
        probed,
    }
}

impl Call {
    /// What the right rules do.
    pub fn right(&mut self) -> Work {
        let block = Block {
            ticks: self.ticks,
            inputs: &self.inputs,
            controls: &self.controls,
        };
        let probes = &mut Probes {
            named: &self.named,
            latest: &mut self.latest,
            recording: &mut self.recording,
        };
        let (cells, outputs) = (&mut self.cells, &mut self.outputs);
        Flat.walk_probed(&self.table, &block, cells, outputs, probes)
    }

    pub fn answer(&self) -> Work {
        self.clone().right()
    }

    pub fn many(&self) -> usize {
        self.named.len() / 2
    }

    pub fn checked(&self) -> Result<Checked, Refusal> {
        check(&self.table)
    }

    pub fn names(&self, checked: &Checked) -> bool {
        wires(&self.named, checked).is_ok()
    }

    /// The recording of each tick of an accepted call.
    pub fn rows(&mut self) -> impl Iterator<Item = &mut [u32]> {
        let many = self.many();
        let needed = self.ticks as usize * many;
        self.recording[..needed].chunks_mut(many.max(1))
    }

    /// The probes that name a wire again, each with the first that does.
    pub fn again(&self) -> Vec<(usize, usize)> {
        let pairs: Vec<&[u32]> = self.named.chunks(2).collect();
        let first = |i: usize| pairs.iter().position(|pair| *pair == pairs[i]);
        let all = (0..pairs.len()).map(|i| (i, first(i).expect("itself")));
        all.filter(|(i, first)| first < i).collect()
    }

    /// Whether a buffer is shorter than as many probes as there are numbers for need.
    pub fn short(&self) -> bool {
        let counts = self.checked().expect("an accepted table").counts;
        let ticks = self.ticks as usize;
        self.cells.len() < counts.cells as usize
            || self.outputs.len() < ticks * counts.outputs as usize
            || self.latest.len() < self.many()
            || self.recording.len() < ticks * self.many()
    }

    /// One refusal more, where the right rules take the call.
    pub fn unless(&mut self, number: u32, refused: fn(&Call) -> bool) -> Work {
        match self.answer().is_ok() && refused(self) {
            true => Err(Refusal::nowhere(number)),
            false => self.right(),
        }
    }

    /// Every probe under the name that a wrong row 15 takes it for.
    pub fn rename(&mut self, name: fn(u32, u32, &Checked) -> [u32; 2]) -> Work {
        let checked = self.checked()?;
        for pair in self.named.chunks_exact_mut(2) {
            pair.copy_from_slice(&name(pair[0], pair[1], &checked));
        }
        self.right()
    }

    /// Another choice of what a wire shows after a tick.
    pub fn shown(&mut self, show: fn(&Seen) -> Option<u32>) -> Work {
        let answer = self.answer()?;
        let checked = self.checked()?;
        let wires = wires(&self.named, &checked)?;
        let (code, places) = placed(&self.table, &checked);
        let (n, m) = (code[0] as usize, code[1] as usize);
        for tick in 0..self.ticks as usize {
            let inputs = &self.inputs[tick * n..(tick + 1) * n];
            let trace = trace(operate, &code, inputs, &self.controls, &mut self.cells);
            trace.give(&code, &mut self.outputs[tick * m..(tick + 1) * m]);
            for (i, &wire) in wires.iter().enumerate() {
                let seen = Seen {
                    code: &code,
                    places: &places,
                    trace: &trace,
                    node: Node::at(&self.table, wire.node),
                    wire,
                };
                self.latest[i] = show(&seen).unwrap_or(self.latest[i]);
                self.recording[tick * wires.len() + i] = self.latest[i];
            }
        }
        Ok(answer)
    }
}

/// A wire after a tick.
pub struct Seen<'a> {
    code: &'a [u32],
    pub places: &'a [Place],
    pub trace: &'a Trace,
    pub node: Node,
    pub wire: Wire,
}

impl Seen<'_> {
    pub fn register(&self) -> u32 {
        let register = self.places[self.wire.node].outputs[self.wire.output];
        self.trace.registers[register as usize]
    }

    pub fn clock(&self, skip: usize) -> u32 {
        self.trace.registers[instruction(self.code, skip)[1] as usize]
    }

    pub fn reached(&self, skip: Option<usize>) -> bool {
        skip.is_none_or(|skip| self.trace.worked[skip] && self.clock(skip) != 0)
    }

    pub fn right(&self) -> Option<u32> {
        let skip = self.places[self.wire.node].skip;
        self.reached(skip).then(|| self.register())
    }
}

impl Engine for Rule {
    fn check(&self, table: &[u32]) -> Result<Counts, Refusal> {
        Flat.check(table)
    }
    fn read(&self, file: &[u8], table: &mut [u32]) -> Answer {
        Flat.read(file, table)
    }
    fn write(&self, table: &[u32], file: &mut [u8]) -> Answer {
        Flat.write(table, file)
    }
    fn translate(&self, table: &[u32], code: &mut [u32]) -> Answer {
        Flat.translate(table, code)
    }
    fn load(&self, named: u32, cells: &mut [u32]) -> Answer {
        Flat.load(named, cells)
    }
    fn walk(&self, table: &[u32], block: &Block, cells: &mut [u32], outputs: &mut [u32]) -> Work {
        Flat.walk(table, block, cells, outputs)
    }
    fn walk_probed(
        &self,
        table: &[u32],
        block: &Block,
        cells: &mut [u32],
        outputs: &mut [u32],
        probes: &mut Probes,
    ) -> Work {
        let mut call = Call {
            table: table.to_vec(),
            ticks: block.ticks,
            inputs: block.inputs.to_vec(),
            controls: block.controls.to_vec(),
            cells: cells.to_vec(),
            outputs: outputs.to_vec(),
            named: probes.named.to_vec(),
            latest: probes.latest.to_vec(),
            recording: probes.recording.to_vec(),
        };
        let answer = (self.probed)(&mut call);
        let lent = [cells, outputs, &mut *probes.latest, &mut *probes.recording];
        let left = [call.cells, call.outputs, call.latest, call.recording];
        for (lent, left) in lent.into_iter().zip(left) {
            lent.copy_from_slice(&left[..lent.len()]);
        }
        answer
    }
    fn run(&self, code: &[u32], block: &Block, cells: &mut [u32], outputs: &mut [u32]) -> Work {
        Flat.run(code, block, cells, outputs)
    }
    fn join(&self, kind: u32, first: &[u32], second: &[u32], joined: &mut [u32]) -> Answer {
        Flat.join(kind, first, second, joined)
    }
}
