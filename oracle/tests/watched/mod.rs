//! The calls of a script, each with its delays as they were worked.
#![allow(dead_code)] // a test uses a part of it

pub mod clips;

use crate::flat::Flat;
use oracle::arity::{check, Node};
use oracle::engine::{Block, Counts, Engine, Probes, Refusal, Worked};
use oracle::flat::{instruction, length, trace};
use oracle::samples::operate;
use oracle::translate::placed;
use std::cell::Cell;

type Answer = Result<u32, Refusal>;
type Work = Result<Worked, Refusal>;

#[derive(Clone, Copy, Debug, PartialEq, Eq)]
pub enum Entry {
    Walk,
    Probed,
    Run,
}

/// A delay at a tick.
#[derive(Clone, Debug)]
pub struct Delay {
    pub d: u32,
    /// Whether its instruction was worked.
    pub worked: bool,
    /// What its amount's register holds after the tick.
    pub amount: i32,
    /// What it would hold if every skip were without effect.
    pub unskipped: i32,
    /// The clocks of the skips over it, from the outermost on.
    pub clocks: Vec<u32>,
    /// The kinds of the nodes above it, each with the side it is on: 0 left, 1 right. Not of a code.
    pub above: Vec<(u32, usize)>,
}

impl Delay {
    /// "outside 0 to D"
    pub fn outside(&self) -> bool {
        !(0..=self.d as i32).contains(&self.amount)
    }

    pub fn clips(&self) -> bool {
        self.worked && self.outside()
    }
}

pub type Tick = Vec<Delay>;

/// An accepted call.
pub struct Call {
    pub entry: Entry,
    pub outputs: u32,
    pub ticks: Vec<Tick>,
    /// What the calls before it have reported, added up.
    pub before: u32,
}

impl Call {
    /// The count of ticks that hold something.
    pub fn count(&self, holds: impl Fn(&Tick) -> bool) -> u32 {
        self.ticks.iter().filter(|tick| holds(tick)).count() as u32
    }

    /// The count of ticks with a worked delay for which something holds.
    pub fn any(&self, clips: impl Fn(&Delay) -> bool) -> u32 {
        self.count(|tick| tick.iter().any(|delay| delay.worked && clips(delay)))
    }

    pub fn right(&self) -> u32 {
        self.any(Delay::outside)
    }
}

/// The nodes above each node, from the circuit down.
fn above(table: &[u32]) -> Vec<Vec<(u32, usize)>> {
    let mut above = vec![vec![]; table.len() / 3];
    for number in (0..above.len()).rev() {
        let node = Node::at(table, number);
        for (side, &child) in node.children().iter().enumerate() {
            let mut path = above[number].clone();
            path.push((node.kind, side));
            above[child as usize] = path;
        }
    }
    above
}

/// The delays of a code: its instruction, and the nodes above it in a table.
fn delays(code: &[u32], table: Option<&[u32]>) -> Vec<(usize, Vec<(u32, usize)>)> {
    let kind = |i: &usize| instruction(code, *i)[0] == 4;
    let Some(table) = table else {
        let all = (0..code[2] as usize).filter(kind);
        return all.map(|i| (i, vec![])).collect();
    };
    let (_, places) = placed(table, &check(table).expect("an accepted table"));
    let above = above(table);
    let nodes = (0..places.len()).filter(|&number| Node::at(table, number).kind == 4);
    let found = nodes.map(|number| {
        let own = places[number].outputs[0] - code[0];
        (own as usize, above[number].clone())
    });
    found.collect()
}

/// The code with skips that skip nothing.
fn unskipped(code: &[u32]) -> Vec<u32> {
    let mut code = code.to_vec();
    for i in 0..code[2] as usize {
        if instruction(&code, i)[0] == 7 {
            code[length(i, 0) + 2] = 0;
        }
    }
    code
}

/// The delays at each tick of an accepted block, on cells of its own.
pub fn ticks(code: &[u32], table: Option<&[u32]>, block: &Block, cells: &[u32]) -> Vec<Tick> {
    let (mut cells, plain) = (cells.to_vec(), unskipped(code));
    let (n, delays) = (code[0] as usize, delays(code, table));
    let tick = |tick: usize| {
        let inputs = &block.inputs[tick * n..(tick + 1) * n];
        let all = trace(operate, &plain, inputs, block.controls, &mut cells.clone());
        let traced = trace(operate, code, inputs, block.controls, &mut cells);
        let clocks = |own: usize| {
            let skips = (0..own).map(|i| (i, instruction(code, i)));
            let over = skips.filter(|(i, six)| six[0] == 7 && i + six[2] as usize >= own);
            over.map(|(_, six)| traced.registers[six[1] as usize])
                .collect()
        };
        let delay = |(own, above): &(usize, Vec<(u32, usize)>)| {
            let six = instruction(code, *own);
            Delay {
                d: six[4],
                worked: traced.worked[*own],
                amount: traced.registers[six[2] as usize] as i32,
                unskipped: all.registers[six[2] as usize] as i32,
                clocks: clocks(*own),
                above: above.clone(),
            }
        };
        delays.iter().map(delay).collect()
    };
    (0..block.ticks as usize).map(tick).collect()
}

/// The flat code, with a report by whatever is handed in.
pub struct Reporting<F: Fn(&Call) -> u32> {
    pub report: F,
    before: Cell<u32>,
}

impl<F: Fn(&Call) -> u32> Reporting<F> {
    pub fn new(report: F) -> Reporting<F> {
        Reporting {
            report,
            before: Cell::new(0),
        }
    }

    /// The right answer with the report put in; `ticks` are those of the call, if it is accepted.
    fn put(
        &self,
        entry: Entry,
        code: &[u32],
        answer: Work,
        ticks: impl FnOnce() -> Vec<Tick>,
    ) -> Work {
        let right = answer?;
        let call = Call {
            entry,
            outputs: code[1],
            ticks: ticks(),
            before: self.before.get(),
        };
        assert_eq!(call.right(), right.clipped);
        self.before.set(call.before + right.clipped);
        let clipped = (self.report)(&call);
        Ok(Worked { clipped, ..right })
    }

    fn walked(
        &self,
        entry: Entry,
        table: &[u32],
        block: &Block,
        cells: &[u32],
        answer: Work,
    ) -> Work {
        answer?;
        let (code, _) = placed(table, &check(table).expect("an accepted table"));
        self.put(entry, &code, answer, || {
            ticks(&code, Some(table), block, cells)
        })
    }
}

impl<F: Fn(&Call) -> u32> Engine for Reporting<F> {
    fn check(&self, table: &[u32]) -> Result<Counts, Refusal> {
        Flat.check(table)
    }
    fn read(&self, file: &[u8], table: &mut [u32]) -> Answer {
        Flat.read(file, table)
    }
    fn write(&self, table: &[u32], file: &mut [u8]) -> Answer {
        Flat.write(table, file)
    }
    fn translate(&self, table: &[u32], code: &mut [u32]) -> Answer {
        Flat.translate(table, code)
    }
    fn load(&self, named: u32, cells: &mut [u32]) -> Answer {
        self.before.set(0);
        Flat.load(named, cells)
    }
    fn walk(&self, table: &[u32], block: &Block, cells: &mut [u32], outputs: &mut [u32]) -> Work {
        let before = cells.to_vec();
        let answer = Flat.walk(table, block, cells, outputs);
        self.walked(Entry::Walk, table, block, &before, answer)
    }
    fn walk_probed(
        &self,
        table: &[u32],
        block: &Block,
        cells: &mut [u32],
        outputs: &mut [u32],
        probes: &mut Probes,
    ) -> Work {
        let before = cells.to_vec();
        let answer = Flat.walk_probed(table, block, cells, outputs, probes);
        self.walked(Entry::Probed, table, block, &before, answer)
    }
    fn run(&self, code: &[u32], block: &Block, cells: &mut [u32], outputs: &mut [u32]) -> Work {
        let before = cells.to_vec();
        let answer = Flat.run(code, block, cells, outputs);
        self.put(Entry::Run, code, answer, || {
            ticks(code, None, block, &before)
        })
    }
    fn join(&self, kind: u32, first: &[u32], second: &[u32], joined: &mut [u32]) -> Answer {
        Flat.join(kind, first, second, joined)
    }
}
