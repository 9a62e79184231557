//! The meaning: the value of every signal of a circuit as a function of its own time, over a
//! history, and the cells by the document's closed formulas. No cell is read to get a sample.

use crate::arity::{check, Checked};
use crate::graph::{Graph, Id, Memory, Signal, Time};
use crate::probes::Wire;
use crate::samples::{amount, clipped, operate};
use std::collections::BTreeSet;

pub struct Meaning {
    graph: Graph,
    cell_count: usize,
    inputs: Vec<Vec<u32>>,
    controls: Vec<Vec<u32>>,
    /// The values of a signal at its own ticks 0, 1, ... as far as they were asked for.
    values: Vec<Vec<i32>>,
    /// h*: the ticks of the parent's time at which the demands of a time are.
    star: Vec<Vec<usize>>,
    /// h+ plus one: how many demands a time has up to and with a tick of its parent's.
    count: Vec<Vec<usize>>,
}

impl Meaning {
    /// The table must be an accepted one.
    pub fn of(table: &[u32]) -> Meaning {
        Meaning::of_checked(table, &check(table).expect("an accepted table"))
    }

    pub fn of_checked(table: &[u32], checked: &Checked) -> Meaning {
        let graph = Graph::of(table, checked);
        let (signals, times) = (graph.signals.len(), graph.demands.len());
        Meaning {
            cell_count: checked.counts.cells as usize,
            inputs: Vec::new(),
            controls: Vec::new(),
            values: vec![Vec::new(); signals],
            star: vec![Vec::new(); times],
            count: vec![Vec::new(); times],
            graph,
        }
    }

    pub fn graph(&self) -> &Graph {
        &self.graph
    }

    /// Adds one tick to the history and gives the circuit's outputs at it.
    pub fn tick(&mut self, inputs: &[u32], controls: &[u32]) -> Vec<u32> {
        self.inputs.push(inputs.to_vec());
        self.controls.push(controls.to_vec());
        let now = self.inputs.len() as i64 - 1;
        // Operands were made before what uses them: asking in that order, tick after tick,
        // keeps the recursion of `value` shallow. The answers do not depend on it.
        for id in 0..self.graph.signals.len() {
            let time = self.graph.signals[id].1;
            let ticks = self.own_ticks(time) as i64;
            self.value(id, ticks - 1);
        }
        let outputs = self.graph.outputs.clone();
        outputs
            .iter()
            .map(|&id| self.value(id, now) as u32)
            .collect()
    }

    /// How many own ticks a time has in the history.
    pub fn own_ticks(&mut self, time: Time) -> usize {
        if time == 0 {
            return self.inputs.len();
        }
        let outer = self.own_ticks(self.graph.demands[time].parent) as i64;
        (self.plus(time, outer - 1) + 1) as usize
    }

    /// A signal at its own ticks.
    pub fn values(&mut self, id: Id) -> &[i32] {
        let ticks = self.own_ticks(self.graph.signals[id].1);
        self.value(id, ticks as i64 - 1);
        &self.values[id][..ticks]
    }

    /// A body's clock at the own ticks of its ondemand.
    pub fn clock(&mut self, body: Time) -> &[i32] {
        self.values(self.graph.demands[body].clock)
    }

    /// How many own ticks a wire has in the history: in a body, the demands that reached it.
    pub fn reached(&mut self, wire: Wire) -> usize {
        let id = self.graph.wires[wire.node][wire.output];
        self.own_ticks(self.graph.signals[id].1)
    }

    /// E5: "A wire inside an on-demand body shows its value at the latest demand that reached it,
    /// and 0 before that."
    pub fn shows(&mut self, wire: Wire) -> u32 {
        let id = self.graph.wires[wire.node][wire.output];
        let latest = self.reached(wire) as i64 - 1;
        self.value(id, latest) as u32
    }

    /// How many ticks the history has.
    pub fn ticks(&self) -> usize {
        self.inputs.len()
    }

    /// E6, "from the demands and amounts alone": in how many ticks of the history at least one delay
    /// was clipped that has an own tick there.
    pub fn clipped(&mut self) -> usize {
        self.clipped_from(0)
    }

    /// The same among the ticks from one on.
    pub fn clipped_from(&mut self, first: usize) -> usize {
        let mut ticks = BTreeSet::new();
        for delay in self.graph.delays() {
            for own in (0..self.own_ticks(delay.time) as i64).rev() {
                let at = self.root_tick(delay.time, own);
                if at < first {
                    break;
                }
                if clipped(self.value(delay.amount, own), delay.d) {
                    ticks.insert(at);
                }
            }
        }
        ticks.len()
    }

    /// "Every signal is 0 before tick 0, constants and controls too."
    fn value(&mut self, id: Id, tick: i64) -> i32 {
        if tick < 0 {
            return 0;
        }
        while self.values[id].len() as i64 <= tick {
            let value = self.compute(id, self.values[id].len() as i64);
            self.values[id].push(value);
        }
        self.values[id][tick as usize]
    }

    fn compute(&mut self, id: Id, tick: i64) -> i32 {
        let (signal, time) = self.graph.signals[id].clone();
        match signal {
            Signal::Number(value) => value,
            Signal::Control(slot) => {
                let at = self.root_tick(time, tick);
                self.controls[at][slot] as i32
            }
            Signal::Input(j) => self.inputs[tick as usize][j] as i32,
            Signal::Operation(op, ins) => {
                let ins: Vec<i32> = ins.iter().map(|&x| self.value(x, tick)).collect();
                operate(op, &ins)
            }
            Signal::Delay {
                input,
                amount: second,
                d,
            } => {
                let ago = amount(self.value(second, tick), d);
                self.value(input, tick - i64::from(ago))
            }
            Signal::Previous(now) => self.value(now.expect("a defined symbol"), tick - 1),
            Signal::Down(outer) => {
                let at = self.star(time, tick) as i64;
                self.value(outer, at)
            }
            Signal::Up(inner, body) => {
                let at = self.plus(body, tick);
                self.value(inner, at)
            }
        }
    }

    /// h+(tick): the number of the latest demand, -1 before the first.
    /// E1: "A tick is now a demand when the clock isn't 0".
    fn plus(&mut self, time: Time, tick: i64) -> i64 {
        if tick < 0 {
            return -1;
        }
        while self.count[time].len() as i64 <= tick {
            let at = self.count[time].len();
            let demand = self.value(self.graph.demands[time].clock, at as i64) != 0;
            if demand {
                self.star[time].push(at);
            }
            let before = self.count[time].last().copied().unwrap_or(0);
            self.count[time].push(before + usize::from(demand));
        }
        self.count[time][tick as usize] as i64 - 1
    }

    /// h*(tick): the parent's tick at which the demand is.
    fn star(&mut self, time: Time, tick: i64) -> usize {
        while self.star[time].len() as i64 <= tick {
            let next = self.count[time].len() as i64;
            self.plus(time, next);
        }
        self.star[time][tick as usize]
    }

    /// Controls are given at the circuit's ticks; a body sees them "as they are at the demand".
    fn root_tick(&mut self, time: Time, tick: i64) -> usize {
        if time == 0 {
            return tick as usize;
        }
        let outer = self.star(time, tick) as i64;
        self.root_tick(self.graph.demands[time].parent, outer)
    }

    /// "After a history, from cleared cells: ..."
    pub fn cells(&mut self) -> Vec<u32> {
        let mut cells = Vec::new();
        for memory in self.graph.memories.clone() {
            match memory {
                Memory::None => {}
                Memory::Delay { time, input, d } => {
                    let ring = self.delay_cells(time, input, d as usize);
                    cells.extend(ring);
                }
                Memory::Latest { time, signals } => {
                    let latest = self.own_ticks(time) as i64 - 1;
                    for id in signals {
                        cells.push(self.value(id, latest) as u32);
                    }
                }
            }
        }
        assert_eq!(cells.len(), self.cell_count);
        cells
    }

    /// "position k modulo D, and in ring place j its first input at the latest own tick whose
    /// number modulo D is j; with D = 0 its cell is 0"; "where there was no such tick, 0".
    fn delay_cells(&mut self, time: Time, input: Id, d: usize) -> Vec<u32> {
        if d == 0 {
            return vec![0];
        }
        let ticks = self.own_ticks(time);
        let mut cells = vec![(ticks % d) as u32];
        cells.resize(1 + d, 0);
        // The latest own tick of each residue is among the latest D.
        for tick in ticks.saturating_sub(d)..ticks {
            cells[1 + tick % d] = self.value(input, tick as i64) as u32;
        }
        cells
    }
}
