//! A circuit as a graph of signal expressions, each in its own time. The rules are those of
//! the sources: a circuit maps signals to signals; an ondemand's body gets x↓h and gives y↑h.

use crate::arity::{Checked, Node};
use crate::samples::SELECTOR;

pub type Id = usize;
/// A time domain; 0 is the circuit's own, every other that of one ondemand's body.
pub type Time = usize;

#[derive(Clone, Debug)]
pub enum Signal {
    Number(i32),
    Control(usize),
    Input(usize),
    /// An op and as many signals as it takes.
    Operation(u32, Vec<Id>),
    Delay {
        input: Id,
        amount: Id,
        d: u32,
    },
    /// The recursive symbol one tick late; `None` until the symbol is defined.
    Previous(Option<Id>),
    /// x↓h: an outer signal as the body sees it.
    Down(Id),
    /// y↑h: a signal of the body whose time is named, as seen from outside.
    Up(Id, Time),
}

/// The time of an ondemand's body: `clock` is h, a signal of `parent`.
#[derive(Clone, Copy, Debug)]
pub struct Demand {
    pub parent: Time,
    pub clock: Id,
}

/// What a node's cells remember, by the closed formulas.
#[derive(Clone, Debug)]
pub enum Memory {
    None,
    Delay {
        time: Time,
        input: Id,
        d: u32,
    },
    /// A recursion's first q outputs or a body's outputs, at the latest own tick of the time.
    Latest {
        time: Time,
        signals: Vec<Id>,
    },
}

/// A delay: its time, its amount and D.
#[derive(Clone, Copy, Debug)]
pub struct Delay {
    pub time: Time,
    pub amount: Id,
    pub d: u32,
}

#[derive(Clone, Debug)]
pub struct Graph {
    pub signals: Vec<(Signal, Time)>,
    /// Place 0 stands for the circuit's own time and is not used.
    pub demands: Vec<Demand>,
    /// By node number.
    pub memories: Vec<Memory>,
    /// By node number, the signals that the node gives, all in one time.
    pub wires: Vec<Vec<Id>>,
    pub outputs: Vec<Id>,
}

impl Graph {
    pub fn of(table: &[u32], checked: &Checked) -> Graph {
        let mut graph = Graph {
            signals: Vec::new(),
            demands: vec![Demand {
                parent: 0,
                clock: 0,
            }],
            memories: vec![Memory::None; checked.arities.len()],
            wires: vec![Vec::new(); checked.arities.len()],
            outputs: Vec::new(),
        };
        let inputs = (0..checked.counts.inputs as usize)
            .map(|j| graph.add(Signal::Input(j), 0))
            .collect();
        let last = checked.arities.len() - 1;
        let source = Source { table, checked };
        graph.outputs = graph.propagate(&source, last, 0, inputs);
        graph
    }

    fn add(&mut self, signal: Signal, time: Time) -> Id {
        self.signals.push((signal, time));
        self.signals.len() - 1
    }

    /// The signals that node `number` gives for the signals `ins`, all in `time`.
    fn propagate(&mut self, source: &Source, number: usize, time: Time, ins: Vec<Id>) -> Vec<Id> {
        let node = Node::at(source.table, number);
        let outs = match node.kind {
            5 => ins,
            6 => vec![],
            1..=4 => vec![self.primitive(&node, number, time, &ins)],
            11 => self.recursion(source, number, time, ins),
            12 => self.ondemand(source, number, time, ins),
            _ => self.composition(source, &node, time, ins),
        };
        self.wires[number].clone_from(&outs);
        outs
    }

    fn primitive(&mut self, node: &Node, number: usize, time: Time, ins: &[Id]) -> Id {
        let signal = match node.kind {
            1 => Signal::Number(node.first as i32),
            2 => Signal::Control(node.first as usize),
            3 => Signal::Operation(node.first, ins.to_vec()),
            _ => {
                let (input, d) = (ins[0], node.first);
                self.memories[number] = Memory::Delay { time, input, d };
                Signal::Delay {
                    input,
                    amount: ins[1],
                    d,
                }
            }
        };
        self.add(signal, time)
    }

    fn composition(&mut self, source: &Source, node: &Node, time: Time, ins: Vec<Id>) -> Vec<Id> {
        let (left, right) = (node.first as usize, node.second as usize);
        let taken = source.checked.arities[left].inputs;
        let mut beam = self.propagate(source, left, time, ins[..taken].to_vec());
        let wanted = source.checked.arities[right].inputs;
        match node.kind {
            // "In a parallel the left takes the first inputs and gives the first outputs."
            8 => {
                let rest = ins[taken..].to_vec();
                beam.extend(self.propagate(source, right, time, rest));
                return beam;
            }
            // "Split repeats the whole left beam k times."
            9 => beam = (0..wanted).map(|i| beam[i % beam.len()]).collect(),
            10 => beam = self.merge(&beam, wanted, time),
            _ => {}
        }
        self.propagate(source, right, time, beam)
    }

    /// "Merge adds output i, i+b, i+2b and so on."
    fn merge(&mut self, beam: &[Id], wanted: usize, time: Time) -> Vec<Id> {
        let mut sums = Vec::new();
        for i in 0..wanted {
            let terms: Vec<Id> = beam[i..].iter().copied().step_by(wanted).collect();
            let mut sum = terms[0];
            for &term in &terms[1..] {
                sum = self.add(Signal::Operation(1, vec![sum, term]), time);
            }
            sums.push(sum);
        }
        sums
    }

    /// "Recursion feeds its first q outputs, one tick late, through the right side into the
    /// first r inputs of the left."
    fn recursion(&mut self, source: &Source, number: usize, time: Time, ins: Vec<Id>) -> Vec<Id> {
        let node = Node::at(source.table, number);
        let q = source.checked.arities[node.second as usize].inputs;
        let fed: Vec<Id> = (0..q)
            .map(|_| self.add(Signal::Previous(None), time))
            .collect();
        let mut left = self.propagate(source, node.second as usize, time, fed.clone());
        left.extend(ins);
        let outs = self.propagate(source, node.first as usize, time, left);
        for (&late, &now) in fed.iter().zip(&outs) {
            self.signals[late].0 = Signal::Previous(Some(now));
        }
        let signals = outs[..q].to_vec();
        self.memories[number] = Memory::Latest { time, signals };
        outs
    }

    /// "Ondemand takes its clock as first input"; "the body's own time counts its demands".
    fn ondemand(&mut self, source: &Source, number: usize, time: Time, ins: Vec<Id>) -> Vec<Id> {
        let node = Node::at(source.table, number);
        let body = self.demands.len();
        self.demands.push(Demand {
            parent: time,
            clock: ins[0],
        });
        let seen = ins[1..]
            .iter()
            .map(|&x| self.add(Signal::Down(x), body))
            .collect();
        let signals = self.propagate(source, node.first as usize, body, seen);
        let outs = signals
            .iter()
            .map(|&y| self.add(Signal::Up(y, body), time))
            .collect();
        let time = body;
        self.memories[number] = Memory::Latest { time, signals };
        outs
    }

    /// A signal as it is outside all bodies, without the ↓ between.
    fn outside(&self, mut at: Id) -> &Signal {
        while let Signal::Down(outer) = self.signals[at].0 {
            at = outer;
        }
        &self.signals[at].0
    }

    /// The signals that are bodies' clocks: a generator likes to know which inputs and controls
    /// are.
    pub fn clocks(&self) -> Vec<&Signal> {
        let demands = self.demands[1..].iter();
        demands.map(|demand| self.outside(demand.clock)).collect()
    }

    /// Every delay of the circuit.
    pub fn delays(&self) -> Vec<Delay> {
        let delay = |(signal, time): &(Signal, Time)| match *signal {
            Signal::Delay { amount, d, .. } => Some(Delay {
                time: *time,
                amount,
                d,
            }),
            _ => None,
        };
        self.signals.iter().filter_map(delay).collect()
    }

    /// The amounts of delays, each with its D.
    pub fn amounts(&self) -> Vec<(&Signal, u32)> {
        let delays = self.delays().into_iter();
        delays
            .map(|delay| (self.outside(delay.amount), delay.d))
            .collect()
    }

    /// The first inputs of selectors.
    pub fn tests(&self) -> Vec<&Signal> {
        let test = |signal: &Signal| match signal {
            Signal::Operation(SELECTOR, ins) => Some(ins[0]),
            _ => None,
        };
        let tests = self.signals.iter().filter_map(|(signal, _)| test(signal));
        tests.map(|test| self.outside(test)).collect()
    }

    /// The two sides of the differences and products among the clocks and tests.
    pub fn sides(&self) -> Vec<&Signal> {
        let sides = |clock: &Signal| match clock {
            Signal::Operation(2 | 3, sides) => sides.iter().map(|&x| self.outside(x)).collect(),
            _ => vec![],
        };
        let all = self.clocks().into_iter().chain(self.tests());
        all.flat_map(sides).collect()
    }
}

struct Source<'a> {
    table: &'a [u32],
    checked: &'a Checked,
}
