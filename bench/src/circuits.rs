//! Circuits to measure: node tables, built node by node.
use crate::random::{Random, table_of};

/// A table, and how its inputs are filled: the first `clocks` of them with `clock`, the others at random.
pub struct Circuit {
    pub name: String,
    pub table: Vec<u32>,
    pub clocks: usize,
    pub clock: u32,
}

#[derive(Default)]
pub struct Builder {
    pub table: Vec<u32>,
}

impl Builder {
    pub fn node(&mut self, kind: u32, first: u32, second: u32) -> u32 {
        self.table.extend([kind, first, second]);
        self.table.len() as u32 / 3 - 1
    }

    pub fn number(&mut self, value: u32) -> u32 {
        self.node(1, value, 0)
    }

    pub fn operation(&mut self, op: u32) -> u32 {
        self.node(3, op, 0)
    }

    pub fn delay(&mut self, d: u32) -> u32 {
        self.node(4, d, 0)
    }

    pub fn cable(&mut self) -> u32 {
        self.node(5, 0, 0)
    }

    pub fn cut(&mut self) -> u32 {
        self.node(6, 0, 0)
    }

    pub fn sequence(&mut self, left: u32, right: u32) -> u32 {
        self.node(7, left, right)
    }

    pub fn parallel(&mut self, left: u32, right: u32) -> u32 {
        self.node(8, left, right)
    }

    pub fn recursion(&mut self, left: u32, right: u32) -> u32 {
        self.node(11, left, right)
    }

    pub fn ondemand(&mut self, body: u32) -> u32 {
        self.node(12, body, 0)
    }

    /// A two-input node whose second input is a number: 1 → 1.
    fn with_number(&mut self, value: u32, make: impl Fn(&mut Builder) -> u32) -> u32 {
        let (cable, number) = (self.cable(), self.number(value));
        let both = self.parallel(cable, number);
        let node = make(self);
        self.sequence(both, node)
    }

    fn integrator(&mut self) -> u32 {
        let (add, cable) = (self.operation(1), self.cable());
        self.recursion(add, cable)
    }

    /// y = x + c · y one tick ago; seven nodes.
    fn one_pole(&mut self) -> u32 {
        let add = self.operation(1);
        let feedback = self.with_number(1_103_515_245, |b| b.operation(3));
        self.recursion(add, feedback)
    }

    /// Of a beam t u v, three times, makes t < u, u + v, and u or v by t, with a selector; nine nodes.
    fn selector(&mut self) -> u32 {
        let (less, add, select) = (self.operation(6), self.operation(1), self.operation(10));
        let parts = [less, self.cut(), self.cut(), add, select].into_iter();
        let beside = |left, right| self.parallel(left, right);
        parts.reduce(beside).expect("five parts")
    }

    /// A balanced sequence of so many one-pole filters.
    fn filters(&mut self, count: usize) -> u32 {
        if count == 1 {
            return self.one_pole();
        }
        let left = self.filters(count / 2);
        let right = self.filters(count - count / 2);
        self.sequence(left, right)
    }
}

fn circuit(name: &str, table: Vec<u32>, clocks: usize, clock: u32) -> Circuit {
    Circuit {
        name: name.into(),
        table,
        clocks,
        clock,
    }
}

pub fn integrator() -> Circuit {
    let mut b = Builder::default();
    b.integrator();
    circuit("integrator", b.table, 0, 0)
}

/// One input, split to 32 delays of D 64 with amounts 1, 3, 5, .., 63, and their sum.
pub fn delay_line() -> Circuit {
    let mut b = Builder::default();
    let input = b.cable();
    let mut taps = b.with_number(1, |b| b.delay(64));
    for i in 1..32 {
        let tap = b.with_number(2 * i + 1, |b| b.delay(64));
        taps = b.parallel(taps, tap);
    }
    let split = b.node(9, input, taps);
    let output = b.cable();
    b.node(10, split, output);
    circuit("32-tap delay line", b.table, 0, 0)
}

/// Eight ondemands, one in another, around an integrator; all clocks are the same.
pub fn nest(clock: u32) -> Circuit {
    let mut b = Builder::default();
    let mut body = b.integrator();
    for _ in 0..8 {
        body = b.ondemand(body);
    }
    let name = if clock == 0 {
        "8 ondemands, idle"
    } else {
        "8 ondemands, busy"
    };
    circuit(name, b.table, 8, clock)
}

/// Selectors in a row, 10 nodes for each, on three inputs. The first of each is the sign of a sum that the others before
/// it have made, 0 about half of the time; `steady` with the same inputs, hence the same signs, at every tick.
pub fn selectors(steady: bool) -> Circuit {
    let mut b = Builder::default();
    let (t, u, v) = (b.cable(), b.cable(), b.cable());
    let both = b.parallel(t, u);
    let mut row = b.parallel(both, v);
    for _ in 0..50 {
        let selector = b.selector();
        row = b.node(9, row, selector);
    }
    match steady {
        true => circuit("50 selectors, steady", b.table, 3, 1_103_515_245),
        false => circuit("50 selectors, varied", b.table, 0, 0),
    }
}

/// So many one-pole filters in a row; 8 nodes for each, but 7 for the last.
pub fn filters(count: usize) -> Vec<u32> {
    let mut b = Builder::default();
    b.filters(count);
    b.table
}

/// One-pole filters in a row inside an ondemand that is always busy; 8 nodes for each filter.
pub fn family(nodes: usize) -> Circuit {
    let mut b = Builder::default();
    let body = b.filters(nodes / 8);
    b.ondemand(body);
    assert_eq!(b.table.len(), 3 * nodes);
    circuit(&format!("{} filters", nodes / 8), b.table, 1, 1)
}

/// An accepted table of so many nodes with all kinds and ops.
pub fn random(nodes: usize, seed: u64) -> Circuit {
    let table = table_of(nodes, &mut Random::new(seed));
    circuit(&format!("random {seed}"), table, 0, 0)
}

/// The circuits on which runner, walker and the other interpreters are compared.
pub fn all() -> Vec<Circuit> {
    let named = [
        integrator(),
        delay_line(),
        nest(0),
        nest(1),
        selectors(true),
        selectors(false),
        family(512),
    ];
    let large = (1..=4).map(|seed| random(512, seed));
    named.into_iter().chain(large).collect()
}
