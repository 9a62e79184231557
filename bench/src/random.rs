//! Random tables and random codes.
use crate::circuits::Builder;
use crate::engine::{self, INSTRUCTION_NUMBERS};

/// Xorshift with a multiplication (xorshift64*).
pub struct Random(u64);

impl Random {
    pub fn new(seed: u64) -> Random {
        Random(seed.wrapping_mul(0x9e37_79b9_7f4a_7c15) | 1)
    }

    pub fn word(&mut self) -> u32 {
        self.0 ^= self.0 >> 12;
        self.0 ^= self.0 << 25;
        self.0 ^= self.0 >> 27;
        (self.0.wrapping_mul(0x2545_f491_4f6c_dd1d) >> 32) as u32
    }

    pub fn below(&mut self, n: u32) -> u32 {
        self.word() % n
    }

    fn between(&mut self, low: u32, high: u32) -> u32 {
        low + self.below(high - low + 1)
    }

    /// A word at an edge of the operations, or any.
    pub fn edge(&mut self) -> u32 {
        let any = self.word() as i32;
        [0, 1, 2, -1, -2, i32::MIN, i32::MAX, any][self.below(8) as usize] as u32
    }

    pub fn words(&mut self, count: usize) -> Vec<u32> {
        (0..count).map(|_| self.word()).collect()
    }
}

struct Generator<'a> {
    builder: Builder,
    random: &'a mut Random,
}

impl Generator<'_> {
    /// A primitive that takes at most a inputs and gives at most b outputs, with both counts.
    fn leaf(&mut self, a: u32, b: u32) -> (u32, u32, u32) {
        if b == 0 {
            return (self.builder.cut(), 1, 0);
        }
        if a == 0 {
            let slot = self.random.below(16);
            let value = self.random.below(200).wrapping_sub(100);
            let control = self.random.below(4) == 0;
            let (kind, first) = if control { (2, slot) } else { (1, value) };
            return (self.builder.node(kind, first, 0), 0, 1);
        }
        if a > 2 && self.random.below(8) == 0 {
            return (self.builder.operation(10), 3, 1);
        }
        if a > 1 && self.random.below(4) > 0 {
            let (op, d) = (self.random.between(1, 7), self.random.below(256));
            let delay = self.random.below(2) == 0;
            let (kind, first) = if delay { (4, d) } else { (3, op) };
            return (self.builder.node(kind, first, 0), 2, 1);
        }
        let op = self.random.between(7, 9);
        let leaf = if op == 7 {
            self.builder.cable()
        } else {
            self.builder.operation(op)
        };
        (leaf, 1, 1)
    }

    /// Primitives side by side: a → b.
    fn bundle(&mut self, mut a: u32, mut b: u32) -> u32 {
        let mut all = None;
        while a + b > 0 {
            let (leaf, i, o) = self.leaf(a, b);
            all = Some(match all {
                None => leaf,
                Some(left) => self.builder.parallel(left, leaf),
            });
            (a, b) = (a - i, b - o);
        }
        all.unwrap_or_else(|| {
            let (number, cut) = (self.builder.number(0), self.builder.cut());
            self.builder.sequence(number, cut)
        })
    }

    /// A clock: always 1, or by a control, or 1 0 1 0 1 0.
    fn clock(&mut self) -> u32 {
        let b = &mut self.builder;
        match self.random.below(3) {
            0 => b.number(1),
            1 => b.node(2, 1, 0),
            _ => {
                let (last, zero) = (b.cable(), b.number(0));
                let both = b.parallel(last, zero);
                let equal = b.operation(7);
                let left = b.sequence(both, equal);
                let right = b.cable();
                b.recursion(left, right)
            }
        }
    }

    /// An ondemand with a clock of its own: a → b.
    fn demanded(&mut self, a: u32, b: u32, budget: u32) -> u32 {
        let mut inputs = self.clock();
        for _ in 0..a {
            let cable = self.builder.cable();
            inputs = self.builder.parallel(inputs, cable);
        }
        let body = self.circuit(a, b, budget.saturating_sub(2 * a + 3));
        let ondemand = self.builder.ondemand(body);
        self.builder.sequence(inputs, ondemand)
    }

    /// Two parts of the given arities under a node of the given kind.
    fn join(&mut self, kind: u32, left: (u32, u32), right: (u32, u32), budget: u32) -> u32 {
        let share = budget * self.random.between(30, 70) / 100;
        let left = self.circuit(left.0, left.1, share);
        let right = self.circuit(right.0, right.1, budget - share);
        self.builder.node(kind, left, right)
    }

    /// A circuit a → b of about so many nodes.
    fn circuit(&mut self, a: u32, b: u32, budget: u32) -> u32 {
        if budget <= 2 * (a + b) + 1 {
            return self.bundle(a, b);
        }
        let (k, times) = (self.random.between(1, 2), self.random.between(1, 3));
        let (a1, b1) = (self.random.below(a + 1), self.random.below(b + 1));
        match self.random.between(7, 12) {
            8 if a + b > 1 => self.join(8, (a1, b1), (a - a1, b - b1), budget),
            9 => self.join(9, (a, k), (k * times, b), budget),
            10 => self.join(10, (a, k * times), (k, b), budget),
            11 if b > 0 => {
                let q = self.random.between(1, b.min(2));
                self.join(11, (k + a, b), (q, k), budget)
            }
            12 => self.demanded(a, b, budget),
            _ => self.join(7, (a, k), (k, b), budget),
        }
    }
}

/// Does the table have so many nodes, all kinds and ops, and a translation within the limits?
fn fits(table: &[u32], nodes: usize) -> bool {
    let all_kinds = (1..=12).all(|kind| table.chunks(3).any(|node| node[0] == kind));
    let all_ops = (1..=10).all(|op| table.chunks(3).any(|node| node[..2] == [3, op]));
    let mut counts = [0; 4];
    table.len() == 3 * nodes
        && all_kinds
        && all_ops
        && engine::refusal(engine::check_raw(table, &mut counts)) == 0
        && counts[2] <= 2048
        && counts[3] <= 16384
}

/// Tables 4 → 4 are made until one fits.
pub fn table_of(nodes: usize, random: &mut Random) -> Vec<u32> {
    loop {
        let budget = random.between(nodes as u32 / 2, 2 * nodes as u32);
        let mut generator = Generator {
            builder: Builder::default(),
            random,
        };
        generator.circuit(4, 4, budget);
        if fits(&generator.builder.table, nodes) {
            return generator.builder.table;
        }
    }
}

/// An instruction that may stand where `own` is its register, `left` more follow and there are so many cells.
fn instruction(random: &mut Random, own: u32, left: u32, cells: u32) -> [u32; INSTRUCTION_NUMBERS] {
    let [a, b, c] = [0; 3].map(|_| random.below(own));
    let cell = random.below(cells);
    match random.between(1, 7) {
        1 => [1, random.edge(), 0, 0, 0, 0],
        2 => [2, random.below(16), 0, 0, 0, 0],
        3 => match random.between(1, 10) {
            10 => [3, 10, a, b, 0, c],
            op if op < 8 => [3, op, a, b, 0, 0],
            op => [3, op, a, 0, 0, 0],
        },
        4 => [4, a, b, cell, random.below((cells - cell).min(8)), 0],
        5 => [5, cell, 0, 0, 0, 0],
        6 => [6, cell, a, 0, 0, 0],
        _ => [7, a, random.below(left + 1), 0, 0, 0],
    }
}

/// A code that passes the check though no table has it: cells shared, skipped registers read.
pub fn code(random: &mut Random) -> Vec<u32> {
    let (n, m) = (random.between(1, 4), random.below(5));
    let (count, cells) = (random.below(60), random.between(1, 40));
    let mut code = vec![n, m, count, cells];
    for i in 0..count {
        code.extend(instruction(random, n + i, count - i - 1, cells));
    }
    code.extend((0..m).map(|_| random.below(n + count)));
    code
}
