//! An engine whose join is wrong in one rule.

use super::checks::{FIRST, JOINED, LONG, ROOM, SECOND};
use crate::flat::Flat;
use oracle::arity::{check, check_node, Arity, Node};
use oracle::engine::{Block, Counts, Engine, Probes, Refusal, Worked};

type Answer = Result<u32, Refusal>;
type Work = Result<Worked, Refusal>;
pub type Check = fn(&Call) -> Result<(), Refusal>;

pub struct Call<'a> {
    pub kind: u32,
    pub first: &'a [u32],
    pub second: &'a [u32],
    pub lent: usize,
}

impl Call<'_> {
    /// The place of the joining node.
    pub fn last(&self) -> usize {
        self.first.len() / 3 + self.second.len() / 3
    }

    pub fn numbers(&self) -> usize {
        3 * self.last() + 3
    }

    /// The rows of the joining node alone; both tables are accepted ones.
    pub fn node(&self) -> Result<(), u32> {
        let tables = [self.first, self.second].into_iter();
        let arities = tables.flat_map(|table| check(table).expect("an accepted table").arities);
        let arities: Vec<Arity> = arities.collect();
        let node = RIGHT.drawn(self).split_off(self.numbers() - 3);
        let mut taken = vec![false; self.last()];
        check_node(&Node::at(&node, 0), self.last(), &arities, &mut taken).map(drop)
    }
}

#[derive(Clone, Copy)]
pub struct Rule {
    pub name: &'static str,
    /// In so many cases of the default mix, at least, it shows.
    pub least: usize,
    /// The checks in their order.
    pub checks: &'static [Check],
    /// A node of the second table is moved on by so many.
    pub moved: fn(&mut [u32], u32),
    /// The joining node: its kind, and the nodes of the first and of the second table.
    pub node: fn(u32, u32, u32) -> [u32; 3],
    /// The table as it is written, from what was drawn.
    pub arranged: fn(&mut [u32], &Call),
    /// So many checks come before the buffer is filled, as far as it goes.
    pub filled: usize,
    /// What an accepted call does to the buffer behind the table.
    pub rest: fn(&mut [u32]),
    pub answer: fn(&Call) -> usize,
}

pub const RIGHT: Rule = Rule {
    name: "right",
    least: 0,
    checks: &[FIRST, SECOND, LONG, JOINED, ROOM],
    moved: |node, by| match node[0] {
        7..=11 => node[1..].iter_mut().for_each(|child| *child += by),
        12 => node[1] += by,
        _ => {}
    },
    node: |kind, left, right| [kind, left.wrapping_sub(1), (left + right).wrapping_sub(1)],
    arranged: |_, _| {},
    filled: usize::MAX,
    rest: |_| {},
    answer: |call| call.numbers(),
};

impl Rule {
    pub fn drawn(&self, call: &Call) -> Vec<u32> {
        let [left, right] = [call.first, call.second].map(|table| table.len() / 3);
        let mut table = call.first[..3 * left].to_vec();
        for node in call.second.chunks_exact(3) {
            let at = table.len();
            table.extend(node);
            (self.moved)(&mut table[at..], left as u32);
        }
        table.extend((self.node)(call.kind, left as u32, right as u32));
        (self.arranged)(&mut table, call);
        table
    }
}

impl Engine for Rule {
    fn check(&self, table: &[u32]) -> Result<Counts, Refusal> {
        Flat.check(table)
    }
    fn read(&self, file: &[u8], table: &mut [u32]) -> Answer {
        Flat.read(file, table)
    }
    fn write(&self, table: &[u32], file: &mut [u8]) -> Answer {
        Flat.write(table, file)
    }
    fn translate(&self, table: &[u32], code: &mut [u32]) -> Answer {
        Flat.translate(table, code)
    }
    fn load(&self, named: u32, cells: &mut [u32]) -> Answer {
        Flat.load(named, cells)
    }
    fn walk(&self, table: &[u32], block: &Block, cells: &mut [u32], outputs: &mut [u32]) -> Work {
        Flat.walk(table, block, cells, outputs)
    }
    fn walk_probed(
        &self,
        table: &[u32],
        block: &Block,
        cells: &mut [u32],
        outputs: &mut [u32],
        probes: &mut Probes,
    ) -> Work {
        Flat.walk_probed(table, block, cells, outputs, probes)
    }
    fn run(&self, code: &[u32], block: &Block, cells: &mut [u32], outputs: &mut [u32]) -> Work {
        Flat.run(code, block, cells, outputs)
    }
    fn join(&self, kind: u32, first: &[u32], second: &[u32], joined: &mut [u32]) -> Answer {
        let call = Call {
            kind,
            first,
            second,
            lent: joined.len(),
        };
        let mut fill = || {
            let table = self.drawn(&call);
            let length = table.len().min(call.lent);
            joined[..length].copy_from_slice(&table[..length]);
            length
        };
        for (at, check) in self.checks.iter().enumerate() {
            if at == self.filled {
                fill();
            }
            check(&call)?;
        }
        let length = fill();
        (self.rest)(&mut joined[length..]);
        Ok((self.answer)(&call) as u32)
    }
}
