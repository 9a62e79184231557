//! An engine whose check is wrong in one rule.

use super::downwards;
use crate::flat::Flat;
use crate::found::Found;
use oracle::engine::{Block, Counts, Engine, Probes, Refusal, Worked};

type Answer = Result<u32, Refusal>;
type Work = Result<Worked, Refusal>;
pub type Refuses = fn(&Found, usize) -> bool;

/// The entries that begin with the table's check.
#[derive(Clone, Copy, PartialEq, Eq)]
pub enum Entry {
    Check,
    Translate,
    Walk,
    Probed,
}

#[derive(Clone, Copy)]
pub struct Rule {
    pub name: &'static str,
    /// In so many cases of the default mix, at least, it shows.
    pub least: usize,
    /// Whether row 16 applies to a node.
    pub refuses: Refuses,
    /// The table's rows in their order.
    pub order: fn(&Found, Refuses) -> Result<(), Refusal>,
    /// What is given for 16 at a node.
    pub given: fn(&Found, usize) -> Refusal,
    /// Rows behind the table's that come before 16.
    pub before: &'static [u32],
    /// The entry that does not look for 16.
    pub blind: Option<Entry>,
}

pub const RIGHT: Rule = Rule {
    name: "right",
    least: 0,
    refuses: Found::empty,
    order: downwards,
    given: |_, place| Refusal::at(16, place),
    before: &[],
    blind: None,
};

/// The table with a parallel for each recursion that feeds nothing back: the same wires, samples
/// and cells.
fn drawn(table: &[u32]) -> Vec<u32> {
    let (found, mut table) = (Found::of(table), table.to_vec());
    for place in (0..found.nodes.len()).filter(|&place| found.empty(place)) {
        table[3 * place] = 8;
    }
    table
}

impl Rule {
    /// The table that is handed on where the rule lets it pass; `tried` is how a call of it would be
    /// refused.
    fn taken(
        &self,
        entry: Entry,
        table: &[u32],
        tried: impl Fn(&[u32]) -> Option<Refusal>,
    ) -> Result<Vec<u32>, Refusal> {
        let found = Found::of(table);
        let refused = match (self.order)(&found, self.refuses) {
            Ok(()) => return Ok(drawn(table)),
            Err(refused) if refused.number != 16 => return Err(refused),
            Err(refused) => (self.given)(&found, refused.place as usize),
        };
        if self.blind == Some(entry) {
            return Ok(drawn(table));
        }
        let earlier = |other: &Refusal| self.before.contains(&other.number);
        Err(tried(&drawn(table)).filter(earlier).unwrap_or(refused))
    }
}

impl Engine for Rule {
    fn check(&self, table: &[u32]) -> Result<Counts, Refusal> {
        Flat.check(&self.taken(Entry::Check, table, |_| None)?)
    }
    fn read(&self, file: &[u8], table: &mut [u32]) -> Answer {
        Flat.read(file, table)
    }
    fn write(&self, table: &[u32], file: &mut [u8]) -> Answer {
        Flat.write(table, file)
    }
    fn translate(&self, table: &[u32], code: &mut [u32]) -> Answer {
        let tried = |table: &[u32]| Flat.translate(table, &mut code.to_vec()).err();
        let table = self.taken(Entry::Translate, table, tried)?;
        Flat.translate(&table, code)
    }
    fn load(&self, named: u32, cells: &mut [u32]) -> Answer {
        Flat.load(named, cells)
    }
    fn walk(&self, table: &[u32], block: &Block, cells: &mut [u32], outputs: &mut [u32]) -> Work {
        let tried = |table: &[u32]| {
            let (cells, outputs) = (&mut cells.to_vec(), &mut outputs.to_vec());
            Flat.walk(table, block, cells, outputs).err()
        };
        let table = self.taken(Entry::Walk, table, tried)?;
        Flat.walk(&table, block, cells, outputs)
    }
    fn walk_probed(
        &self,
        table: &[u32],
        block: &Block,
        cells: &mut [u32],
        outputs: &mut [u32],
        probes: &mut Probes,
    ) -> Work {
        let tried = |table: &[u32]| {
            let own = &mut Probes {
                named: probes.named,
                latest: &mut probes.latest.to_vec(),
                recording: &mut probes.recording.to_vec(),
            };
            let (cells, outputs) = (&mut cells.to_vec(), &mut outputs.to_vec());
            Flat.walk_probed(table, block, cells, outputs, own).err()
        };
        let table = self.taken(Entry::Probed, table, tried)?;
        Flat.walk_probed(&table, block, cells, outputs, probes)
    }
    fn run(&self, code: &[u32], block: &Block, cells: &mut [u32], outputs: &mut [u32]) -> Work {
        Flat.run(code, block, cells, outputs)
    }
    fn join(&self, kind: u32, first: &[u32], second: &[u32], joined: &mut [u32]) -> Answer {
        Flat.join(kind, first, second, joined)
    }
}
