//! The flat code as an engine.

use oracle::arity::check;
use oracle::column;
use oracle::engine::{Block, Counts, Engine, Probes, Refusal, Worked};
use oracle::entries::Past;
use oracle::join::join;
use oracle::translate::translate;

/// An engine without any history: every tick by the flat code.
pub struct Flat;

type Answer = Result<u32, Refusal>;
type Work = Result<Worked, Refusal>;

impl Engine for Flat {
    fn check(&self, table: &[u32]) -> Result<Counts, Refusal> {
        check(table).map(|checked| checked.counts)
    }
    fn read(&self, file: &[u8], table: &mut [u32]) -> Answer {
        column::read(file, table)
    }
    fn write(&self, table: &[u32], file: &mut [u8]) -> Answer {
        column::write(table, file)
    }
    fn translate(&self, table: &[u32], code: &mut [u32]) -> Answer {
        translate(table, code)
    }
    fn load(&self, named: u32, cells: &mut [u32]) -> Answer {
        Past::default().load(named, cells)
    }
    fn walk(&self, table: &[u32], block: &Block, cells: &mut [u32], outputs: &mut [u32]) -> Work {
        Past::default().walk(table, block, cells, outputs)
    }
    fn walk_probed(
        &self,
        table: &[u32],
        block: &Block,
        cells: &mut [u32],
        outputs: &mut [u32],
        probes: &mut Probes,
    ) -> Work {
        Past::default().walk_probed(table, block, cells, outputs, probes)
    }
    fn run(&self, code: &[u32], block: &Block, cells: &mut [u32], outputs: &mut [u32]) -> Work {
        Past::default().run(code, None, block, cells, outputs)
    }
    fn join(&self, kind: u32, first: &[u32], second: &[u32], joined: &mut [u32]) -> Answer {
        join(kind, first, second, joined)
    }
}
