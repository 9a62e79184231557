//! The walker with probes.
use crate::case::{Case, TICKS};
use crate::engine::{self, Block, Probes, Worked};

/// The most probes of a call.
pub const MOST: usize = 16;

/// Walks a table with probes: table, block, cells, outputs, probes.
type Walk = fn(&[u32], &Block, &mut [u32], &mut [u32], Probes) -> Worked;

/// A circuit walked with probes; cells and list go on from call to call.
pub struct Probed<'a> {
    walk: Walk,
    table: &'a [u32],
    pub named: Vec<u32>,
    pub cells: Vec<u32>,
    pub outputs: Vec<u32>,
    latest: Vec<u32>,
    pub recording: Vec<u32>,
}

impl<'a> Probed<'a> {
    /// So many probes, each of the first output of a node, evenly over the nodes that have one. Where these are fewer,
    /// some are named more than once.
    fn new(case: &'a Case, probes: usize, walk: Walk) -> Probed<'a> {
        let nodes = case.nodes() as u32;
        let with_output = |node: &u32| engine::names_output(&case.table, [*node, 0]);
        let nodes: Vec<u32> = (0..nodes).filter(with_output).collect();
        let even = |i: usize| nodes[i * (nodes.len() - 1) / (probes - 1).max(1)];
        Probed {
            walk,
            table: &case.table,
            named: (0..probes).flat_map(|i| [even(i), 0]).collect(),
            cells: case.loaded(),
            outputs: vec![0; TICKS * case.counts.outputs],
            latest: vec![0; probes],
            recording: vec![0; TICKS * probes],
        }
    }

    /// The walker in four copies.
    pub fn copies(case: &'a Case, probes: usize) -> [Probed<'a>; 4] {
        let walks: [Walk; 4] = [
            engine::walk_probed::<0>,
            engine::walk_probed::<1>,
            engine::walk_probed::<2>,
            engine::walk_probed::<3>,
        ];
        walks.map(|walk| Probed::new(case, probes, walk))
    }

    pub fn play(&mut self, block: &Block) -> Worked {
        let probes = Probes {
            named: &self.named,
            latest: &mut self.latest,
            recording: &mut self.recording,
        };
        (self.walk)(
            self.table,
            block,
            &mut self.cells,
            &mut self.outputs,
            probes,
        )
    }
}
