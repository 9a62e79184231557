//! What an engine under test offers: the entries of the document, over slices.
//! Words are the 32-bit numbers as u32.

#[derive(Clone, Copy, Debug, PartialEq, Eq)]
pub struct Refusal {
    pub number: u32,
    pub place: i32,
}

#[derive(Clone, Copy, Debug, PartialEq, Eq)]
pub struct Counts {
    pub inputs: u32,
    pub outputs: u32,
    pub instructions: u32,
    pub cells: u32,
}

/// What walker and runner answer. E6: they "report in how many ticks of the call at least one delay
/// that was worked in that tick was clipped".
#[derive(Clone, Copy, Debug, PartialEq, Eq)]
pub struct Worked {
    /// The count of output samples.
    pub samples: u32,
    /// The count of ticks with a clipped delay.
    pub clipped: u32,
}

/// What a call brings for its block.
pub struct Block<'a> {
    pub ticks: u32,
    pub inputs: &'a [u32],
    pub controls: &'a [u32],
}

/// What a walk with probes is lent besides. E5: "each given as a node and an output of it, counted
/// from 0"; "a lent list, one number a probe"; "a lent buffer".
pub struct Probes<'a> {
    pub named: &'a [u32],
    pub latest: &'a mut [u32],
    pub recording: &'a mut [u32],
}

pub trait Engine {
    fn check(&self, table: &[u32]) -> Result<Counts, Refusal>;
    fn read(&self, file: &[u8], table: &mut [u32]) -> Result<u32, Refusal>;
    fn write(&self, table: &[u32], file: &mut [u8]) -> Result<u32, Refusal>;
    fn translate(&self, table: &[u32], code: &mut [u32]) -> Result<u32, Refusal>;
    fn load(&self, named: u32, cells: &mut [u32]) -> Result<u32, Refusal>;
    fn walk(
        &self,
        table: &[u32],
        block: &Block,
        cells: &mut [u32],
        outputs: &mut [u32],
    ) -> Result<Worked, Refusal>;
    fn walk_probed(
        &self,
        table: &[u32],
        block: &Block,
        cells: &mut [u32],
        outputs: &mut [u32],
        probes: &mut Probes,
    ) -> Result<Worked, Refusal>;
    fn run(
        &self,
        code: &[u32],
        block: &Block,
        cells: &mut [u32],
        outputs: &mut [u32],
    ) -> Result<Worked, Refusal>;
    /// E8: "From two accepted tables and a composition of kind 7 to 11, make one table".
    fn join(
        &self,
        kind: u32,
        first: &[u32],
        second: &[u32],
        joined: &mut [u32],
    ) -> Result<u32, Refusal>;
}

impl Refusal {
    /// "A refusal is its number and a place: the line or node for 1 to 9, else -1." E7: "refusal 16,
    /// with the node as its place".
    pub fn nowhere(number: u32) -> Refusal {
        Refusal { number, place: -1 }
    }

    pub fn at(number: u32, place: usize) -> Refusal {
        Refusal {
            number,
            place: place as i32,
        }
    }
}
