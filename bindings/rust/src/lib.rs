//! Faust circuits on 32-bit integer samples: node tables, column files, flat code, walker and runner.
//!
//! A safe wrapper of the proved engine. What each function does is proved for all numbers in the slices; the contracts
//! are in `crates/circuit/src/lib.rt`. The numbers of tables, codes, cells and samples are `i32`, since a sample is a
//! 32-bit two's complement whole number. A refused call writes to no slice, and a slice longer than needed keeps its
//! content past the needed part.
//!
//! ```
//! // the integrator: an addition in a loop with a cable
//! let table = [3, 1, 0, 5, 0, 0, 11, 0, 1];
//! let counts = circuit::check(&table)?;
//! let mut code = [0; circuit::CODE_NUMBERS];
//! let numbers = circuit::translate(&table, &mut code)?;
//! let mut cells = [0; circuit::CELLS];
//! circuit::load(counts.cells, &mut cells)?;
//! let mut outputs = [0; 4];
//! circuit::run(&code[..numbers], 4, &[1, 2, 3, 4], &[0; circuit::CONTROLS], &mut cells, &mut outputs)?;
//! assert_eq!(outputs, [1, 3, 6, 10]);
//! # Ok::<(), circuit::Refusal>(())
//! ```
use std::error::Error;
use std::fmt;

mod sys;

/// The Rust program in README.md.
#[cfg(doctest)]
#[doc = include_str!("../../../README.md")]
struct Readme;

/// Most nodes of a table, and lines of a file.
pub const NODES: usize = 512;
/// Most numbers of a table, three for each node.
pub const TABLE_NUMBERS: usize = 3 * NODES;
/// Most bytes of a column file, 41 for each line.
pub const FILE_BYTES: usize = 41 * NODES;
/// Most inputs, and most outputs, of a node.
pub const WIDTH: usize = 32;
/// Most instructions of a code.
pub const INSTRUCTIONS: usize = 2048;
/// Numbers of a code's header: inputs, outputs, instructions, cells.
pub const HEADER_NUMBERS: usize = 4;
/// Numbers of an instruction.
pub const INSTRUCTION_NUMBERS: usize = 6;
/// Most numbers of a code: header, instructions, output registers.
pub const CODE_NUMBERS: usize = HEADER_NUMBERS + INSTRUCTION_NUMBERS * INSTRUCTIONS + WIDTH;
/// Most cells.
pub const CELLS: usize = 16384;
/// Most ticks of one call.
pub const TICKS: usize = 4096;
/// Controls of a call, exactly so many.
pub const CONTROLS: usize = 16;
/// Most probes of one call.
pub const PROBES: usize = 16;
/// Most numbers of probes, a node and an output for each.
pub const PROBE_NUMBERS: usize = 2 * PROBES;
/// Most numbers of a recording, of one call.
pub const RECORDING_NUMBERS: usize = TICKS * PROBES;

/// Bytes of stack for a thread that does nothing but call [`translate`], on x86-64. `bindings/c/circuit.h` says what
/// these numbers are made of; a caller's own frames come on top.
pub const STACK_TRANSLATE: usize = 588 * 1024;
/// The same for [`walk`], and for [`walk_probed`].
pub const STACK_WALK: usize = 660 * 1024;
/// The same for [`run`].
pub const STACK_RUN: usize = 32 * 1024;
/// The same for [`check`].
pub const STACK_CHECK: usize = 24 * 1024;
/// The same for [`join`].
pub const STACK_JOIN: usize = 32 * 1024;
/// The same for [`read`].
pub const STACK_READ: usize = 16 * 1024;
/// The same for [`write()`].
pub const STACK_WRITE: usize = 16 * 1024;
/// The same for [`load`].
pub const STACK_LOAD: usize = 16 * 1024;

/// Why a call was refused, and where.
#[derive(Clone, Copy, Debug, PartialEq, Eq, Hash)]
pub struct Refusal {
    /// 1 to 17, as the document numbers them.
    pub number: u32,
    /// The line or node for refusals 1 to 9, the node for 16, else -1.
    pub place: i32,
}

impl Refusal {
    /// What the document means by the number.
    pub fn meaning(&self) -> &'static str {
        match self.number {
            1 => "a line that is not 41 bytes, or a column that is no 32-bit number of the form",
            2 => "a node number that is not the line's place",
            3 => "no line or node, more than 512, or numbers that are no multiple of three",
            4 => "a kind that is not 1 to 12",
            5 => "a used field out of range, or an unused field that is not 0",
            6 => "a child that is negative, not lower, named twice, or taken before",
            7 => "no arity rule fits",
            8 => "inputs or outputs above 32",
            9 => "a node other than the last that is nobody's child, of several the lowest",
            10 => "more than 2,048 instructions",
            11 => "cells that are not 0 to 16,384",
            12 => "the buffer to be filled or changed is shorter than needed",
            13 => "numbers that are no flat code",
            14 => "ticks not 0 to 4,096, inputs that are not ticks times the circuit's, or controls that are not 16",
            15 => "an odd count of probe numbers, more than 16 probes, or one that names no output of the table",
            16 => "a recursion whose right side has neither inputs nor outputs",
            17 => "two tables to be joined whose nodes and the joining one are more than 512",
            _ => "no refusal of the document",
        }
    }
}

impl fmt::Display for Refusal {
    fn fmt(&self, f: &mut fmt::Formatter<'_>) -> fmt::Result {
        let at = match self.number {
            1 | 2 => " at line ",
            3 => " at line or node ",
            4..=9 | 16 => " at node ",
            _ => return write!(f, "refusal {}: {}", self.number, self.meaning()),
        };
        let Refusal { number, place } = self;
        write!(f, "refusal {number}{at}{place}: {}", self.meaning())
    }
}

impl Error for Refusal {}

/// What the check reports of a table.
#[derive(Clone, Copy, Debug, PartialEq, Eq, Hash)]
pub struct Counts {
    pub inputs: u32,
    pub outputs: u32,
    /// May lie above [`INSTRUCTIONS`].
    pub instructions: u32,
    /// May lie above [`CELLS`].
    pub cells: u32,
}

/// What walker and runner answer to an accepted call.
#[derive(Clone, Copy, Debug, PartialEq, Eq, Hash)]
pub struct Worked {
    /// The count of output samples, ticks times the circuit's outputs.
    pub samples: usize,
    /// In how many ticks of the call at least one delay was clipped: worked with an amount outside 0 to D, which is then
    /// taken as 0 or as D. A delay in a body without demand, or in what a code skips, is not worked.
    ///
    /// Over several walks or runs of one circuit since a load, if nothing else has written its cells, these add up to the
    /// number that the circuit has over all their ticks.
    pub clipped: usize,
}

/// The count, or the refusal: bits 0 to 31 of an answer are the count or the place, bits 32 to 47 the refusal's number.
fn decoded(answer: u64) -> Result<usize, Refusal> {
    let lower = answer as u32;
    match u32::from((answer >> 32) as u16) {
        0 => Ok(lower as usize),
        number => Err(Refusal {
            number,
            place: lower as i32,
        }),
    }
}

/// The same of a walk or a run: bits 48 to 63 are the count of ticks with a clipped delay.
fn worked(answer: u64) -> Result<Worked, Refusal> {
    let samples = decoded(answer)?;
    let clipped = sys::clipped(answer) as usize;
    Ok(Worked { samples, clipped })
}

/// Checks a table, three numbers to a node, and reports its inputs, outputs, instructions and cells.
///
/// Refusals: 3; node by node 4 to 7, 16, 8; 9.
pub fn check(table: &[i32]) -> Result<Counts, Refusal> {
    let mut counts = [0; 4];
    decoded(sys::check(table, &mut counts))?;
    let [inputs, outputs, instructions, cells] = counts;
    Ok(Counts {
        inputs,
        outputs,
        instructions,
        cells,
    })
}

/// Reads a column file into a table; gives the count of nodes n, of which 3n numbers are written.
///
/// Refusals: 3, 1 and 2 line by line; 12.
pub fn read(file: &[u8], table: &mut [i32]) -> Result<usize, Refusal> {
    decoded(sys::read(file, table))
}

/// Writes a table as a column file; gives the count of bytes, 41 a node.
///
/// Refusals: 3; 12. Of the table only the count of numbers is checked.
pub fn write(table: &[i32], file: &mut [u8]) -> Result<usize, Refusal> {
    decoded(sys::write(table, file))
}

/// Joins two tables by a composition, `kind` 7 to 11; gives the count of numbers, those of both tables and three.
///
/// What is written are the first table's nodes, the second's with child numbers moved on by the count of the first's
/// nodes, then a node of this kind, whose first is the first table's last node and whose second the second's. The joined
/// table is accepted where the two can be composed, and its samples are the composition of what the two give. A table may
/// be joined with itself.
///
/// ```
/// // the integrator, and after it an absolute value: a sequence, kind 7
/// let mut joined = [0; circuit::TABLE_NUMBERS];
/// let numbers = circuit::join(7, &[3, 1, 0, 5, 0, 0, 11, 0, 1], &[3, 8, 0], &mut joined)?;
/// assert_eq!(joined[..numbers], [3, 1, 0, 5, 0, 0, 11, 0, 1, 3, 8, 0, 7, 2, 3]);
/// let (mut cells, mut outputs) = ([0; 1], [0; 3]);
/// circuit::walk(&joined[..numbers], 3, &[1, -5, 2], &[0; circuit::CONTROLS], &mut cells, &mut outputs)?;
/// assert_eq!(outputs, [1, 4, 2]);
/// # Ok::<(), circuit::Refusal>(())
/// ```
///
/// Refusals: the first table's; the second's; 17; the joined table's; 12. A table's are those of [`check`], the place a node of
/// that table: of the first or of the second, which [`check`] tells apart; of the joined table the joining node, the last, with
/// 4 or 5 for a kind other than 7 to 11, else with 7, 16 or 8. Instructions and cells are not held to their limits: there is
/// no 10 or 11.
pub fn join(
    kind: i32,
    first: &[i32],
    second: &[i32],
    joined: &mut [i32],
) -> Result<usize, Refusal> {
    decoded(sys::join(kind, first, second, joined))
}

/// Translates a table into flat code; gives the count of numbers.
///
/// Refusals: the table's; 10; 11; 12. The table's are those of [`check`].
pub fn translate(table: &[i32], code: &mut [i32]) -> Result<usize, Refusal> {
    decoded(sys::translate(table, code))
}

/// Sets the first `named` cells to 0 and touches no others; gives `named`. A circuit starts from cells that were loaded with at least its count.
///
/// Refusals: 11; 12.
pub fn load(named: u32, cells: &mut [i32]) -> Result<usize, Refusal> {
    decoded(sys::load(named, cells))
}

/// Walks a table for a block of ticks; gives the count of output samples, and that of the ticks with a clipped delay.
///
/// `inputs` has the circuit's inputs of each tick, tick after tick; `controls` holds for the whole call; `cells`, at
/// least as many as the table's count, go on from the last call; `outputs` takes the outputs of each tick.
///
/// ```
/// // a delay of at most 2 ticks: the signal 10 20 30 40, the amount 1 2 5 -1
/// let (mut cells, mut outputs) = ([0; 3], [0; 4]);
/// let inputs = [10, 1, 20, 2, 30, 5, 40, -1];
/// let worked = circuit::walk(&[4, 2, 0], 4, &inputs, &[0; circuit::CONTROLS], &mut cells, &mut outputs)?;
/// assert_eq!(outputs, [0, 0, 10, 40]);
/// assert_eq!(worked, circuit::Worked { samples: 4, clipped: 2 });
/// # Ok::<(), circuit::Refusal>(())
/// ```
///
/// Refusals: the table's; 11; 14; 12. The table's are those of [`check`].
pub fn walk(
    table: &[i32],
    ticks: u32,
    inputs: &[i32],
    controls: &[i32],
    cells: &mut [i32],
    outputs: &mut [i32],
) -> Result<Worked, Refusal> {
    let block = sys::Block {
        ticks,
        inputs,
        controls,
        cells,
        outputs,
    };
    worked(sys::walk(table, block))
}

/// Walks a table as [`walk`] does, with the same samples, cells and answer, and records up to [`PROBES`] wires.
///
/// `probes` has two numbers for each, a node and an output of it, counted from 0; a wire may be named twice, and no probe
/// is allowed too. `latest`, at least a number a probe, holds what each wire shows: its value at the tick or, in the body of
/// an ondemand, at the latest demand that reached it. `recording`, at least ticks times probes long, takes the list as it is
/// after each tick, in the order of the probes. Set the list to 0 with each load, and let it go on from call to call with
/// the same table and probes: a wire that no demand has reached shows what stood there.
///
/// ```
/// // the integrator on demand: the clock 0 1 0 1, the signal 5 6 7 8
/// let table = [3, 1, 0, 5, 0, 0, 11, 0, 1, 12, 2, 0];
/// let probes = [3, 0, 1, 0]; // the ondemand, and the cable within
/// let inputs = [0, 5, 1, 6, 0, 7, 1, 8];
/// let (mut cells, mut latest) = ([0; 2], [0; 2]);
/// let (mut outputs, mut recording) = ([0; 4], [0; 8]);
/// circuit::walk_probed(
///     &table, &probes, 4, &inputs, &[0; circuit::CONTROLS],
///     &mut cells, &mut outputs, &mut latest, &mut recording,
/// )?;
/// assert_eq!(outputs, [0, 6, 6, 14]);
/// assert_eq!(recording, [0, 0, 6, 0, 6, 0, 14, 6]);
/// # Ok::<(), circuit::Refusal>(())
/// ```
///
/// Refusals: the table's; 11; 14; 15; 12. The table's are those of [`check`].
#[allow(clippy::too_many_arguments)] // the entry's, in its order
pub fn walk_probed(
    table: &[i32],
    probes: &[i32],
    ticks: u32,
    inputs: &[i32],
    controls: &[i32],
    cells: &mut [i32],
    outputs: &mut [i32],
    latest: &mut [i32],
    recording: &mut [i32],
) -> Result<Worked, Refusal> {
    let block = sys::Block {
        ticks,
        inputs,
        controls,
        cells,
        outputs,
    };
    let probes = sys::Probes {
        named: probes,
        latest,
        recording,
    };
    worked(sys::walk_probed(table, block, probes))
}

/// Runs a flat code for a block of ticks, as [`walk`] does a table; any numbers may be given as code. Of its delays those count
/// as clipped that are not skipped.
///
/// Fit for an audio thread: it allocates nothing, takes no lock, makes no system call, and its time grows with the
/// instructions and the ticks alone.
///
/// Refusals: 13; 14; 12.
pub fn run(
    code: &[i32],
    ticks: u32,
    inputs: &[i32],
    controls: &[i32],
    cells: &mut [i32],
    outputs: &mut [i32],
) -> Result<Worked, Refusal> {
    let block = sys::Block {
        ticks,
        inputs,
        controls,
        cells,
        outputs,
    };
    worked(sys::run(code, block))
}
