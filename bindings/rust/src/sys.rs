//! The exported functions of the engine. A slice is passed as its pointer and its length in elements.
//!
//! Each call is sound for every slice: the functions ask nothing of their arguments, read and write only within the
//! lengths given, and return. `u32` there is `i32` here, which has the same size, alignment and bits.

extern "C" {
    fn circuit_check(table: *const i32, numbers: usize, counts: *mut u32, length: usize) -> u64;
    fn circuit_read(file: *const u8, bytes: usize, table: *mut i32, numbers: usize) -> u64;
    fn circuit_write(table: *const i32, numbers: usize, file: *mut u8, bytes: usize) -> u64;
    fn circuit_join(
        kind: i32,
        first: *const i32,
        first_numbers: usize,
        second: *const i32,
        second_numbers: usize,
        joined: *mut i32,
        joined_numbers: usize,
    ) -> u64;
    fn circuit_translate(table: *const i32, numbers: usize, code: *mut i32, length: usize) -> u64;
    fn circuit_load(named: u32, cells: *mut i32, length: usize) -> u64;
    fn circuit_walk(
        table: *const i32,
        numbers: usize,
        ticks: u32,
        inputs: *const i32,
        inputs_length: usize,
        controls: *const i32,
        controls_length: usize,
        cells: *mut i32,
        cells_length: usize,
        outputs: *mut i32,
        outputs_length: usize,
    ) -> u64;
    fn circuit_walk_probed(
        table: *const i32,
        numbers: usize,
        probes: *const i32,
        probes_length: usize,
        ticks: u32,
        inputs: *const i32,
        inputs_length: usize,
        controls: *const i32,
        controls_length: usize,
        cells: *mut i32,
        cells_length: usize,
        outputs: *mut i32,
        outputs_length: usize,
        latest: *mut i32,
        latest_length: usize,
        recording: *mut i32,
        recording_length: usize,
    ) -> u64;
    fn circuit_run(
        code: *const i32,
        numbers: usize,
        ticks: u32,
        inputs: *const i32,
        inputs_length: usize,
        controls: *const i32,
        controls_length: usize,
        cells: *mut i32,
        cells_length: usize,
        outputs: *mut i32,
        outputs_length: usize,
    ) -> u64;
    fn circuit_clipped(answer: u64) -> u32;
}

pub fn check(table: &[i32], counts: &mut [u32; 4]) -> u64 {
    unsafe {
        circuit_check(
            table.as_ptr(),
            table.len(),
            counts.as_mut_ptr(),
            counts.len(),
        )
    }
}

pub fn read(file: &[u8], table: &mut [i32]) -> u64 {
    unsafe { circuit_read(file.as_ptr(), file.len(), table.as_mut_ptr(), table.len()) }
}

pub fn write(table: &[i32], file: &mut [u8]) -> u64 {
    unsafe { circuit_write(table.as_ptr(), table.len(), file.as_mut_ptr(), file.len()) }
}

pub fn join(kind: i32, first: &[i32], second: &[i32], joined: &mut [i32]) -> u64 {
    unsafe {
        circuit_join(
            kind,
            first.as_ptr(),
            first.len(),
            second.as_ptr(),
            second.len(),
            joined.as_mut_ptr(),
            joined.len(),
        )
    }
}

pub fn translate(table: &[i32], code: &mut [i32]) -> u64 {
    unsafe { circuit_translate(table.as_ptr(), table.len(), code.as_mut_ptr(), code.len()) }
}

pub fn load(named: u32, cells: &mut [i32]) -> u64 {
    unsafe { circuit_load(named, cells.as_mut_ptr(), cells.len()) }
}

/// What a call of walker or runner lends.
pub struct Block<'a> {
    pub ticks: u32,
    pub inputs: &'a [i32],
    pub controls: &'a [i32],
    pub cells: &'a mut [i32],
    pub outputs: &'a mut [i32],
}

type Work = unsafe extern "C" fn(
    *const i32,
    usize,
    u32,
    *const i32,
    usize,
    *const i32,
    usize,
    *mut i32,
    usize,
    *mut i32,
    usize,
) -> u64;

/// A block of a program: a table or a code.
fn worked(work: Work, program: &[i32], block: Block) -> u64 {
    unsafe {
        work(
            program.as_ptr(),
            program.len(),
            block.ticks,
            block.inputs.as_ptr(),
            block.inputs.len(),
            block.controls.as_ptr(),
            block.controls.len(),
            block.cells.as_mut_ptr(),
            block.cells.len(),
            block.outputs.as_mut_ptr(),
            block.outputs.len(),
        )
    }
}

pub fn walk(table: &[i32], block: Block) -> u64 {
    worked(circuit_walk, table, block)
}

/// What a walk with probes lends besides.
pub struct Probes<'a> {
    pub named: &'a [i32],
    pub latest: &'a mut [i32],
    pub recording: &'a mut [i32],
}

pub fn walk_probed(table: &[i32], block: Block, probes: Probes) -> u64 {
    unsafe {
        circuit_walk_probed(
            table.as_ptr(),
            table.len(),
            probes.named.as_ptr(),
            probes.named.len(),
            block.ticks,
            block.inputs.as_ptr(),
            block.inputs.len(),
            block.controls.as_ptr(),
            block.controls.len(),
            block.cells.as_mut_ptr(),
            block.cells.len(),
            block.outputs.as_mut_ptr(),
            block.outputs.len(),
            probes.latest.as_mut_ptr(),
            probes.latest.len(),
            probes.recording.as_mut_ptr(),
            probes.recording.len(),
        )
    }
}

pub fn run(code: &[i32], block: Block) -> u64 {
    worked(circuit_run, code, block)
}

/// The count of ticks with a clipped delay, of the answer of a walk or a run.
pub fn clipped(answer: u64) -> u32 {
    unsafe { circuit_clipped(answer) }
}
