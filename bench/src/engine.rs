//! The entries of the proved engine and of the C interpreter, over slices.

/// Numbers of a code's header: inputs, outputs, instructions, cells.
pub const HEADER_NUMBERS: usize = 4;
/// Numbers of an instruction.
pub const INSTRUCTION_NUMBERS: usize = 6;

unsafe extern "C" {
    fn circuit_read(file: *const u8, n: usize, table: *mut u32, m: usize) -> u64;
    fn circuit_check(table: *const u32, n: usize, counts: *mut u32, m: usize) -> u64;
    fn circuit_join(
        kind: u32,
        first: *const u32,
        n: usize,
        second: *const u32,
        k: usize,
        joined: *mut u32,
        m: usize,
    ) -> u64;
    fn circuit_translate(table: *const u32, n: usize, code: *mut u32, m: usize) -> u64;
    fn circuit_load(named: u32, cells: *mut u32, n: usize) -> u64;
}

/// Entries of the engine that work a block of ticks.
macro_rules! engine {
    ($($name:ident)*) => {
        unsafe extern "C" {
            $(fn $name(
                program: *const u32,
                program_len: usize,
                ticks: u32,
                inputs: *const u32,
                inputs_len: usize,
                controls: *const u32,
                controls_len: usize,
                cells: *mut u32,
                cells_len: usize,
                outputs: *mut u32,
                outputs_len: usize,
            ) -> u64;)*
        }
    };
}

/// The walker with probes.
macro_rules! probed {
    ($($name:ident)*) => {
        unsafe extern "C" {
            $(fn $name(
                table: *const u32,
                table_len: usize,
                probes: *const u32,
                probes_len: usize,
                ticks: u32,
                inputs: *const u32,
                inputs_len: usize,
                controls: *const u32,
                controls_len: usize,
                cells: *mut u32,
                cells_len: usize,
                outputs: *mut u32,
                outputs_len: usize,
                latest: *mut u32,
                latest_len: usize,
                recording: *mut u32,
                recording_len: usize,
            ) -> u64;)*
        }
    };
}

/// The C interpreter, without lengths.
macro_rules! interpreter {
    ($($name:ident)*) => {
        unsafe extern "C" {
            $(fn $name(
                code: *const u32,
                ticks: u32,
                inputs: *const u32,
                controls: *const u32,
                cells: *mut u32,
                outputs: *mut u32,
            ) -> u64;)*
        }
    };
}

engine! { circuit_walk_0 circuit_walk_1 circuit_walk_2 circuit_walk_3 }
engine! { circuit_run_0 circuit_run_1 circuit_run_2 circuit_run_3 }
probed! { circuit_walk_probed_0 circuit_walk_probed_1 circuit_walk_probed_2 circuit_walk_probed_3 }
interpreter! { run_c_0 run_c_1 run_c_2 run_c_3 }

/// The refusal's number of an answer, bits 32 to 47, 0 if there is none.
pub fn refusal(answer: u64) -> u16 {
    (answer >> 32) as u16
}

/// The count of an answer that is no refusal.
fn count(answer: u64) -> usize {
    assert_eq!(refusal(answer), 0, "refused, place {}", answer as i32);
    answer as u32 as usize
}

/// What an accepted call on a block of ticks answers: the counts of output samples and of ticks with a clipped delay.
#[derive(Clone, Copy, Debug, PartialEq)]
pub struct Worked {
    pub samples: usize,
    pub clipped: usize,
}

fn worked(answer: u64) -> Worked {
    Worked {
        samples: count(answer),
        clipped: (answer >> 48) as usize,
    }
}

pub struct Counts {
    pub inputs: usize,
    pub outputs: usize,
    pub instructions: usize,
    pub cells: usize,
}

/// The check's answer as it comes, for tables that may be refused.
/// The counts are inputs, outputs, instructions and cells.
pub fn check_raw(table: &[u32], counts: &mut [u32; 4]) -> u64 {
    unsafe {
        circuit_check(
            table.as_ptr(),
            table.len(),
            counts.as_mut_ptr(),
            counts.len(),
        )
    }
}

pub fn check(table: &[u32]) -> Counts {
    let mut counts = [0; 4];
    count(check_raw(table, &mut counts));
    let [inputs, outputs, instructions, cells] = counts.map(|x| x as usize);
    Counts {
        inputs,
        outputs,
        instructions,
        cells,
    }
}

pub fn read(file: &[u8], table: &mut [u32]) -> usize {
    count(unsafe { circuit_read(file.as_ptr(), file.len(), table.as_mut_ptr(), table.len()) })
}

pub fn join(kind: u32, first: &[u32], second: &[u32], joined: &mut [u32]) -> usize {
    count(unsafe {
        circuit_join(
            kind,
            first.as_ptr(),
            first.len(),
            second.as_ptr(),
            second.len(),
            joined.as_mut_ptr(),
            joined.len(),
        )
    })
}

pub fn translate(table: &[u32], code: &mut [u32]) -> usize {
    count(unsafe { circuit_translate(table.as_ptr(), table.len(), code.as_mut_ptr(), code.len()) })
}

pub fn load(named: usize, cells: &mut [u32]) -> usize {
    count(unsafe { circuit_load(named as u32, cells.as_mut_ptr(), cells.len()) })
}

/// What a call on a block of ticks is given beside the table or the code.
pub struct Block<'a> {
    pub ticks: usize,
    pub inputs: &'a [u32],
    pub controls: &'a [u32],
}

macro_rules! call {
    ($name:expr, $program:expr, $block:expr, $cells:expr, $outputs:expr) => {
        worked(unsafe {
            $name(
                $program.as_ptr(),
                $program.len(),
                $block.ticks as u32,
                $block.inputs.as_ptr(),
                $block.inputs.len(),
                $block.controls.as_ptr(),
                $block.controls.len(),
                $cells.as_mut_ptr(),
                $cells.len(),
                $outputs.as_mut_ptr(),
                $outputs.len(),
            )
        })
    };
}

/// The copy K of the walker.
pub fn walk<const K: usize>(
    table: &[u32],
    block: &Block,
    cells: &mut [u32],
    outputs: &mut [u32],
) -> Worked {
    let entry = [
        circuit_walk_0,
        circuit_walk_1,
        circuit_walk_2,
        circuit_walk_3,
    ][K];
    call!(entry, table, block, cells, outputs)
}

/// What a walk with probes is lent besides.
pub struct Probes<'a> {
    pub named: &'a [u32],
    pub latest: &'a mut [u32],
    pub recording: &'a mut [u32],
}

/// The answer as it comes, for probes that may be refused.
fn walk_probed_raw<const K: usize>(
    table: &[u32],
    block: &Block,
    cells: &mut [u32],
    outputs: &mut [u32],
    probes: Probes,
) -> u64 {
    let entry = [
        circuit_walk_probed_0,
        circuit_walk_probed_1,
        circuit_walk_probed_2,
        circuit_walk_probed_3,
    ][K];
    unsafe {
        entry(
            table.as_ptr(),
            table.len(),
            probes.named.as_ptr(),
            probes.named.len(),
            block.ticks as u32,
            block.inputs.as_ptr(),
            block.inputs.len(),
            block.controls.as_ptr(),
            block.controls.len(),
            cells.as_mut_ptr(),
            cells.len(),
            outputs.as_mut_ptr(),
            outputs.len(),
            probes.latest.as_mut_ptr(),
            probes.latest.len(),
            probes.recording.as_mut_ptr(),
            probes.recording.len(),
        )
    }
}

/// The copy K of the walker with probes.
pub fn walk_probed<const K: usize>(
    table: &[u32],
    block: &Block,
    cells: &mut [u32],
    outputs: &mut [u32],
    probes: Probes,
) -> Worked {
    worked(walk_probed_raw::<K>(table, block, cells, outputs, probes))
}

/// Does the probe name an output of the table? Without any room a walk is refused: with 15 if not, else with 12.
pub fn names_output(table: &[u32], probe: [u32; 2]) -> bool {
    let block = Block {
        ticks: 0,
        inputs: &[],
        controls: &[0; 16],
    };
    let probes = Probes {
        named: &probe,
        latest: &mut [],
        recording: &mut [],
    };
    let answer = walk_probed_raw::<0>(table, &block, &mut [], &mut [], probes);
    refusal(answer) == 12
}

/// The copy K of the runner.
pub fn run<const K: usize>(
    code: &[u32],
    block: &Block,
    cells: &mut [u32],
    outputs: &mut [u32],
) -> Worked {
    let entry = [circuit_run_0, circuit_run_1, circuit_run_2, circuit_run_3][K];
    call!(entry, code, block, cells, outputs)
}

/// The copy K of the C interpreter, which tests nothing: the code has passed the engine's check.
pub fn run_in_c<const K: usize>(
    code: &[u32],
    block: &Block,
    cells: &mut [u32],
    outputs: &mut [u32],
) -> Worked {
    let [n, m, count] = [0, 1, 3].map(|i| code[i] as usize);
    assert!(block.inputs.len() == block.ticks * n && block.controls.len() == 16);
    assert!(outputs.len() >= block.ticks * m && cells.len() >= count);
    let entry = [run_c_0, run_c_1, run_c_2, run_c_3][K];
    worked(unsafe {
        entry(
            code.as_ptr(),
            block.ticks as u32,
            block.inputs.as_ptr(),
            block.controls.as_ptr(),
            cells.as_mut_ptr(),
            outputs.as_mut_ptr(),
        )
    })
}
