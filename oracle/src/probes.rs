//! Probes: the wires that are named, and what a walk records of them. E5.

use crate::arity::{check, Checked};
use crate::engine::{Block, Probes, Refusal};
use crate::flat::{instruction, trace, Operate, Trace};
use crate::translate::{placed, Place};

/// "up to 16 named outputs"
pub const MOST_PROBES: usize = 16;

/// "a node and an output of it, counted from 0"
#[derive(Clone, Copy, Debug, PartialEq, Eq)]
pub struct Wire {
    pub node: usize,
    pub output: usize,
}

/// "Refusal 15, for an odd count of probe numbers, more than 16 probes or one that names no output
/// of the table"; a negative number is a large one here.
pub fn wires(named: &[u32], checked: &Checked) -> Result<Vec<Wire>, Refusal> {
    if !named.len().is_multiple_of(2) || named.len() / 2 > MOST_PROBES {
        return Err(Refusal::nowhere(15));
    }
    let wire = |pair: &[u32]| {
        let (node, output) = (pair[0] as usize, pair[1] as usize);
        let outputs = checked.arities.get(node)?.outputs;
        (output < outputs).then_some(Wire { node, output })
    };
    let wires: Option<Vec<Wire>> = named.chunks(2).map(wire).collect();
    wires.ok_or(Refusal::nowhere(15))
}

/// List and recording of a call that has room for both.
pub struct Recorder<'a> {
    pub wires: Vec<Wire>,
    latest: &'a mut [u32],
    recording: &'a mut [u32],
}

impl<'a> Recorder<'a> {
    /// Row 12 of list and recording: "one number a probe"; "tick by tick".
    pub fn new(
        wires: Vec<Wire>,
        ticks: u32,
        probes: &'a mut Probes<'_>,
    ) -> Result<Recorder<'a>, Refusal> {
        let many = wires.len();
        if probes.latest.len() < many || probes.recording.len() < ticks as usize * many {
            return Err(Refusal::nowhere(12));
        }
        Ok(Recorder {
            wires,
            latest: probes.latest,
            recording: probes.recording,
        })
    }

    /// A walk without probes.
    pub fn none() -> Recorder<'static> {
        Recorder {
            wires: Vec::new(),
            latest: &mut [],
            recording: &mut [],
        }
    }

    /// "tick by tick, and within a tick in the order named": what probe i shows where the tick has
    /// reached its wire, and else what the list holds for it.
    pub fn tick(&mut self, tick: usize, mut shown: impl FnMut(usize) -> Option<u32>) {
        let many = self.wires.len();
        for (i, latest) in self.latest[..many].iter_mut().enumerate() {
            *latest = shown(i).unwrap_or(*latest);
        }
        self.recording[tick * many..(tick + 1) * many].copy_from_slice(&self.latest[..many]);
    }
}

/// Walks a block by the translation, whatever the cells hold, with ops that may be wrong ones. Gives
/// the count of ticks with a clipped delay.
pub fn walk_by(
    operate: Operate,
    table: &[u32],
    block: &Block,
    cells: &mut [u32],
    outputs: &mut [u32],
    recorder: &mut Recorder,
) -> u32 {
    let (code, places) = placed(table, &check(table).expect("an accepted table"));
    let (n, m) = (code[0] as usize, code[1] as usize);
    let wires = recorder.wires.clone();
    let mut clipped = 0;
    for tick in 0..block.ticks as usize {
        let inputs = &block.inputs[tick * n..(tick + 1) * n];
        let traced = trace(operate, &code, inputs, block.controls, cells);
        traced.give(&code, &mut outputs[tick * m..(tick + 1) * m]);
        recorder.tick(tick, |i| shown(&code, &places, &traced, wires[i]));
        clipped += u32::from(traced.clips());
    }
    clipped
}

/// What a wire shows after a tick of the translation, if the tick has reached it: a body is reached
/// where its skip is worked and its clock is not 0.
fn shown(code: &[u32], places: &[Place], trace: &Trace, wire: Wire) -> Option<u32> {
    let place = &places[wire.node];
    let reached = place.skip.is_none_or(|skip| {
        let clock = instruction(code, skip)[1];
        trace.worked[skip] && trace.registers[clock as usize] != 0
    });
    let register = place.outputs[wire.output];
    reached.then(|| trace.registers[register as usize])
}
