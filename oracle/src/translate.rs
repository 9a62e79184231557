//! The translation of an accepted table into flat code.

use crate::arity::{check, first_cells, Checked, Node};
use crate::engine::Refusal;
use crate::flat::{Instruction, INPUTS, MOST_CELLS, MOST_INSTRUCTIONS, WIDTH};

pub type Register = u32;

struct Translator<'a> {
    table: &'a [u32],
    checked: &'a Checked,
    cells: Vec<usize>,
    instructions: Vec<Instruction>,
    /// The skip of the body that is being translated.
    skip: Option<usize>,
    places: Vec<Place>,
}

/// Where a node stands in the code.
#[derive(Clone, Default)]
pub struct Place {
    /// The registers of its outputs.
    pub outputs: Vec<Register>,
    /// The skip of the innermost body that it is in.
    pub skip: Option<usize>,
}

/// Header, instructions, output registers; without any limit on their count.
pub fn code(table: &[u32], checked: &Checked) -> Vec<u32> {
    placed(table, checked).0
}

/// The code, and the places of the nodes in it.
pub fn placed(table: &[u32], checked: &Checked) -> (Vec<u32>, Vec<Place>) {
    let mut translator = Translator {
        table,
        checked,
        cells: first_cells(table, &checked.arities),
        instructions: Vec::new(),
        skip: None,
        places: vec![Place::default(); checked.arities.len()],
    };
    let counts = checked.counts;
    let inputs = (0..counts.inputs).collect();
    let outputs = translator.node(checked.arities.len() - 1, inputs);
    let placed = translator.instructions.len() as u32;
    assert_eq!(placed, counts.instructions);
    let mut code = vec![counts.inputs, counts.outputs, placed, counts.cells];
    code.extend(translator.instructions.iter().flatten());
    code.extend(outputs);
    (code, translator.places)
}

/// "Translator: table, 10, 11, 12."
pub fn translate(table: &[u32], buffer: &mut [u32]) -> Result<u32, Refusal> {
    let checked = check(table)?;
    if checked.counts.instructions as usize > MOST_INSTRUCTIONS {
        return Err(Refusal::nowhere(10));
    }
    if checked.counts.cells as usize > MOST_CELLS {
        return Err(Refusal::nowhere(11));
    }
    let code = code(table, &checked);
    if buffer.len() < code.len() {
        return Err(Refusal::nowhere(12));
    }
    buffer[..code.len()].copy_from_slice(&code);
    Ok(code.len() as u32)
}

impl Translator<'_> {
    /// "instruction i writes register n+i"
    fn place(&mut self, instruction: Instruction) -> Register {
        self.instructions.push(instruction);
        self.checked.counts.inputs + self.instructions.len() as u32 - 1
    }

    /// "a one-input op has 0 for the last"; E4: "the sixth 0 except for op 10".
    fn operation(&mut self, op: u32, ins: &[Register]) -> Register {
        let mut six = [0; WIDTH];
        six[..2].copy_from_slice(&[3, op]);
        for (place, &register) in INPUTS.into_iter().zip(ins) {
            six[place] = register;
        }
        self.place(six)
    }

    fn node(&mut self, number: usize, ins: Vec<Register>) -> Vec<Register> {
        let node = Node::at(self.table, number);
        let cell = self.cells[number] as u32;
        let first = node.first;
        self.places[number].skip = self.skip;
        let outputs = match node.kind {
            1 => vec![self.place([1, first, 0, 0, 0, 0])],
            2 => vec![self.place([2, first, 0, 0, 0, 0])],
            3 => vec![self.operation(first, &ins)],
            4 => vec![self.place([4, ins[0], ins[1], cell, first, 0])],
            5 => ins,
            6 => vec![],
            11 => self.recursion(&node, cell, ins),
            12 => self.ondemand(&node, cell, ins),
            _ => self.composition(&node, ins),
        };
        self.places[number].outputs.clone_from(&outputs);
        outputs
    }

    /// "Translation goes left before right"; "a merge places its additions, output by output
    /// and from the first term on, between left and right".
    fn composition(&mut self, node: &Node, mut ins: Vec<Register>) -> Vec<Register> {
        let (left, right) = (node.first as usize, node.second as usize);
        let rest = ins.split_off(self.checked.arities[left].inputs);
        let mut outs = self.node(left, ins);
        let wanted = self.checked.arities[right].inputs;
        match node.kind {
            8 => {
                outs.extend(self.node(right, rest));
                outs
            }
            9 => {
                let beam = outs.iter().cycle().take(wanted).copied().collect();
                self.node(right, beam)
            }
            10 => {
                let mut beam = outs[..wanted].to_vec();
                for (i, sum) in beam.iter_mut().enumerate() {
                    for term in (i + wanted..outs.len()).step_by(wanted) {
                        *sum = self.operation(1, &[*sum, outs[term]]);
                    }
                }
                self.node(right, beam)
            }
            _ => self.node(right, outs),
        }
    }

    /// "q reads, right, left, q writes"
    fn recursion(&mut self, node: &Node, cell: u32, ins: Vec<Register>) -> Vec<Register> {
        let q = self.checked.arities[node.second as usize].inputs as u32;
        let reads = (0..q)
            .map(|j| self.place([5, cell + j, 0, 0, 0, 0]))
            .collect();
        let mut left = self.node(node.second as usize, reads);
        left.extend(ins);
        let outs = self.node(node.first as usize, left);
        for j in 0..q {
            self.place([6, cell + j, outs[j as usize], 0, 0, 0]);
        }
        outs
    }

    /// "Ondemand: skip, body, writes inside the skip, then as many reads."
    fn ondemand(&mut self, node: &Node, cell: u32, ins: Vec<Register>) -> Vec<Register> {
        let skip = self.instructions.len();
        self.place([7, ins[0], 0, 0, 0, 0]);
        let outer = self.skip.replace(skip);
        let outs = self.node(node.first as usize, ins[1..].to_vec());
        self.skip = outer;
        for (j, &register) in outs.iter().enumerate() {
            self.place([6, cell + j as u32, register, 0, 0, 0]);
        }
        self.instructions[skip][2] = (self.instructions.len() - skip - 1) as u32;
        (0..outs.len() as u32)
            .map(|j| self.place([5, cell + j, 0, 0, 0, 0]))
            .collect()
    }
}
