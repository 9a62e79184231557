//! The check of a table: refusals 3 to 9 and 16 in the document's order, and the counts.

use crate::engine::{Counts, Refusal};
use crate::samples::operands;

/// "It has 1 to 512 nodes."
pub const MOST_NODES: usize = 512;
/// "inputs or outputs above 32"
pub const MOST_WIRES: usize = 32;

#[derive(Clone, Copy, Debug)]
pub struct Node {
    pub kind: u32,
    pub first: u32,
    pub second: u32,
}

impl Node {
    pub fn at(table: &[u32], number: usize) -> Node {
        let at = 3 * number;
        Node {
            kind: table[at],
            first: table[at + 1],
            second: table[at + 2],
        }
    }

    /// Kinds 7 to 11 have two children, kind 12 one, the others none.
    pub fn children(&self) -> Vec<u32> {
        match self.kind {
            7..=11 => vec![self.first, self.second],
            12 => vec![self.first],
            _ => vec![],
        }
    }
}

#[derive(Clone, Copy, Debug, PartialEq, Eq)]
pub struct Arity {
    pub inputs: usize,
    pub outputs: usize,
}

impl Arity {
    /// "neither inputs nor outputs"
    pub fn is_empty(&self) -> bool {
        self.inputs == 0 && self.outputs == 0
    }
}

/// What the check knows of an accepted table.
#[derive(Clone, Debug)]
pub struct Checked {
    pub arities: Vec<Arity>,
    pub counts: Counts,
}

/// Row 3: "numbers no multiple of three, or not 1 to 512 nodes; before all nodes".
/// "place 0 when the list or file is empty or a table's count of numbers is no multiple
/// of three, otherwise 512".
pub fn count_nodes(table: &[u32]) -> Result<usize, Refusal> {
    if table.is_empty() || !table.len().is_multiple_of(3) {
        return Err(Refusal::at(3, 0));
    }
    let count = table.len() / 3;
    if count > MOST_NODES {
        return Err(Refusal::at(3, MOST_NODES));
    }
    Ok(count)
}

pub fn check(table: &[u32]) -> Result<Checked, Refusal> {
    let count = count_nodes(table)?;
    let mut arities: Vec<Arity> = Vec::new();
    let mut taken = vec![false; count];
    for place in 0..count {
        let node = Node::at(table, place);
        let arity = check_node(&node, place, &arities, &mut taken)
            .map_err(|number| Refusal::at(number, place))?;
        arities.push(arity);
    }
    // Row 9, "after the last node": "a node other than the last is nobody's child". E2: "The
    // place with refusal 9 becomes the lowest-numbered node that is nobody's child."
    if let Some(loose) = (0..count - 1).find(|&node| !taken[node]) {
        return Err(Refusal::at(9, loose));
    }
    let counts = count_all(table, &arities);
    Ok(Checked { arities, counts })
}

/// "At one node the rows are taken downwards": 4, 5, 6, 7, 8; E7 puts 16 "after 7 and before 8".
pub fn check_node(
    node: &Node,
    place: usize,
    arities: &[Arity],
    taken: &mut [bool],
) -> Result<Arity, u32> {
    if !(1..=12).contains(&node.kind) {
        return Err(4);
    }
    if !fields_fit(node) {
        return Err(5);
    }
    // "a child negative, not lower, named twice, or taken before"; a negative number
    // is a large one here and so not lower.
    for child in node.children() {
        let child = child as usize;
        if child >= place || taken[child] {
            return Err(6);
        }
        taken[child] = true;
    }
    let arity = rule(node, arities).ok_or(7u32)?;
    if feeds_nothing(node, arities) {
        return Err(16);
    }
    if arity.inputs > MOST_WIRES || arity.outputs > MOST_WIRES {
        return Err(8);
    }
    Ok(arity)
}

/// Row 5: "a used field of kinds 2 to 4 out of range, or an unused field not 0".
fn fields_fit(node: &Node) -> bool {
    match node.kind {
        1 => node.second == 0,
        2 => node.first <= 15 && node.second == 0,
        // E4: "Kind 3 and code 3 accept ops 1 to 10"
        3 => operands(node.first).is_some() && node.second == 0,
        4 => node.first <= 4095 && node.second == 0,
        5 | 6 => node.first == 0 && node.second == 0,
        12 => node.second == 0,
        _ => true,
    }
}

/// The column "inputs → outputs", and the sentence about beams without wires.
fn rule(node: &Node, arities: &[Arity]) -> Option<Arity> {
    let some = |inputs, outputs| Some(Arity { inputs, outputs });
    match node.kind {
        1 | 2 => return some(0, 1),
        3 => return some(operands(node.first)?, 1),
        4 => return some(2, 1),
        5 => return some(1, 1),
        6 => return some(1, 0),
        _ => {}
    }
    let left = arities[node.first as usize];
    if node.kind == 12 {
        return some(left.inputs + 1, left.outputs);
    }
    let right = arities[node.second as usize];
    let fits = match node.kind {
        7 => left.outputs == right.inputs,
        8 => return some(left.inputs + right.inputs, left.outputs + right.outputs),
        9 => times(right.inputs, left.outputs),
        10 => times(left.outputs, right.inputs),
        _ => {
            let fits = left.inputs >= right.outputs && left.outputs >= right.inputs;
            return fits.then(|| Arity {
                inputs: left.inputs - right.outputs,
                outputs: left.outputs,
            });
        }
    };
    if fits {
        some(left.inputs, right.outputs)
    } else {
        None
    }
}

/// E7, row 16: "A recursion whose right side has neither inputs nor outputs feeds nothing back".
fn feeds_nothing(node: &Node, arities: &[Arity]) -> bool {
    node.kind == 11 && arities[node.second as usize].is_empty()
}

/// Whether `many` is k times `one` for some k >= 1; none of nothing is only nothing.
fn times(many: usize, one: usize) -> bool {
    if one == 0 {
        many == 0
    } else {
        many >= one && many.is_multiple_of(one)
    }
}

/// "A delay owns D+1 cells", "a recursion owns q cells, an ondemand one for each output".
pub fn own_cells(node: &Node, arities: &[Arity]) -> usize {
    match node.kind {
        4 => node.first as usize + 1,
        11 => arities[node.second as usize].inputs,
        12 => arities[node.first as usize].outputs,
        _ => 0,
    }
}

/// "Instructions needed: kinds 1 to 4 one; ..."
fn own_instructions(node: &Node, arities: &[Arity]) -> usize {
    match node.kind {
        1..=4 => 1,
        10 => arities[node.first as usize].outputs - arities[node.second as usize].inputs,
        11 => 2 * arities[node.second as usize].inputs,
        12 => 1 + 2 * arities[node.first as usize].outputs,
        _ => 0,
    }
}

fn count_all(table: &[u32], arities: &[Arity]) -> Counts {
    let nodes = (0..arities.len()).map(|n| Node::at(table, n));
    let instructions: usize = nodes.clone().map(|n| own_instructions(&n, arities)).sum();
    let cells: usize = nodes.map(|n| own_cells(&n, arities)).sum();
    let last = arities[arities.len() - 1];
    Counts {
        inputs: last.inputs as u32,
        outputs: last.outputs as u32,
        instructions: instructions as u32,
        cells: cells as u32,
    }
}

/// "A node's cells follow those of all lower-numbered nodes": each node's first cell.
pub fn first_cells(table: &[u32], arities: &[Arity]) -> Vec<usize> {
    let mut next = 0;
    let mut firsts = Vec::new();
    for number in 0..arities.len() {
        firsts.push(next);
        next += own_cells(&Node::at(table, number), arities);
    }
    firsts
}
