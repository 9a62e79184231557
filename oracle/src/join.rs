//! Joining two drawings, E8.

use crate::arity::{check, Node, MOST_NODES};
use crate::engine::Refusal;

/// E8: "the first table's nodes, the second's with child numbers moved on by the first's length,
/// then the joining node with the two last nodes as its first and second". A length is the count of
/// nodes; both tables must be accepted ones.
pub fn drawn(kind: u32, first: &[u32], second: &[u32]) -> Vec<u32> {
    let (left, right) = (first.len() as u32 / 3, second.len() as u32 / 3);
    let mut table = first.to_vec();
    for number in 0..right as usize {
        let node = Node::at(second, number);
        let mut fields = [node.first, node.second];
        let children = node.children().len();
        fields[..children]
            .iter_mut()
            .for_each(|child| *child += left);
        table.push(node.kind);
        table.extend(fields);
    }
    table.extend([kind, left - 1, left + right - 1]);
    table
}

/// "Refusal 17 is for two lengths and the new node exceeding 512; it follows the checks of the first
/// and then the second table and precedes those of the joined one." The joined table's own check
/// gives "the refusal otherwise", a kind other than 7 to 11 "its 4 or 5" with it: the second field
/// of the joining node is never 0. Row 12 is last. "The answer is the count of numbers."
pub fn join(kind: u32, first: &[u32], second: &[u32], joined: &mut [u32]) -> Result<u32, Refusal> {
    check(first)?;
    check(second)?;
    if first.len() / 3 + second.len() / 3 + 1 > MOST_NODES {
        return Err(Refusal::nowhere(17));
    }
    let table = drawn(kind, first, second);
    check(&table)?;
    let filled = joined.get_mut(..table.len());
    filled.ok_or(Refusal::nowhere(12))?.copy_from_slice(&table);
    Ok(table.len() as u32)
}
