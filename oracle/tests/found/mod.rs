//! What is found in scripts. A table as a check goes through it, past the nodes that it refuses,
//! with row 16 left out.
#![allow(dead_code)] // a test uses a part of it

pub mod feedback;
pub mod joins;

use oracle::arity::{check_node, count_nodes, Arity, Node};
use oracle::engine::Refusal;
use oracle::join::join;

/// The table that an accepted join leaves to a script.
pub fn joined(kind: u32, first: &[u32], second: &[u32], lent: usize) -> Option<Vec<u32>> {
    let mut buffer = vec![0; lent];
    let numbers = join(kind, first, second, &mut buffer).ok()?;
    buffer.truncate(numbers as usize);
    Some(buffer)
}

/// The arity of a refused node: none fits it, and what is built on it is refused.
const UNKNOWN: Arity = Arity {
    inputs: 1000,
    outputs: 1000,
};

pub struct Found {
    pub nodes: Vec<Node>,
    /// Row 3, "before all nodes".
    pub three: Option<Refusal>,
    /// The first of the rows 4 to 8 that applies to each node.
    pub rows: Vec<Option<u32>>,
    pub arities: Vec<Arity>,
    /// Row 9, were it to be looked at.
    pub loose: Option<usize>,
}

impl Found {
    pub fn of(table: &[u32]) -> Found {
        let count = table.len() / 3;
        let mut found = Found {
            nodes: (0..count).map(|place| Node::at(table, place)).collect(),
            three: count_nodes(table).err(),
            rows: vec![],
            arities: vec![],
            loose: None,
        };
        let mut taken = vec![false; count];
        for (place, node) in found.nodes.iter().enumerate() {
            let (row, arity) = match check_node(node, place, &found.arities, &mut taken) {
                Ok(arity) => (None, arity),
                // What is not fed back leaves the left side as it is.
                Err(16) => (None, found.arities[node.first as usize]),
                Err(row) => (Some(row), UNKNOWN),
            };
            found.rows.push(row);
            found.arities.push(arity);
        }
        found.loose = (1..count).map(|next| next - 1).find(|&place| !taken[place]);
        found
    }

    fn side(&self, place: usize, child: u32) -> Option<Arity> {
        let two = matches!(self.nodes[place].kind, 7..=11);
        let lower = self.arities[..place].get(child as usize);
        lower.copied().filter(|_| two)
    }

    /// The left side of a composition, if there is such a node.
    pub fn left(&self, place: usize) -> Option<Arity> {
        self.side(place, self.nodes[place].first)
    }

    pub fn right(&self, place: usize) -> Option<Arity> {
        self.side(place, self.nodes[place].second)
    }

    pub fn recursion(&self, place: usize) -> bool {
        self.nodes[place].kind == 11
    }

    /// E7: "A recursion whose right side has neither inputs nor outputs".
    pub fn empty(&self, place: usize) -> bool {
        self.recursion(place) && self.right(place).is_some_and(|right| right.is_empty())
    }

    /// An ondemand whose body has neither inputs nor outputs: it still has its clock.
    pub fn idle(&self, place: usize) -> bool {
        let node = self.nodes[place];
        let body = self.arities[..place].get(node.first as usize);
        node.kind == 12 && body.is_some_and(|body| body.is_empty())
    }
}
