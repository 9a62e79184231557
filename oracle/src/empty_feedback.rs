//! Cases of recursions that feed nothing back (E7), and of accepted ones that come near it.

use crate::arity::{check, Node};
use crate::bad_tables::{damage, hand, quiet, wide};
use crate::circuits::{beside, cable, leaf, ondemand, pair, source, table, Tree};
use crate::good_cases::{begin, block, circuit, more, Circuit};
use crate::random::Random;
use crate::script::Command;

fn cut() -> Tree {
    leaf(6, 0)
}

/// A part with "neither inputs nor outputs", in each form that has none: compositions, so many deep
/// at most.
pub fn nothing(random: &mut Random, depth: usize) -> Tree {
    let many = 1 + random.below(3);
    match random.below(if depth == 0 { 6 } else { 10 }) {
        0 | 1 => pair(7, source(random), cut()),
        2 => {
            let cuts = (0..many).map(|_| cut()).collect();
            pair(9, source(random), beside(random, cuts))
        }
        3 => {
            let sources = (0..many).map(|_| source(random)).collect();
            pair(10, beside(random, sources), cut())
        }
        // a recursion that only feeds
        4 | 5 => pair(11, cut(), source(random)),
        // an ondemand has its clock as an input
        6 => {
            let clock = source(random);
            pair(7, clock, ondemand(nothing(random, depth - 1)))
        }
        7 => joined(random, &[7, 9, 10], depth),
        _ => joined(random, &[8], depth),
    }
}

/// Two parts without wires, by a composition of one of the kinds.
fn joined(random: &mut Random, kinds: &[u32], depth: usize) -> Tree {
    let first = nothing(random, depth - 1);
    pair(random.pick(kinds), first, nothing(random, depth - 1))
}

/// The tree of a table, with one node changed.
fn redrawn(table: &[u32], at: usize, change: impl FnOnce(Tree) -> Tree) -> Tree {
    below(table, table.len() / 3 - 1, at, &mut Some(change))
}

fn below<F: FnOnce(Tree) -> Tree>(
    table: &[u32],
    number: usize,
    at: usize,
    change: &mut Option<F>,
) -> Tree {
    let node = Node::at(table, number);
    let children = node.children().into_iter();
    let tree = Tree {
        kind: node.kind,
        first: node.first as i32,
        children: children
            .map(|child| below(table, child as usize, at, change))
            .collect(),
    };
    match change.take_if(|_| number == at) {
        Some(change) => change(tree),
        None => tree,
    }
}

/// A recursion that feeds nothing back: around a part, or beside it and with an empty left side,
/// which only an empty right side fits.
fn fault(random: &mut Random, part: Tree) -> Tree {
    let right = nothing(random, 2);
    match random.below(8) {
        0 => pair(8, part, pair(11, nothing(random, 1), right)),
        _ => pair(11, part, right),
    }
}

/// A part with another fault: rows 4, 5, 7, 8, and 16 once more.
fn other_fault(random: &mut Random) -> Tree {
    match random.below(9) {
        0 => leaf(13, 0),
        1 => leaf(random.pick(&[5, 6]), 1),
        2 => wide(random, 33),
        3 | 4 => pair(7, cable(), source(random)),
        // an empty left side
        5 | 6 => pair(11, nothing(random, 1), wired(random)),
        _ => fault(random, cable()),
    }
}

/// A right side with a wire.
fn wired(random: &mut Random) -> Tree {
    match random.below(3) {
        0 => cut(),
        1 => source(random),
        _ => cable(),
    }
}

/// Five delays of D 4095: row 11 comes after the table's rows.
fn heavy(random: &mut Random) -> Tree {
    let delays = (0..5).map(|_| leaf(4, 4095)).collect();
    beside(random, delays)
}

/// The node itself, a later one if there is one, or any.
fn near_or_later(random: &mut Random, node: usize, count: usize) -> usize {
    let later = count - 1 - node;
    match random.below(6) {
        0..=2 => node,
        3 | 4 if later > 0 => node + 1 + random.below(later),
        _ => random.below(count),
    }
}

/// A table with such a recursion, and often with another fault, which may come before it or after
/// it, or at the same node.
pub fn emptied(random: &mut Random, good: &[u32]) -> Vec<u32> {
    loop {
        let at = random.below(good.len() / 3);
        let mut tree = redrawn(good, at, |part| fault(random, part));
        if random.percent(45) {
            let other = match random.percent(15) {
                true => heavy(random),
                false => other_fault(random),
            };
            tree = match random.percent(50) {
                true => pair(8, tree, other),
                false => pair(8, other, tree),
            };
        }
        let mut bad = table(random, &tree);
        let Err(refused) = check(&bad) else { continue };
        if random.percent(45) {
            let node = near_or_later(random, refused.place as usize, bad.len() / 3);
            let aim = random.pick(&[3, 4, 5, 6, 6, 6, 7, 9]);
            damage(random, &mut bad, node, aim);
        }
        if check(&bad).is_err() {
            return bad;
        }
    }
}

/// An accepted table with a recursion that only feeds or is only fed.
pub fn nearly_emptied(random: &mut Random, good: &[u32]) -> Vec<u32> {
    let arities = check(good).expect("an accepted table").arities;
    let at = random.below(arities.len());
    let outputs = arities[at].outputs;
    let tree = redrawn(good, at, |part| match random.below(7) {
        0 if outputs > 0 => pair(11, part, cut()),
        1 | 2 if outputs > 0 => pair(11, part, ondemand(nothing(random, 1))),
        3 if outputs > 0 => pair(11, part, pair(8, nothing(random, 1), cut())),
        4 => {
            let right = pair(8, source(random), nothing(random, 1));
            pair(11, pair(8, cut(), part), right)
        }
        _ => pair(11, pair(8, cut(), part), source(random)),
    });
    table(random, &tree)
}

/// A table that comes near to 16, worked for a few ticks.
fn near_case(random: &mut Random, good: &[u32], case: &mut Vec<Command>) {
    let near = Circuit::of(nearly_emptied(random, good)).expect("an accepted table");
    begin(random, &near, case);
    block(random, &near, 3, case);
    case.push(Command::Cells(near.counts.cells as usize + more(random)));
}

pub fn feedback_case(random: &mut Random) -> Vec<Command> {
    let size = random.pick(&[1, 1, 2, 3, 5, 8]);
    let good = circuit(random, size).table;
    let mut case = vec![];
    if random.percent(60) {
        near_case(random, &good, &mut case);
    }
    case.extend(quiet());
    for _ in 0..2 + random.below(4) {
        let bad = emptied(random, &good);
        hand(random, bad, &mut case);
    }
    case
}
