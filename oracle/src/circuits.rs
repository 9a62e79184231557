//! Random circuits: trees built for wanted inputs and outputs, then numbered in a random
//! legal order.

use crate::clocks::{clock, test};
use crate::random::Random;
use crate::samples::SELECTOR;

pub struct Tree {
    pub kind: u32,
    pub first: i32,
    pub children: Vec<Tree>,
}

pub fn leaf(kind: u32, first: i32) -> Tree {
    Tree {
        kind,
        first,
        children: vec![],
    }
}

pub fn cable() -> Tree {
    leaf(5, 0)
}

pub fn pair(kind: u32, left: Tree, right: Tree) -> Tree {
    Tree {
        kind,
        first: 0,
        children: vec![left, right],
    }
}

pub fn ondemand(body: Tree) -> Tree {
    Tree {
        kind: 12,
        first: 0,
        children: vec![body],
    }
}

/// The trees side by side, bracketed at random; there must be one.
pub fn beside(random: &mut Random, mut trees: Vec<Tree>) -> Tree {
    while trees.len() > 1 {
        let at = random.below(trees.len() - 1);
        let right = trees.remove(at + 1);
        let left = std::mem::replace(&mut trees[at], cable());
        trees[at] = pair(8, left, right);
    }
    trees.pop().expect("a tree")
}

/// A sample: mostly small, now and then an extreme.
pub fn sample(random: &mut Random) -> i32 {
    match random.below(20) {
        0 => random.pick(&[i32::MIN, i32::MAX, i32::MIN + 1, -65536, 65536]),
        1 => random.word() as i32,
        2..=4 => random.within(-99, 999),
        _ => random.within(-3, 6),
    }
}

fn number(random: &mut Random) -> Tree {
    let value = sample(random);
    leaf(1, value)
}

/// A number or a control.
pub fn source(random: &mut Random) -> Tree {
    if random.percent(30) {
        leaf(2, random.within(0, 15))
    } else {
        number(random)
    }
}

/// An op of so many inputs. With the ops of clocks and selectors, every op is as often there as
/// the others.
fn op(random: &mut Random, inputs: usize) -> i32 {
    match inputs {
        1 => random.within(8, 9),
        2 => 1 + random.weighted(&[12, 4, 19, 20, 13, 16, 18]) as i32,
        _ => SELECTOR as i32,
    }
}

/// The longest delay of a circuit, D.
pub fn length(random: &mut Random) -> i32 {
    match random.below(60) {
        0 => 4095,
        1..=4 => random.within(8, 60),
        5..=14 => 0,
        _ => random.pick(&[1, 1, 2, 2, 3, 7]),
    }
}

/// Few nodes for so many inputs and outputs, mostly such that no input is lost.
fn simple(random: &mut Random, inputs: usize, outputs: usize) -> Tree {
    if inputs + outputs == 0 {
        return pair(7, source(random), leaf(6, 0));
    }
    if outputs > 0 && inputs > 2 * outputs && random.percent(90) {
        if inputs.is_multiple_of(outputs) && random.percent(40) {
            let beam = row(random, inputs, inputs);
            return pair(10, beam, row(random, outputs, outputs));
        }
        let beam = outputs.max(inputs.div_ceil(2));
        let first = row(random, inputs, beam);
        return pair(7, first, simple(random, beam, outputs));
    }
    if inputs > 0 && outputs > inputs && random.percent(70) {
        let beam = row(random, inputs, inputs);
        let many = inputs * outputs.div_ceil(inputs);
        return pair(9, beam, row(random, many, outputs));
    }
    row(random, inputs, outputs)
}

/// Wires and small boxes side by side; not 0 to 0.
fn row(random: &mut Random, mut inputs: usize, mut outputs: usize) -> Tree {
    let mut trees = Vec::new();
    while inputs + outputs > 0 {
        let two = inputs >= 2 && outputs >= 1 && (inputs > outputs || random.percent(10));
        let three = two && inputs >= outputs + 2;
        let (taken, given, tree) = if three && random.percent(15) {
            (3, 1, leaf(3, op(random, 3)))
        } else if two && random.percent(25) {
            (2, 1, leaf(4, length(random)))
        } else if two {
            (2, 1, leaf(3, op(random, 2)))
        } else if inputs > 0 && outputs > 0 {
            (1, 1, wire(random))
        } else if inputs > 0 {
            (1, 0, leaf(6, 0))
        } else {
            (0, 1, source(random))
        };
        inputs -= taken;
        outputs -= given;
        let at = random.below(trees.len() + 1);
        trees.insert(at, tree);
    }
    beside(random, trees)
}

fn wire(random: &mut Random) -> Tree {
    if random.percent(90) {
        cable()
    } else {
        leaf(3, op(random, 1))
    }
}

/// A tree of about `size` nodes with so many inputs and outputs.
pub fn build(random: &mut Random, inputs: usize, outputs: usize, size: usize) -> Tree {
    if size <= 2 {
        return simple(random, inputs, outputs);
    }
    let (left, right) = shares(random, size - 1);
    match random.weighted(&[18, 20, 12, 12, 17, 17, 8, 10]) {
        0 => {
            let beam = width(random);
            let first = build(random, inputs, beam, left);
            pair(7, first, build(random, beam, outputs, right))
        }
        1 if outputs >= 2 || (inputs + outputs >= 2 && random.percent(15)) => {
            parallel(random, inputs, outputs, left, right)
        }
        2 => {
            let (beam, many) = repeated(random);
            let first = build(random, inputs, beam, left);
            pair(9, first, build(random, many, outputs, right))
        }
        3 => {
            let (beam, many) = repeated(random);
            let first = build(random, inputs, many, left);
            pair(10, first, build(random, beam, outputs, right))
        }
        4 => recursion(random, inputs, outputs, left, right),
        5 => demanded(random, inputs, outputs, size),
        6 if outputs == 1 => delayed(random, inputs, size),
        7 if outputs == 1 => selected(random, inputs, size),
        _ => build(random, inputs, outputs, size - 1),
    }
}

fn shares(random: &mut Random, size: usize) -> (usize, usize) {
    let left = 1 + random.below(size.max(2) - 1);
    (left, size.saturating_sub(left))
}

fn width(random: &mut Random) -> usize {
    random.pick(&[0, 1, 1, 1, 1, 1, 1, 1, 2, 2, 2, 2, 2, 2, 2, 3, 3, 3, 4, 4])
}

/// A beam and k times it.
fn repeated(random: &mut Random) -> (usize, usize) {
    let beam = random.pick(&[0, 1, 1, 1, 1, 1, 1, 1, 1, 2, 2, 2, 2, 2, 2, 2, 3, 3]);
    (beam, beam * random.pick(&[1, 2, 2, 2, 3]))
}

fn parallel(random: &mut Random, inputs: usize, outputs: usize, l: usize, r: usize) -> Tree {
    let (a, b) = loop {
        let (a, b) = (random.below(inputs + 1), random.below(outputs + 1));
        let between = |part: usize, all: usize| all < 2 || (part > 0 && part < all);
        let fair = between(a, inputs) && between(b, outputs);
        let left = a + b;
        if left > 0 && left < inputs + outputs && (fair || random.percent(10)) {
            break (a, b);
        }
    };
    let first = build(random, a, b, l);
    pair(8, first, build(random, inputs - a, outputs - b, r))
}

fn recursion(random: &mut Random, inputs: usize, outputs: usize, l: usize, r: usize) -> Tree {
    let some = |random: &mut Random, most: usize| match random.percent(85) {
        true => 1 + random.below(most),
        false => 0,
    };
    let (mut q, mut fed) = (some(random, 3).min(outputs), some(random, 2));
    // E7: a right side with "neither inputs nor outputs" is refused; one of the two is enough.
    if q + fed == 0 {
        match outputs > 0 && random.percent(50) {
            true => q = 1,
            false => fed = 1 + random.below(2),
        }
    }
    let first = build(random, fed + inputs, outputs, l);
    pair(11, first, build(random, q, fed, r))
}

/// A delay whose amount is an input, a control, or a number near 0 to D.
fn delayed(random: &mut Random, inputs: usize, size: usize) -> Tree {
    let d = length(random);
    let fed = inputs > 0 && random.percent(50);
    let amount = match random.below(10) {
        _ if fed => cable(),
        0..=2 => leaf(2, random.within(0, 15)),
        3 | 4 => leaf(1, d),
        _ => leaf(1, random.within(-1, d.min(40) + 1)),
    };
    let input = build(random, inputs - usize::from(fed), 1, size.saturating_sub(3));
    pair(7, pair(8, input, amount), leaf(4, d))
}

/// A selector between two parts, by a first input that is 0 now and then: only so do both its
/// ways show.
fn selected(random: &mut Random, inputs: usize, size: usize) -> Tree {
    let for_test = match random.percent(60) {
        true => inputs.min(1),
        false => random.below(inputs.min(2) + 1),
    };
    let rest = inputs - for_test;
    let for_second = random.below(rest + 1);
    let (left, right) = shares(random, size.saturating_sub(3).max(2));
    let first = test(random, for_test);
    let second = build(random, for_second, 1, left);
    let third = build(random, rest - for_second, 1, right);
    let beam = beside(random, vec![first, second, third]);
    pair(7, beam, leaf(3, op(random, 3)))
}

/// An ondemand: with its clock straight from its first input, or from a clock built for it.
fn demanded(random: &mut Random, inputs: usize, outputs: usize, size: usize) -> Tree {
    if inputs > 0 && random.percent(15) {
        return ondemand(build(random, inputs - 1, outputs, size - 1));
    }
    let for_clock = random.below(inputs.min(2) + 1);
    let tick = clock(random, for_clock);
    let rest = inputs - for_clock;
    if rest == 0 {
        let body = build(random, 0, outputs, size.saturating_sub(4));
        return pair(7, tick, ondemand(body));
    }
    let wires = if random.percent(60) {
        rest
    } else {
        width(random)
    };
    let (left, right) = shares(random, size.saturating_sub(4).max(2));
    let others = build(random, rest, wires, if wires == rest { 1 } else { left });
    let body = ondemand(build(random, wires, outputs, right));
    pair(7, pair(8, tick, others), body)
}

/// The table of a tree: children before their parents, the root last, otherwise any order.
pub fn table(random: &mut Random, tree: &Tree) -> Vec<u32> {
    let mut nodes: Vec<(u32, i32, Vec<usize>)> = Vec::new();
    collect(tree, &mut nodes);
    let mut numbers = vec![usize::MAX; nodes.len()];
    let mut waiting: Vec<usize> = (0..nodes.len()).collect();
    let in_order = random.percent(20);
    let mut table = Vec::new();
    for next in 0..nodes.len() {
        let ready: Vec<usize> = (0..waiting.len())
            .filter(|&w| {
                nodes[waiting[w]]
                    .2
                    .iter()
                    .all(|&c| numbers[c] != usize::MAX)
            })
            .collect();
        let at = if in_order {
            ready[0]
        } else {
            random.pick(&ready)
        };
        let node = waiting.remove(at);
        numbers[node] = next;
        let (kind, first, children) = &nodes[node];
        let field = |i: usize| children.get(i).map(|&c| numbers[c] as u32);
        table.push(*kind);
        table.push(field(0).unwrap_or(*first as u32));
        table.push(field(1).unwrap_or(0));
    }
    table
}

/// Lists a tree's nodes, children first; gives the place of its root.
fn collect(tree: &Tree, nodes: &mut Vec<(u32, i32, Vec<usize>)>) -> usize {
    let children = tree.children.iter().map(|c| collect(c, nodes)).collect();
    nodes.push((tree.kind, tree.first, children));
    nodes.len() - 1
}
