//! Clocks of ondemands. E1: "Our engineers take clocks from differences and counters"; "A tick is
//! now a demand when the clock isn't 0". Most are 0 now and then: only at such a tick does a body
//! on demand differ from one that is worked at every tick.

use crate::circuits::{cable, leaf, pair, Tree};
use crate::random::Random;
use crate::samples::SELECTOR;

/// A demand other than 1: E1's 2 and -1, more even and negative ones, the extremes, and
/// numbers whose low half is 0.
pub fn demand(random: &mut Random) -> i32 {
    let far = [65536, -65536, 1 << 30, i32::MIN, i32::MIN, i32::MAX];
    if random.percent(25) {
        random.pick(&far)
    } else {
        random.pick(&[2, 2, 2, -1, -1, -1, 3, 4, -2, -7])
    }
}

/// A tick's value of an input or a control that is a clock, or a selector's first input.
pub fn value(random: &mut Random) -> i32 {
    match random.below(10) {
        0..=3 => 0,
        4 | 5 => 1,
        _ => demand(random),
    }
}

/// Values for inputs and controls whose difference is a clock: few, so that it is often 0.
pub fn near(random: &mut Random) -> [i32; 3] {
    random.pick(&[
        [0, 1, 2],
        [0, 1, 2],
        [-1, 0, 1],
        [0, 2, 5],
        [1, 2, 65538],
        [0, i32::MIN, i32::MIN + 1],
        [i32::MIN, 0, i32::MAX],
    ])
}

/// A clock from none, one or two inputs.
pub fn clock(random: &mut Random, inputs: usize) -> Tree {
    match inputs {
        0 => unfed(random),
        1 => fed(random),
        _ => leaf(3, random.pick(&[2, 2, 2, 2, 6, 6, 7, 5, 3])),
    }
}

/// The first input of a selector, from none, one or two inputs: mostly an input or a control, else
/// what might be a clock.
pub fn test(random: &mut Random, inputs: usize) -> Tree {
    match inputs {
        0 if random.percent(50) => control(random),
        1 if random.percent(85) => cable(),
        _ => clock(random, inputs),
    }
}

fn control(random: &mut Random) -> Tree {
    leaf(2, random.within(0, 15))
}

/// An operation on the outputs of two trees.
fn operation(op: i32, left: Tree, right: Tree) -> Tree {
    pair(7, pair(8, left, right), leaf(3, op))
}

fn difference(left: Tree, right: Tree) -> Tree {
    operation(2, left, right)
}

/// Less than, or equal to.
fn compare(random: &mut Random, left: Tree, right: Tree) -> Tree {
    operation(if random.percent(70) { 6 } else { 7 }, left, right)
}

/// A clock without inputs.
fn unfed(random: &mut Random) -> Tree {
    match random.below(12) {
        0 => leaf(1, demand(random)),
        1 | 2 => control(random),
        3 => {
            let first = control(random);
            difference(first, control(random))
        }
        // v 0 v 0 ...: a number minus the tick before
        4 | 5 => pair(11, difference(leaf(1, demand(random)), cable()), cable()),
        // a demand in k ticks, or in all but one of k
        6 => {
            let around = remainders(random);
            compare(random, around, leaf(1, 1))
        }
        _ => counting(random),
    }
}

/// The step, twice the step, three times ...
fn counter(step: i32) -> Tree {
    pair(11, operation(1, leaf(1, step), cable()), cable())
}

/// A counter of k steps around: 0 at every k-th tick.
fn remainders(random: &mut Random) -> Tree {
    let step = random.pick(&[1, 1, 1, -1, -1, 2, -3, 65536]);
    let around = leaf(1, step * random.within(2, 4));
    operation(5, counter(step), around)
}

/// A clock that counts.
fn counting(random: &mut Random) -> Tree {
    let start = random.within(1, 5);
    match random.below(10) {
        // 1 2 3 ..., -1 -2 -3 ..., and steps that come around to 0 in two, four or eight ticks
        0 => counter(random.pick(&[1, 1, -1, i32::MIN, 1 << 30, 1 << 29])),
        // up or down through 0
        1 | 2 => difference(counter(1), leaf(1, start)),
        3 | 4 => difference(leaf(1, start), counter(1)),
        _ => remainders(random),
    }
}

/// A clock from one input.
fn fed(random: &mut Random) -> Tree {
    let small = random.within(0, 2);
    match random.below(14) {
        0 | 1 => cable(),
        2 | 3 => difference(cable(), leaf(1, small)),
        4 => difference(leaf(1, small), cable()),
        5 => difference(cable(), control(random)),
        6 | 7 => change(random),
        8 => operation(5, cable(), leaf(1, random.within(2, 4))),
        9 => operation(3, cable(), leaf(1, demand(random))),
        10 | 11 => either(random),
        _ => {
            let number = leaf(1, random.within(1, 6));
            compare(random, cable(), number)
        }
    }
}

/// A demand where an input is 0, or where it is not.
fn either(random: &mut Random) -> Tree {
    let number = demand(random);
    let (second, third) = random.pick(&[(number, 0), (0, number)]);
    let numbers = pair(8, leaf(1, second), leaf(1, third));
    operation(SELECTOR as i32, cable(), numbers)
}

/// An input minus itself one tick late: a demand when it has changed.
fn change(random: &mut Random) -> Tree {
    let late = leaf(4, random.pick(&[1, 1, 2, 7]));
    let late = pair(7, pair(8, cable(), leaf(1, 1)), late);
    pair(9, cable(), difference(cable(), late))
}
