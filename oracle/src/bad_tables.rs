//! Cases of damaged tables, aimed at each of the refusals 3 to 9 and 16.

use crate::arity::{check, Node};
use crate::circuits::{beside, cable, leaf, ondemand, pair, table, Tree};
use crate::column::text;
use crate::empty_feedback::emptied;
use crate::good_cases::circuit;
use crate::random::Random;
use crate::samples::{operands, ops, BEYOND};
use crate::script::{Command, Lent};

pub fn bad_table_case(random: &mut Random) -> Vec<Command> {
    let size = 2 + random.below(12);
    let good = circuit(random, size).table;
    let mut case = quiet().to_vec();
    for _ in 0..2 + random.below(4) {
        let bad = damaged(random, &good);
        hand(random, bad, &mut case);
    }
    case
}

/// What stands before damaged tables: cells that would show a write, and a block without inputs.
pub fn quiet() -> [Command; 3] {
    [
        Command::Memory(7),
        Command::Inputs(vec![]),
        Command::Controls(vec![0; 16]),
    ]
}

/// A damaged table, checked and mostly handed to another entry too.
pub fn hand(random: &mut Random, bad: Vec<u32>, case: &mut Vec<Command>) {
    case.push(Command::Table(bad.clone()));
    case.push(Command::Check);
    match random.below(9) {
        0..=2 => case.push(Command::Translate(random.below(4))),
        3 | 4 => case.push(Command::Walk(random.within(-1, 1) as u32, 0, 0)),
        5 => case.push(Command::Write(random.below(41))),
        6 if bad.len().is_multiple_of(3) => {
            case.extend([Command::File(text(&bad)), Command::Print]);
        }
        7 | 8 => case.extend(probed(random)),
        _ => {}
    }
}

/// A walk with probes that is refused for its table, and might be for its ticks, its probes and its
/// buffers.
fn probed(random: &mut Random) -> [Command; 2] {
    let named: [&[u32]; 4] = [&[], &[0], &[0, 0], &[u32::MAX, 0]];
    let lent = Lent {
        ticks: random.within(-1, 1) as u32,
        cells: 0,
        out: random.below(2),
        latest: 0,
        recording: random.below(2),
    };
    let named = random.pick(&named).to_vec();
    [Command::Probes(named), Command::Probed(lent)]
}

/// The table with one or two things wrong.
pub fn damaged(random: &mut Random, good: &[u32]) -> Vec<u32> {
    let aim = random.pick(&[3, 4, 5, 6, 7, 8, 9, 9, 16]);
    if aim == 16 {
        return emptied(random, good);
    }
    for attempt in 0.. {
        let mut bad = good.to_vec();
        let node = random.below(bad.len() / 3);
        damage(random, &mut bad, node, aim);
        let twice = random.percent(25);
        if twice && !bad.is_empty() && bad.len().is_multiple_of(3) {
            let (other, next) = (random.below(bad.len() / 3), random.pick(&[4, 5, 6, 7, 9]));
            let node = node.min(bad.len() / 3 - 1);
            let at = if random.percent(50) { node } else { other };
            damage(random, &mut bad, at, next);
        }
        if let Err(refused) = check(&bad) {
            if refused.number == aim || twice || attempt > 40 {
                return bad;
            }
        }
    }
    unreachable!()
}

/// A fault that aims at a row, at a node where the row has a place to choose.
pub fn damage(random: &mut Random, bad: &mut Vec<u32>, node: usize, aim: u32) {
    let at = 3 * node;
    match aim {
        3 => lengthen(random, bad),
        4 => bad[at] = random.pick(&[0, 13, -1, 14, i32::MIN, i32::MAX, 268]) as u32,
        5 => spoil_field(random, bad, node),
        6 => spoil_child(random, bad, node),
        7 => misfit(random, bad, node),
        8 => *bad = too_wide(random),
        _ => loosen(random, bad),
    }
}

/// "numbers no multiple of three, or not 1 to 512 nodes"
fn lengthen(random: &mut Random, bad: &mut Vec<u32>) {
    match random.below(20) {
        0..=2 => bad.clear(),
        3..=9 => bad.truncate(bad.len() - 1 - random.below(2)),
        10..=18 => bad.extend(&[5, 0][..1 + random.below(2)]),
        _ => *bad = vec![5; 1537 + random.below(6)],
    }
}

/// "a used field of kinds 2 to 4 out of range, or an unused field not 0", each kind alike; ops twice.
fn spoil_field(random: &mut Random, bad: &mut [u32], node: usize) {
    let kind = random.pick(&[1, 2, 3, 3, 4, 5, 6, 12]);
    let mut alike = (0..bad.len() / 3).filter(|n| bad[3 * n] == kind);
    let at = 3 * alike.next_back().unwrap_or(node);
    let wrong: &[i32] = match bad[at] {
        2 => &[16, 16, -1, i32::MIN, i32::MAX],
        3 => &[
            0,
            BEYOND as i32,
            BEYOND as i32,
            BEYOND as i32,
            -1,
            i32::MIN,
            256 + 10,
        ],
        4 => &[4096, 4096, -1, i32::MIN, i32::MAX],
        _ => &[1, -1, i32::MIN, 256],
    };
    let value = random.pick(wrong) as u32;
    let used = matches!(bad[at], 1 | 12);
    let second = used || (random.percent(30) && !matches!(bad[at], 7..=11));
    bad[at + 1 + usize::from(second)] = value;
}

/// "a child negative, not lower, named twice, or taken before"
fn spoil_child(random: &mut Random, bad: &mut [u32], node: usize) {
    let last = bad.len() / 3 - 1;
    let node = if Node::at(bad, node).children().is_empty() {
        last
    } else {
        node
    };
    let at = 3 * node + 1;
    let field = random.below(Node::at(bad, node).children().len().max(1));
    let other = bad[at + 1 - field];
    let wrong = [
        -1,
        node as i32,
        node as i32 + 1,
        i32::MIN,
        512,
        other as i32,
        random.below(node + 1) as i32,
        random.below(node + 1) as i32,
    ];
    bad[at + field] = random.pick(&wrong) as u32;
}

/// Another kind or order, so that "no arity rule fits".
fn misfit(random: &mut Random, bad: &mut [u32], node: usize) {
    let at = 3 * node;
    match bad[at] {
        7..=11 if random.percent(30) => bad.swap(at + 1, at + 2),
        7..=11 => bad[at] = random.pick(&[7, 8, 9, 10, 11]),
        12 => {}
        3 => bad[at + 1] = random.pick(&ops()),
        _ => {
            let op = random.pick(&ops());
            let other = random.pick(&[[1, 4], [3, op], [4, 2], [5, 0], [6, 0], [3, op]]);
            bad[at..at + 2].copy_from_slice(&other);
        }
    }
}

/// Boxes side by side with exactly so many inputs, one to three to a box, and an output each.
pub fn wide(random: &mut Random, mut inputs: usize) -> Tree {
    let mut trees = Vec::new();
    while inputs > 0 {
        let op = random.pick(&ops());
        let taken = operands(op).expect("an op");
        if taken <= inputs {
            trees.push(leaf(3, op as i32));
            inputs -= taken;
        }
    }
    beside(random, trees)
}

/// "inputs or outputs above 32"
pub fn too_wide(random: &mut Random) -> Vec<u32> {
    let tree = match random.below(4) {
        0 => ondemand(wide(random, 32)),
        1 => {
            let sources = (0..33).map(|_| leaf(1, 1)).collect();
            beside(random, sources)
        }
        2 => {
            let first = wide(random, 32);
            pair(8, first, cable())
        }
        _ => wide(random, 33),
    };
    table(random, &tree)
}

/// "a node other than the last is nobody's child": one such node, or several.
fn loosen(random: &mut Random, bad: &mut Vec<u32>) {
    let count = bad.len() / 3;
    match random.below(4) {
        // The end is missing, and with it the parents of what stands there.
        0 => bad.truncate(3 * (1 + random.below(count))),
        // The last node takes nothing, nor do some before it, or all.
        1 => {
            let from = random.pick(&[0, count / 2, count - 1, count - 1]);
            let nodes = bad[3 * from..].chunks_mut(3);
            nodes.for_each(|node| node.copy_from_slice(&small(random)));
        }
        _ => {
            for _ in 0..random.pick(&[1, 1, 1, 2, 3, 5]) {
                add_part(random, bad);
            }
        }
    }
}

/// A node without children.
fn small(random: &mut Random) -> [u32; 3] {
    let op = random.pick(&ops());
    random.pick(&[
        [1, 3, 0],
        [2, 4, 0],
        [3, op, 0],
        [4, 2, 0],
        [5, 0, 0],
        [6, 0, 0],
    ])
}

/// A part that nobody takes, anywhere before the last node: a node without children, and
/// often ondemands around it, each anywhere after its body.
fn add_part(random: &mut Random, bad: &mut Vec<u32>) {
    let mut at = random.below(bad.len() / 3);
    insert(bad, at, small(random));
    while random.percent(40) {
        let body = at;
        at = body + 1 + random.below(bad.len() / 3 - 1 - body);
        insert(bad, at, [12, body as u32, 0]);
    }
}

/// Puts a node at a place; the nodes from there on move up, for their parents too.
fn insert(bad: &mut Vec<u32>, at: usize, node: [u32; 3]) {
    let moved = at as u32..bad.len() as u32 / 3;
    for parent in moved.clone() {
        let fields = Node::at(bad, parent as usize).children().len();
        for child in &mut bad[3 * parent as usize + 1..][..fields] {
            *child += u32::from(moved.contains(child));
        }
    }
    bad.splice(3 * at..3 * at, node);
}
