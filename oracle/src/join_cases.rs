//! Cases of joins (E8): parts that fit and parts that nearly do, worked once they are joined; every
//! refusal at its border, and several at once.

use crate::arity::{check, MOST_NODES, MOST_WIRES};
use crate::bad_tables::{damage, damaged, wide};
use crate::circuits::{beside, build, cable, leaf, ondemand, pair, sample, source, table, Tree};
use crate::empty_feedback::nothing;
use crate::engine::Counts;
use crate::good_cases::{block, more, ready, ticks, Circuit};
use crate::join::drawn;
use crate::random::Random;
use crate::script::Command;

/// Inputs and outputs that a part shall have.
type Wanted = (usize, usize);

/// The longest buffer of a script.
const MOST_LENT: usize = 2000;

/// "a composition of kind 7 to 11"
fn composition(random: &mut Random) -> u32 {
    7 + random.below(5) as u32
}

/// "a kind other than 7 to 11"
fn other_kind(random: &mut Random) -> u32 {
    let far = [-1, i32::MIN, i32::MAX, 7 + 256, 11 - 256, 14, -7];
    match random.below(4) {
        0 => random.pick(&far) as u32,
        1 => random.pick(&[0, 13]),
        2 => random.pick(&[6, 12]),
        _ => 1 + random.below(6) as u32,
    }
}

/// An accepted table with so many inputs and outputs, such that two of them can be worked.
fn part(random: &mut Random, (inputs, outputs): Wanted) -> Vec<u32> {
    loop {
        let size = random.pick(&[1, 1, 2, 3, 4, 6, 9, 14]);
        let tree = build(random, inputs, outputs, size);
        let part = table(random, &tree);
        if check(&part).is_ok_and(|part| part.counts.cells <= 1000) {
            return part;
        }
    }
}

/// The inputs and outputs of a second part that fits a first with these.
fn second_for(random: &mut Random, kind: u32, (inputs, outputs): Wanted) -> Wanted {
    let given = random.below(4);
    match kind {
        7 => (outputs, given),
        9 => (outputs * random.pick(&[1, 2, 2, 3]), given),
        10 => {
            let parts = (1..=outputs).filter(|&part| outputs.is_multiple_of(part));
            let parts: Vec<usize> = parts.collect();
            let least = parts.first().map(|_| random.pick(&parts));
            (least.unwrap_or(0), given)
        }
        // seldom no wire at all, which gets 16
        11 => match (random.below(outputs + 1), random.below(inputs + 1)) {
            (0, 0) => (random.below(outputs + 1), random.below(inputs + 1)),
            fed => fed,
        },
        _ => (random.below(4), given),
    }
}

/// Two parts that fit, but for a recursion whose right side has no wire.
fn fitting(random: &mut Random, kind: u32) -> [Wanted; 2] {
    let first = (random.below(4), random.pick(&[0, 1, 1, 2, 2, 3, 4]));
    [first, second_for(random, kind, first)]
}

/// One input or output more or fewer than fits, or the two the other way round.
fn nearly(random: &mut Random, kind: u32) -> [Wanted; 2] {
    let mut sides = fitting(random, kind);
    if random.percent(25) {
        sides.reverse();
        return sides;
    }
    let side = &mut sides[random.below(2)];
    let wires = match random.percent(50) {
        true => &mut side.0,
        false => &mut side.1,
    };
    match random.percent(50) {
        true => *wires += 1,
        false => *wires = wires.saturating_sub(1),
    }
    sides
}

/// A buffer for so many numbers: as long, longer, one too short, empty.
fn lent(random: &mut Random, needed: usize) -> usize {
    let lent = match random.below(10) {
        0 => needed - 1,
        1 => random.pick(&[0, 0, 0, 0, 1, needed / 2]),
        2..=4 => needed + 1 + random.below(5),
        _ => needed,
    };
    lent.min(MOST_LENT)
}

/// Two tables handed to the entry.
fn hand(random: &mut Random, kind: u32, parts: [&[u32]; 2], case: &mut Vec<Command>) {
    let [first, second] = parts.map(<[u32]>::to_vec);
    let length = lent(random, first.len() + second.len() + 3);
    case.extend([Command::Table(first), Command::Second(second)]);
    case.push(Command::Join(kind, length));
}

/// A joined table that is the script's, worked for some ticks.
fn work(random: &mut Random, joined: Vec<u32>, case: &mut Vec<Command>) {
    let Some(circuit) = Circuit::of(joined).filter(|joined| workable(&joined.counts)) else {
        case.extend([Command::Check, Command::Translate(0)]);
        return;
    };
    if random.percent(25) {
        let bytes = 41 * circuit.table.len() / 3;
        case.push(Command::Write(bytes + more(random)));
    }
    ready(random, &circuit, case);
    for _ in 0..1 + random.below(2) {
        let ticks = ticks(random);
        block(random, &circuit, ticks, case);
    }
    case.push(Command::Cells(circuit.counts.cells as usize));
}

fn workable(counts: &Counts) -> bool {
    counts.cells <= 3000 && counts.instructions <= 2048
}

/// "Its samples are the composition of the two meanings."
fn worked(random: &mut Random, case: &mut Vec<Command>) {
    let kind = composition(random);
    let [first, second] = fitting(random, kind).map(|side| part(random, side));
    let joined = drawn(kind, &first, &second);
    case.extend([Command::Table(first), Command::Second(second)]);
    if random.percent(25) {
        case.push(Command::Join(kind, joined.len() - 1 - random.below(3)));
    }
    case.push(Command::Join(kind, joined.len() + more(random)));
    if check(&joined).is_ok() {
        work(random, joined, case);
    }
}

/// Parts that nearly fit, each after the other; 7 and now and then another.
fn misfits(random: &mut Random, case: &mut Vec<Command>) {
    for _ in 0..3 + random.below(4) {
        let kind = random.pick(&[7, 7, 9, 9, 10, 10, 11, 11, 8]);
        let [first, second] = nearly(random, kind).map(|side| part(random, side));
        hand(random, kind, [&first, &second], case);
    }
}

/// "a kind other than 7 to 11 gets its 4 or 5", with any two parts.
fn kinds(random: &mut Random, case: &mut Vec<Command>) {
    for _ in 0..4 + random.below(4) {
        let like = composition(random);
        let [first, second] = fitting(random, like).map(|side| part(random, side));
        let kind = other_kind(random);
        hand(random, kind, [&first, &second], case);
    }
}

/// The first, the second or both refused, whatever the kind.
fn refused(random: &mut Random, case: &mut Vec<Command>) {
    for _ in 0..4 + random.below(3) {
        let kind = match random.percent(70) {
            true => composition(random),
            false => other_kind(random),
        };
        let [mut first, mut second] = fitting(random, 8).map(|side| part(random, side));
        let which = random.below(3);
        if which != 1 {
            first = damaged(random, &first);
        }
        if which != 0 {
            second = damaged(random, &second);
        }
        hand(random, kind, [&first, &second], case);
    }
}

/// A part of exactly so many nodes, an input and an output: parts one behind the other.
fn long(random: &mut Random, nodes: usize) -> Vec<u32> {
    let mut part = match nodes.is_multiple_of(2) {
        true => vec![1, sample(random) as u32, 0, 12, 0, 0],
        false => vec![5, 0, 0],
    };
    while part.len() < 3 * nodes {
        let last = part.len() as u32 / 3 - 1;
        let (next, room) = (last + 1, nodes - part.len() / 3);
        match random.below(8) {
            // a delay by its own last output, and one by 1
            0 if room >= 4 => {
                part.extend([4, 2, 0, 5, 0, 0, 11, next, next + 1, 7, last, next + 2]);
            }
            1 if room >= 6 => {
                part.extend([5, 0, 0, 1, 1, 0, 8, next, next + 1, 4, 3, 0]);
                part.extend([7, next + 2, next + 3, 7, last, next + 4]);
            }
            _ => part.extend([5, 0, 0, 7, last, next]),
        }
    }
    part
}

/// One node of a table made wrong, its count of nodes as it was.
fn spoilt(random: &mut Random, good: &[u32]) -> Vec<u32> {
    loop {
        let mut bad = good.to_vec();
        let node = random.below(bad.len() / 3);
        let aim = random.pick(&[4, 5, 6, 7]);
        damage(random, &mut bad, node, aim);
        if check(&bad).is_err() {
            return bad;
        }
    }
}

/// "two lengths and the new node exceeding 512": 511, 512, 513 and more nodes, and with 17 another
/// refusal, which comes before it or behind it.
fn lengths(random: &mut Random, case: &mut Vec<Command>) {
    let all: usize = random.pick(&[511, 512, 512, 513, 513, 513, 514, 1025]);
    let both = all - 1;
    let least = both.saturating_sub(MOST_NODES).max(1);
    let left = match random.below(5) {
        0 => least,
        1 => both - least,
        2 => both / 2,
        _ => least + random.below(both + 1 - 2 * least),
    };
    let (first, second) = (long(random, left), long(random, both - left));
    let kind = composition(random);
    hand(random, kind, [&first, &second], case);
    match all <= MOST_NODES {
        // what was joined has no room for a cable and a node more
        true => case.extend([Command::Check, Command::Second(vec![5, 0, 0])]),
        false => exceeding(random, kind, [&first, &second], case),
    }
    for kind in [other_kind(random), composition(random)] {
        case.push(Command::Join(kind, random.pick(&[0, 1536, 1539])));
    }
}

/// One of the two parts of more than 512 nodes is refused: that comes before 17.
fn exceeding(random: &mut Random, kind: u32, parts: [&[u32]; 2], case: &mut Vec<Command>) {
    let [first, second] = parts;
    case.extend([composition(random), other_kind(random)].map(|kind| Command::Join(kind, 1536)));
    let refused = match random.percent(40) {
        true => [
            Command::Table(spoilt(random, first)),
            Command::Second(second.to_vec()),
        ],
        false => [
            Command::Table(first.to_vec()),
            Command::Second(spoilt(random, second)),
        ],
    };
    case.extend(refused);
    case.push(Command::Join(kind, random.pick(&[0, 1539])));
}

/// So many cables or sources side by side.
fn beam(random: &mut Random, many: usize, one: fn(&mut Random) -> Tree) -> Vec<u32> {
    let trees = (0..many).map(|_| one(random)).collect();
    let tree = beside(random, trees);
    table(random, &tree)
}

/// 32 inputs or outputs pass, 33 get 8; only a parallel has more than its parts.
fn wires(random: &mut Random, case: &mut Vec<Command>) {
    let form = random.below(3);
    for all in [MOST_WIRES, MOST_WIRES + 1, MOST_WIRES + random.below(4)] {
        let least = (all - MOST_WIRES).max(1);
        let left = match random.percent(50) {
            true => random.pick(&[least, 16, all - 16, all - least]),
            false => 4 + random.below(28),
        };
        let [first, second] = [left, all - left].map(|many| match form {
            0 => beam(random, many, source),
            1 => beam(random, many, |_| cable()),
            _ => {
                let tree = wide(random, many);
                table(random, &tree)
            }
        });
        hand(random, 8, [&first, &second], case);
    }
}

/// E7 at the joining node: a right side with "neither inputs nor outputs", and the same part as a
/// left side or in another composition.
fn empty(random: &mut Random, case: &mut Vec<Command>) {
    for _ in 0..2 + random.below(3) {
        let side = random.pick(&[(0, 0), (0, 1), (1, 1), (1, 0), (2, 1)]);
        let first = part(random, side);
        let tree = nothing(random, 2);
        let second = table(random, &tree);
        match random.below(6) {
            0 => hand(random, 11, [&second, &first], case),
            1 => {
                let kind = composition(random);
                hand(random, kind, [&first, &second], case);
            }
            _ => hand(random, 11, [&first, &second], case),
        }
    }
}

/// A joined table joined again, with a part that fits or with itself.
fn chained(random: &mut Random, case: &mut Vec<Command>) {
    let mut joined = part(random, (1, 1));
    case.push(Command::Table(joined.clone()));
    for _ in 0..2 + random.below(3) {
        let counts = check(&joined).expect("an accepted table").counts;
        let kind = composition(random);
        let second = match random.percent(40) {
            true => joined.clone(),
            false => {
                let first = (counts.inputs as usize, counts.outputs as usize);
                let wanted = second_for(random, kind, first);
                match wanted.0 > 8 {
                    true => joined.clone(),
                    false => part(random, wanted),
                }
            }
        };
        let next = drawn(kind, &joined, &second);
        case.push(Command::Second(second));
        case.push(Command::Join(
            kind,
            (next.len() + more(random)).min(MOST_LENT),
        ));
        if check(&next).is_ok() {
            joined = next;
        }
    }
    work(random, joined, case);
}

/// Sizes are not looked at: more than 2,048 instructions, or more than 16,384 cells, in both tables
/// together or in one.
fn heavy(random: &mut Random, case: &mut Vec<Command>) {
    let delays = |random: &mut Random, many| beam(random, many, |_| leaf(4, 4095));
    let (kind, first, second) = match random.percent(50) {
        true => {
            let left = 1 + random.below(5);
            (8, delays(random, left), delays(random, 6 - left))
        }
        false => {
            let numbers = (0..MOST_WIRES).map(|_| source(random)).collect();
            let depth = random.pick(&[31, 32]);
            let numbers = beside(random, numbers);
            let tree = (0..depth).fold(numbers, |tree, _| ondemand(tree));
            let first = table(random, &tree);
            let kind = random.pick(&[7, 10]);
            let many = if kind == 7 { MOST_WIRES } else { 16 };
            (
                kind,
                first,
                beam(random, many, |_| pair(7, leaf(3, 8), leaf(3, 9))),
            )
        }
    };
    let length = first.len() + second.len() + 3;
    case.extend([Command::Table(first), Command::Second(second)]);
    case.push(Command::Join(kind, length + more(random)));
    case.extend([Command::Check, Command::Translate(6)]);
}

pub fn join_case(random: &mut Random) -> Vec<Command> {
    let mut case = vec![Command::Memory(sample(random) as u32)];
    let of = [
        worked, misfits, kinds, refused, lengths, wires, empty, chained, heavy,
    ];
    let odds = [32, 10, 8, 12, 13, 10, 7, 12, 6];
    of[random.weighted(&odds)](random, &mut case);
    case
}
