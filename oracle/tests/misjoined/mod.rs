//! The flat code with one rule of E8 wrong.

mod checks;
mod rule;

use checks::*;
use oracle::engine::Refusal;
use rule::{Call, Check};
pub use rule::{Rule, RIGHT};

/// A rule that is wrong in the checks or their order.
const fn checked(name: &'static str, least: usize, checks: &'static [Check]) -> Rule {
    Rule {
        name,
        least,
        checks,
        ..RIGHT
    }
}

/// A rule that is wrong in how a node of the second table is moved.
const fn moving(name: &'static str, least: usize, moved: fn(&mut [u32], u32)) -> Rule {
    Rule {
        name,
        least,
        moved,
        ..RIGHT
    }
}

/// A rule that is wrong in the joining node.
const fn joining(name: &'static str, least: usize, node: fn(u32, u32, u32) -> [u32; 3]) -> Rule {
    Rule {
        name,
        least,
        node,
        ..RIGHT
    }
}

/// A rule that is wrong in where the nodes stand.
const fn arranged(name: &'static str, least: usize, arranged: fn(&mut [u32], &Call)) -> Rule {
    Rule {
        name,
        least,
        arranged,
        ..RIGHT
    }
}

/// A rule by which a refused call has written, after so many checks.
const fn filling(name: &'static str, least: usize, filled: usize) -> Rule {
    Rule {
        name,
        least,
        filled,
        ..RIGHT
    }
}

/// The right move, and besides the first field of the nodes of a kind.
const fn also<const KIND: u32>(name: &'static str, least: usize) -> Rule {
    moving(name, least, |node, by| match node[0] == KIND {
        true => node[1] = node[1].wrapping_add(by),
        false => (RIGHT.moved)(node, by),
    })
}

/// The right move, but for the nodes of a kind.
const fn except<const KIND: u32>(name: &'static str, least: usize) -> Rule {
    moving(name, least, |node, by| {
        (RIGHT.moved)(node, by * u32::from(node[0] != KIND))
    })
}

/// Wrong in what is written of the second table.
pub const MOVES: [Rule; 20] = [
    moving("children of the second not moved", 97, |_, _| {}),
    moving("moved by the count of numbers", 97, |node, by| {
        (RIGHT.moved)(node, 3 * by)
    }),
    moving("moved by one too few", 97, |node, by| {
        (RIGHT.moved)(node, by - 1)
    }),
    moving("moved by one too many", 97, |node, by| {
        (RIGHT.moved)(node, by + 1)
    }),
    moving("firsts alone moved", 97, |node, by| {
        node[1] += by * u32::from(matches!(node[0], 7..=12))
    }),
    moving("seconds alone moved", 97, |node, by| {
        node[2] += by * u32::from(matches!(node[0], 7..=11))
    }),
    moving("an ondemand's second moved", 27, |node, by| {
        (RIGHT.moved)(node, by);
        node[2] += by * u32::from(node[0] == 12);
    }),
    moving("an unused second moved", 108, |node, by| {
        (RIGHT.moved)(node, by);
        node[2] += by * u32::from(node[0] < 7);
    }),
    except::<7>("a sequence not moved", 53),
    except::<8>("a parallel not moved", 90),
    except::<9>("a split not moved", 31),
    except::<10>("a merge not moved", 25),
    except::<11>("a recursion not moved", 34),
    except::<12>("an ondemand's body not moved", 27),
    also::<1>("a number's value moved", 47),
    also::<2>("a control's slot moved", 28),
    also::<3>("an op moved", 57),
    also::<4>("a delay's D moved", 35),
    also::<5>("a cable's unused field moved", 68),
    also::<6>("a cut's unused field moved", 42),
];

/// Wrong in the joining node and in the order of the nodes.
pub const NODES: [Rule; 8] = [
    joining("first and second exchanged", 108, |kind, left, right| {
        [kind, left + right - 1, left - 1]
    }),
    joining("second in its own numbering", 108, |kind, left, right| {
        [kind, left - 1, right - 1]
    }),
    joining("first nodes in place of the last", 107, |kind, left, _| {
        [kind, 0, left]
    }),
    joining("the node itself as its second", 108, |kind, left, right| {
        [kind, left - 1, left + right]
    }),
    joining("always a sequence", 93, |_, left, right| {
        [7, left - 1, left + right - 1]
    }),
    arranged("the joining node put first", 108, |table, _| {
        table.rotate_right(3)
    }),
    arranged(
        "the second's nodes before the first's",
        108,
        |table, call| table[..3 * call.last()].rotate_left(call.first.len()),
    ),
    arranged("the joining node between the two", 108, |table, call| {
        table[call.first.len()..].rotate_right(3)
    }),
];

/// Wrong in the order of the checks.
pub const ORDERS: [Rule; 14] = [
    checked("the second table before the first", 11, {
        &[SECOND, FIRST, LONG, JOINED, ROOM]
    }),
    checked("the first table left to the joined one", 18, {
        &[SECOND, LONG, JOINED, ROOM]
    }),
    checked("the second table left to the joined one", 21, {
        &[FIRST, LONG, JOINED, ROOM]
    }),
    checked("17 before the first table", 11, {
        &[LONG, FIRST, SECOND, JOINED, ROOM]
    }),
    checked("17 before the second table", 7, {
        &[FIRST, LONG, SECOND, JOINED, ROOM]
    }),
    checked("17 behind the joined table", 16, {
        &[FIRST, SECOND, node, LONG, ROOM]
    }),
    checked("17 behind 12", 16, &[FIRST, SECOND, node, ROOM, LONG]),
    checked("the kind before the first table", 31, {
        &[kind, FIRST, SECOND, LONG, JOINED, ROOM]
    }),
    checked("the kind before the second table", 27, {
        &[FIRST, kind, SECOND, LONG, JOINED, ROOM]
    }),
    checked("the kind before 17", 16, {
        &[FIRST, SECOND, kind, LONG, JOINED, ROOM]
    }),
    checked("12 before the first table", 52, {
        &[ROOM, FIRST, SECOND, LONG, JOINED]
    }),
    checked("12 before the second table", 45, {
        &[FIRST, ROOM, SECOND, LONG, JOINED]
    }),
    checked("12 before 17", 39, &[FIRST, SECOND, ROOM, LONG, JOINED]),
    checked("12 before the joined table", 22, {
        &[FIRST, SECOND, LONG, ROOM, JOINED]
    }),
];

/// Wrong in one check.
pub const CHECKS: [Rule; 22] = [
    checked(
        "513 nodes pass",
        6,
        &[FIRST, SECOND, above::<513>, node, ROOM],
    ),
    checked(
        "512 nodes refused",
        4,
        &[FIRST, SECOND, above::<511>, JOINED, ROOM],
    ),
    checked(
        "any count of nodes passes",
        16,
        &[FIRST, SECOND, node, ROOM],
    ),
    checked("3 in place of 17", 16, &[FIRST, SECOND, JOINED, ROOM]),
    checked(
        "17 above 512 numbers",
        8,
        &[FIRST, SECOND, above::<170>, JOINED, ROOM],
    ),
    checked(
        "17 with place 0",
        16,
        &[FIRST, SECOND, long_at::<0>, JOINED, ROOM],
    ),
    checked(
        "17 with place 512",
        16,
        &[FIRST, SECOND, long_at::<512>, JOINED, ROOM],
    ),
    checked(
        "the second's place moved on",
        21,
        &[
            FIRST,
            |call| second_at(call, |call, place| place + call.first.len() as i32 / 3),
            LONG,
            JOINED,
            ROOM,
        ],
    ),
    checked(
        "the second's place lost",
        21,
        &[FIRST, |call| second_at(call, |_, _| -1), LONG, JOINED, ROOM],
    ),
    checked(
        "the joining node's place lost",
        51,
        &[FIRST, SECOND, LONG, |call| placed(call, |_| -1), ROOM],
    ),
    checked(
        "the place of the last of the second",
        51,
        &[
            FIRST,
            SECOND,
            LONG,
            |call| placed(call, |call| call.last() as i32 - 1),
            ROOM,
        ],
    ),
    checked(
        "the place of the last of the first",
        51,
        &[
            FIRST,
            SECOND,
            LONG,
            |call| placed(call, |call| call.first.len() as i32 / 3 - 1),
            ROOM,
        ],
    ),
    checked(
        "4 for every other kind",
        12,
        &[FIRST, SECOND, LONG, other_kind::<4>, JOINED, ROOM],
    ),
    checked(
        "5 for every other kind",
        10,
        &[FIRST, SECOND, LONG, other_kind::<5>, JOINED, ROOM],
    ),
    checked(
        "4 not looked for",
        10,
        &[FIRST, SECOND, LONG, blind::<4>, ROOM],
    ),
    checked(
        "5 not looked for",
        12,
        &[FIRST, SECOND, LONG, blind::<5>, ROOM],
    ),
    checked(
        "7 not looked for",
        15,
        &[FIRST, SECOND, LONG, blind::<7>, ROOM],
    ),
    checked(
        "8 not looked for",
        15,
        &[FIRST, SECOND, LONG, blind::<8>, ROOM],
    ),
    checked(
        "16 not looked for",
        12,
        &[FIRST, SECOND, LONG, blind::<16>, ROOM],
    ),
    checked(
        "10 looked for",
        2,
        &[FIRST, SECOND, LONG, JOINED, |call| size(call, 10), ROOM],
    ),
    checked(
        "11 looked for",
        4,
        &[FIRST, SECOND, LONG, JOINED, |call| size(call, 11), ROOM],
    ),
    checked(
        "a buffer of just the length refused",
        81,
        &[FIRST, SECOND, LONG, JOINED, |call| {
            given(call.lent <= call.numbers(), Refusal::nowhere(12))
        }],
    ),
];

/// Wrong in the buffer and the answer.
pub const WRITES: [Rule; 7] = [
    filling("written before 12", 20, 4),
    filling("written before the joined table's checks", 64, 3),
    filling("written before 17", 80, 2),
    filling("written before the second table's checks", 93, 1),
    Rule {
        name: "the rest of the buffer cleared",
        least: 39,
        rest: |rest| rest.fill(0),
        ..RIGHT
    },
    Rule {
        name: "the count of nodes as the answer",
        least: 108,
        answer: |call| call.last() + 1,
        ..RIGHT
    },
    Rule {
        name: "the length of the buffer as the answer",
        least: 39,
        answer: |call| call.lent,
        ..RIGHT
    },
];
