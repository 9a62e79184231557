//! The flat code with one rule of E7 wrong.

mod rule;

use crate::found::Found;
use oracle::arity::Arity;
use oracle::engine::Refusal;
use rule::{Entry, Refuses};
pub use rule::{Rule, RIGHT};

/// The first node with a row, as the rows are found.
fn first(found: &Found, row: impl Fn(usize) -> Option<u32>) -> Result<(), Refusal> {
    let mut places = 0..found.nodes.len();
    let refused = places.find_map(|place| Some(Refusal::at(row(place)?, place)));
    refused.map_or(Ok(()), Err)
}

fn three(found: &Found) -> Result<(), Refusal> {
    found.three.map_or(Ok(()), Err)
}

fn nine(found: &Found) -> Result<(), Refusal> {
    let loose = found.loose.map(|loose| Refusal::at(9, loose));
    loose.map_or(Ok(()), Err)
}

/// Row 16 alone.
fn sixteen(found: &Found, refuses: Refuses) -> Result<(), Refusal> {
    first(found, |place| refuses(found, place).then_some(16))
}

/// Rows 4 to 8, and 16 before this one of them.
fn nodes(found: &Found, refuses: Refuses, before: u32) -> Result<(), Refusal> {
    first(found, |place| match found.rows[place] {
        Some(row) if row < before => Some(row),
        _ if refuses(found, place) => Some(16),
        row => row,
    })
}

/// E7: "after 7 and before 8 for the same node".
fn downwards(found: &Found, refuses: Refuses) -> Result<(), Refusal> {
    three(found)?;
    nodes(found, refuses, 8)?;
    nine(found)
}

/// A rule that is wrong in which nodes get 16.
const fn other(name: &'static str, least: usize, refuses: Refuses) -> Rule {
    Rule {
        name,
        least,
        refuses,
        ..RIGHT
    }
}

/// A rule that is wrong in the order of the table's rows.
const fn ordered(
    name: &'static str,
    least: usize,
    order: fn(&Found, Refuses) -> Result<(), Refusal>,
) -> Rule {
    Rule {
        name,
        least,
        order,
        ..RIGHT
    }
}

/// A rule that is wrong in the number or the place.
const fn given(name: &'static str, least: usize, given: fn(&Found, usize) -> Refusal) -> Rule {
    Rule {
        name,
        least,
        given,
        ..RIGHT
    }
}

/// A rule by which rows of a call come before 16.
const fn late(name: &'static str, least: usize, before: &'static [u32]) -> Rule {
    Rule {
        name,
        least,
        before,
        ..RIGHT
    }
}

const fn blind(name: &'static str, least: usize, entry: Entry) -> Rule {
    Rule {
        name,
        least,
        blind: Some(entry),
        ..RIGHT
    }
}

fn bare(side: Option<Arity>) -> bool {
    side.is_some_and(|side| side.is_empty())
}

fn holds(side: Option<Arity>, rule: fn(usize, usize) -> bool) -> bool {
    side.is_some_and(|side| rule(side.inputs, side.outputs))
}

/// A right side of one kind passes.
const fn form<const KIND: u32>(name: &'static str, least: usize) -> Rule {
    other(name, least, |found, place| {
        let right = found.nodes[place].second;
        found.empty(place) && found.nodes[right as usize].kind != KIND
    })
}

/// Wrong in which nodes get 16.
pub const NODES: [Rule; 14] = [
    other("never", 140, |_, _| false),
    other("a right side without inputs", 270, |found, place| {
        found.recursion(place) && holds(found.right(place), |inputs, _| inputs == 0)
    }),
    other("a right side without outputs", 120, |found, place| {
        found.recursion(place) && holds(found.right(place), |_, outputs| outputs == 0)
    }),
    other("a right side of one wire or none", 270, |found, place| {
        found.recursion(place) && holds(found.right(place), |inputs, outputs| inputs + outputs < 2)
    }),
    other("the left side instead of the right", 130, |found, place| {
        found.recursion(place) && bare(found.left(place))
    }),
    other(
        "every composition with an empty right side",
        90,
        |found, place| bare(found.right(place)),
    ),
    other("an ondemand of nothing too", 80, |found, place| {
        found.empty(place) || found.idle(place)
    }),
    other(
        "an ondemand of nothing as the right side too",
        13,
        |found, place| {
            let right = found.nodes[place].second as usize;
            let idle = found.recursion(place) && right < place && found.idle(right);
            found.empty(place) || idle
        },
    ),
    other("at the last node alone", 130, |found, place| {
        found.empty(place) && place + 1 == found.nodes.len()
    }),
    form::<7>("a sequence passes as the right side", 60),
    form::<8>("a parallel passes as the right side", 40),
    form::<9>("a split passes as the right side", 24),
    form::<10>("a merge passes as the right side", 29),
    form::<11>("a recursion passes as the right side", 50),
];

/// Wrong in the order of the table's rows.
pub const ORDERS: [Rule; 7] = [
    ordered("before 3", 15, |found, refuses| {
        match nodes(found, refuses, 8) {
            Err(refused) if refused.number == 16 => Err(refused),
            _ => downwards(found, refuses),
        }
    }),
    ordered("of all nodes before any other row", 80, |found, refuses| {
        three(found)?;
        sixteen(found, refuses)?;
        downwards(found, refuses)
    }),
    ordered("of all nodes before 7", 38, |found, refuses| {
        three(found)?;
        first(found, |place| match found.rows[place] {
            Some(row) if row < 7 => Some(row),
            _ if refuses(found, place) => Some(16),
            _ => None,
        })?;
        downwards(found, refuses)
    }),
    ordered("before 6 at the same node", 23, |found, refuses| {
        three(found)?;
        nodes(found, refuses, 6)?;
        nine(found)
    }),
    ordered("an empty left side too, before 7", 16, |found, refuses| {
        three(found)?;
        first(found, |place| match found.rows[place] {
            Some(7) if found.recursion(place) && bare(found.left(place)) => Some(16),
            Some(row) if row < 8 => Some(row),
            _ if refuses(found, place) => Some(16),
            row => row,
        })?;
        nine(found)
    }),
    ordered("after all nodes, before 9", 50, |found, refuses| {
        three(found)?;
        first(found, |place| found.rows[place])?;
        sixteen(found, refuses)?;
        nine(found)
    }),
    ordered("after 9", 60, |found, refuses| {
        three(found)?;
        first(found, |place| found.rows[place])?;
        nine(found)?;
        sixteen(found, refuses)
    }),
];

/// Wrong in number and place.
pub const GIVEN: [Rule; 9] = [
    given("the place of the right side", 140, |found, place| {
        Refusal::at(16, found.nodes[place].second as usize)
    }),
    given("the place of the left side", 140, |found, place| {
        Refusal::at(16, found.nodes[place].first as usize)
    }),
    given("the place -1", 140, |_, _| Refusal::nowhere(16)),
    given("the place 0", 140, |_, _| Refusal::at(16, 0)),
    given("the next place", 140, |_, place| Refusal::at(16, place + 1)),
    given("the place before", 140, |_, place| {
        Refusal::at(16, place - 1)
    }),
    given("the last such node", 18, |found, place| {
        let mut later = (place..found.nodes.len()).rev();
        Refusal::at(16, later.find(|&place| found.empty(place)).unwrap_or(place))
    }),
    given("the number 17", 140, |_, place| Refusal::at(17, place)),
    given("the number 7", 140, |_, place| Refusal::at(7, place)),
];

/// Wrong in the order of a call's rows, or at an entry.
pub const CALLS: [Rule; 8] = [
    late("after 10 and 11", 18, &[10, 11]),
    late("after 14", 40, &[14]),
    late("after 15", 7, &[15]),
    late("after 12", 50, &[12]),
    blind("not by the check", 140, Entry::Check),
    blind("not by the translator", 80, Entry::Translate),
    blind("not by the walker", 40, Entry::Walk),
    blind("not by the walker with probes", 50, Entry::Probed),
];
