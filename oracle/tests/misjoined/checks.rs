//! The checks of a join, right and wrong.

use super::rule::{Call, Check, RIGHT};
use oracle::arity::check;
use oracle::engine::Refusal;

/// The right checks.
pub const FIRST: Check = |call| check(call.first).map(drop);
pub const SECOND: Check = |call| check(call.second).map(drop);
pub const LONG: Check = above::<512>;
pub const JOINED: Check = |call| check(&RIGHT.drawn(call)).map(drop);
pub const ROOM: Check = |call| given(call.lent < call.numbers(), Refusal::nowhere(12));

pub fn given(refused: bool, refusal: Refusal) -> Result<(), Refusal> {
    match refused {
        true => Err(refusal),
        false => Ok(()),
    }
}

/// 17 above so many nodes.
pub fn above<const MOST: usize>(call: &Call) -> Result<(), Refusal> {
    given(call.last() + 1 > MOST, Refusal::nowhere(17))
}

/// 17 with a place.
pub fn long_at<const PLACE: usize>(call: &Call) -> Result<(), Refusal> {
    LONG(call).map_err(|refused| Refusal::at(refused.number, PLACE))
}

/// The joined table's checks without its row 3: what they come to where both tables are accepted.
pub fn node(call: &Call) -> Result<(), Refusal> {
    let rows = call.node();
    rows.map_err(|row| Refusal::at(row, call.last()))
}

/// The same with one row that is not looked for.
pub fn blind<const ROW: u32>(call: &Call) -> Result<(), Refusal> {
    match call.node() {
        Err(row) if row == ROW => Ok(()),
        _ => node(call),
    }
}

/// The same with the place of another node.
pub fn placed(call: &Call, place: fn(&Call) -> i32) -> Result<(), Refusal> {
    node(call).map_err(|refused| Refusal {
        place: place(call),
        ..refused
    })
}

/// The kind of the joining node alone: 4 or 5.
pub fn kind(call: &Call) -> Result<(), Refusal> {
    let row = if matches!(call.kind, 1..=12) { 5 } else { 4 };
    let other = !matches!(call.kind, 7..=11);
    given(other, Refusal::at(row, call.last()))
}

/// A number for every kind other than 7 to 11.
pub fn other_kind<const ROW: u32>(call: &Call) -> Result<(), Refusal> {
    kind(call).map_err(|refused| Refusal {
        number: ROW,
        ..refused
    })
}

/// The second's refusal with another place.
pub fn second_at(call: &Call, place: fn(&Call, i32) -> i32) -> Result<(), Refusal> {
    SECOND(call).map_err(|refused| Refusal {
        place: place(call, refused.place),
        ..refused
    })
}

/// A size of the joined table, which nobody asked for.
pub fn size(call: &Call, row: u32) -> Result<(), Refusal> {
    let counts = check(&RIGHT.drawn(call))?.counts;
    let above = match row {
        10 => counts.instructions > 2048,
        _ => counts.cells > 16384,
    };
    given(above, Refusal::nowhere(row))
}
