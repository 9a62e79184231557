//! Samples: "32-bit two's complement whole numbers", and the operations on them.

/// How many inputs each op takes; place 0 is no op. What stands here is an op, and nothing else.
/// E4: "op 10 with three inputs".
const OPERANDS: [usize; 11] = [0, 2, 2, 2, 2, 2, 2, 2, 1, 1, 3];

/// E4's selector.
pub const SELECTOR: u32 = 10;

/// The lowest number above the ops.
pub const BEYOND: u32 = OPERANDS.len() as u32;

/// The ops, in order.
pub fn ops() -> Vec<u32> {
    (1..BEYOND).collect()
}

/// How many inputs an op takes; `None` for a number that is no op.
pub fn operands(op: u32) -> Option<usize> {
    let count = OPERANDS.get(op as usize).copied();
    count.filter(|_| op != 0)
}

/// The table of ops, and E4's selector: "it gives the second when the first is 0, otherwise the
/// third".
pub fn operate(op: u32, inputs: &[i32]) -> i32 {
    match (op, inputs) {
        (1, [x, y]) => x.wrapping_add(*y),
        (2, [x, y]) => x.wrapping_sub(*y),
        (3, [x, y]) => x.wrapping_mul(*y),
        (4, [_, 0]) => 0,
        (4, [x, y]) => x.wrapping_div(*y),
        (5, [_, 0 | -1]) => 0,
        (5, [x, y]) => x % y,
        (6, [x, y]) => i32::from(x < y),
        (7, [x, y]) => i32::from(x == y),
        (8, [x]) => x.wrapping_abs(),
        (9, [x]) => x.wrapping_neg(),
        (SELECTOR, [0, y, _]) => *y,
        (SELECTOR, [_, _, z]) => *z,
        _ => panic!("no op {op} of {} inputs", inputs.len()),
    }
}

/// "A being the second input now, taken as 0 below 0 and as D above D."
pub fn amount(second: i32, d: u32) -> u32 {
    second.clamp(0, d as i32) as u32
}

/// E6: "whether the amount was outside 0 to D".
pub fn clipped(second: i32, d: u32) -> bool {
    second < 0 || second as u32 > d
}
