//! Amounts of delays: inside 0 to D, at its ends, and outside. E6: "The delay step shall say with
//! its value whether the amount was outside 0 to D".

use crate::random::Random;

/// How the amounts of a call lie: most calls have ticks in which nothing is clipped, and many have
/// no other.
#[derive(Clone, Copy)]
pub enum Mood {
    Inside,
    Outside,
    /// Outside in so many of a hundred ticks.
    Mixed(usize),
    /// Outside in the first tick alone, in the last alone.
    First,
    Last,
}

pub fn mood(random: &mut Random) -> Mood {
    match random.below(20) {
        0..=6 => Mood::Inside,
        7 | 8 => Mood::Outside,
        9..=11 => Mood::First,
        12..=14 => Mood::Last,
        15 | 16 => Mood::Mixed(10),
        _ => Mood::Mixed(40),
    }
}

impl Mood {
    /// An amount at a tick of so many, for a delay of D.
    pub fn amount(self, random: &mut Random, d: u32, tick: usize, ticks: usize) -> i32 {
        let out = match self {
            Mood::Inside => false,
            Mood::Outside => true,
            Mood::Mixed(percent) => random.percent(percent),
            Mood::First => tick == 0,
            Mood::Last => tick + 1 == ticks,
        };
        amount(random, d, out)
    }
}

/// An amount inside 0 to D or outside.
pub fn amount(random: &mut Random, d: u32, out: bool) -> i32 {
    match out {
        true => outside(random, d),
        false => inside(random, d),
    }
}

fn inside(random: &mut Random, d: u32) -> i32 {
    match random.below(4) {
        0 => 0,
        1 => d as i32,
        _ => random.within(0, d as i32),
    }
}

/// Just outside mostly; else far, or such that the low bits alone would be inside.
fn outside(random: &mut Random, d: u32) -> i32 {
    let d = d as i32;
    if random.percent(65) {
        return random.pick(&[-1, d + 1, d + 1, -2, d + 2]);
    }
    let far = [i32::MIN, i32::MAX, i32::MIN + d, -d - 1, 4096 + d];
    let low = [65536 + d, 65536, -65536, 1 << 24, d - 4096];
    match random.percent(60) {
        true => random.pick(&far),
        false => random.pick(&low),
    }
}
