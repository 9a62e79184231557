//! The report of clipped delays (E6) by a wrong rule.

use crate::watched::{Call, Delay, Entry};

pub struct Rule {
    pub name: &'static str,
    /// In so many cases of the default mix, at least, it shows.
    pub least: usize,
    pub report: fn(&Call) -> u32,
}

const fn rule(name: &'static str, least: usize, report: fn(&Call) -> u32) -> Rule {
    Rule {
        name,
        least,
        report,
    }
}

/// Wrong in which amounts are outside 0 to D.
pub const AMOUNTS: [Rule; 17] = [
    rule("an amount of D counted", 300, |call| {
        call.any(|delay| delay.amount < 0 || delay.amount >= delay.d as i32)
    }),
    rule("an amount of 0 counted", 330, |call| {
        call.any(|delay| delay.amount <= 0 || delay.outside())
    }),
    rule("an amount of -1 not counted", 110, |call| {
        call.any(|delay| delay.amount != -1 && delay.outside())
    }),
    rule("an amount of D+1 not counted", 160, |call| {
        call.any(|delay| delay.amount != delay.d as i32 + 1 && delay.outside())
    }),
    rule("amounts above D not counted", 330, |call| {
        call.any(|delay| delay.amount < 0)
    }),
    rule("negative amounts not counted", 240, |call| {
        call.any(|delay| delay.amount > delay.d as i32)
    }),
    rule("D = 0 never counted", 100, |call| {
        call.any(|delay| delay.d > 0 && delay.outside())
    }),
    rule("D = 0 always counted", 95, |call| {
        call.any(|delay| delay.d == 0 || delay.outside())
    }),
    rule("D = 0 by negative amounts alone", 80, |call| {
        call.any(|delay| delay.outside() && (delay.d > 0 || delay.amount < 0))
    }),
    rule("by the low 16 bits", 85, |call| {
        call.any(|delay| u32::from(delay.amount as u16) > delay.d)
    }),
    rule("by the low 16 bits, signed", 85, |call| {
        call.any(|delay| !(0..=delay.d as i32).contains(&i32::from(delay.amount as i16)))
    }),
    rule("by the low 12 bits", 120, |call| {
        call.any(|delay| delay.amount as u32 & 4095 > delay.d)
    }),
    rule("by the absolute value", 120, |call| {
        call.any(|delay| delay.amount.unsigned_abs() > delay.d)
    }),
    rule("the least number not counted", 25, |call| {
        call.any(|delay| delay.amount != i32::MIN && delay.outside())
    }),
    rule("the greatest number not counted", 20, |call| {
        call.any(|delay| delay.amount != i32::MAX && delay.outside())
    }),
    rule("D of 2048 and more taken as negative", 20, |call| {
        call.any(|delay| delay.outside() || delay.d >= 2048)
    }),
    rule("D of 256 and more never counted", 20, |call| {
        call.any(|delay| delay.d < 256 && delay.outside())
    }),
];

/// Wrong in which delays are looked at.
pub const DELAYS: [Rule; 12] = [
    rule("delays that are not worked counted", 90, |call| {
        call.count(|tick| tick.iter().any(Delay::outside))
    }),
    rule("every body worked", 160, |call| {
        call.count(|tick| tick.iter().any(|delay| !inside(delay.unskipped, delay.d)))
    }),
    rule("a body by its own clock alone", 25, |call| {
        call.count(|tick| {
            tick.iter()
                .any(|delay| demanded(delay, delay.clocks.last()))
        })
    }),
    rule("a body by the outermost clock alone", 35, |call| {
        call.count(|tick| {
            tick.iter()
                .any(|delay| demanded(delay, delay.clocks.first()))
        })
    }),
    rule("clocks of 1 alone", 160, |call| {
        call.any(|delay| delay.outside() && delay.clocks.iter().all(|&clock| clock == 1))
    }),
    rule("delays outside all bodies alone", 180, |call| {
        call.any(|delay| delay.clocks.is_empty() && delay.outside())
    }),
    rule("a circuit that is a delay itself alone", 410, |call| {
        call.any(|delay| {
            let alone = delay.above.is_empty() || call.entry == Entry::Run;
            alone && delay.outside()
        })
    }),
    rule("delays in bodies alone", 300, |call| {
        call.any(|delay| !delay.clocks.is_empty() && delay.outside())
    }),
    rule("delays in one body at most", 25, |call| {
        call.any(|delay| delay.clocks.len() < 2 && delay.outside())
    }),
    rule("the first delay alone", 190, |call| {
        call.count(|tick| tick.first().is_some_and(Delay::clips))
    }),
    rule("the delay worked last alone", 170, |call| {
        call.count(|tick| {
            let last = tick.iter().rfind(|delay| delay.worked);
            last.is_some_and(Delay::clips)
        })
    }),
    rule("only where all that are worked are clipped", 240, |call| {
        call.count(|tick| {
            let mut worked = tick.iter().filter(|delay| delay.worked).peekable();
            worked.peek().is_some() && worked.all(Delay::outside)
        })
    }),
];

fn inside(amount: i32, d: u32) -> bool {
    (0..=d as i32).contains(&amount)
}

/// A delay that is taken as worked where one clock over it is a demand, or there is none.
fn demanded(delay: &Delay, clock: Option<&u32>) -> bool {
    clock.is_none_or(|&clock| clock != 0) && !inside(delay.unskipped, delay.d)
}

fn clips(tick: &[Delay]) -> bool {
    tick.iter().any(Delay::clips)
}

/// Wrong in how ticks are counted.
pub const TICKS: [Rule; 19] = [
    rule("clips instead of ticks", 170, |call| {
        let clips = call.ticks.iter().flatten().filter(|delay| delay.clips());
        clips.count() as u32
    }),
    rule("two clips in a tick counted twice", 170, |call| {
        call.right() + call.count(|tick| tick.iter().filter(|delay| delay.clips()).count() > 1)
    }),
    rule("delays instead of ticks", 350, |call| {
        let many = call.ticks.first().map_or(0, Vec::len);
        let ever = |&i: &usize| call.ticks.iter().any(|tick| tick[i].clips());
        (0..many).filter(ever).count() as u32
    }),
    rule("whether at all", 330, |call| call.right().min(1)),
    rule("the first tick alone", 390, |call| {
        call.ticks.first().map_or(0, |tick| u32::from(clips(tick)))
    }),
    rule("the last tick alone", 390, |call| {
        call.ticks.last().map_or(0, |tick| u32::from(clips(tick)))
    }),
    rule("the first tick left out", 390, |call| {
        let later = call.ticks.iter().skip(1);
        later.filter(|tick| clips(tick)).count() as u32
    }),
    rule("the last tick left out", 390, |call| {
        let earlier = call.ticks.iter().rev().skip(1);
        earlier.filter(|tick| clips(tick)).count() as u32
    }),
    rule("from the first clip to the end", 220, |call| {
        let before = call.ticks.iter().take_while(|tick| !clips(tick));
        (call.ticks.len() - before.count()) as u32
    }),
    rule("up to the last clip", 220, |call| {
        let last = call.ticks.iter().rposition(|tick| clips(tick));
        last.map_or(0, |last| last as u32 + 1)
    }),
    rule("clips that follow a clip not counted", 310, |call| {
        let begins = |i: &usize| *i == 0 || !clips(&call.ticks[i - 1]);
        let all = (0..call.ticks.len()).filter(|&i| clips(&call.ticks[i]));
        all.filter(begins).count() as u32
    }),
    rule("between demands the clip of the latest", 100, |call| {
        let mut held = vec![];
        let tick = |tick: &&Vec<Delay>| {
            held.resize(tick.len(), false);
            for (held, delay) in held.iter_mut().zip(*tick) {
                *held = if delay.worked { delay.outside() } else { *held };
            }
            held.contains(&true)
        };
        call.ticks.iter().filter(tick).count() as u32
    }),
    rule("the ticks without a clip", 1240, |call| {
        call.ticks.len() as u32 - call.right()
    }),
    rule("all ticks", 1100, |call| call.ticks.len() as u32),
    rule("on from the call before", 450, |call| {
        call.before + call.right()
    }),
    rule("times the outputs", 180, |call| call.outputs * call.right()),
    rule("a tick too many", 1290, |call| call.right() + 1),
    rule("at most 4095", 3, |call| call.right().min(4095)),
    rule("the low 8 bits", 3, |call| call.right() & 255),
];

/// The report of one entry is 0.
const fn silent<const ENTRY: usize>(name: &'static str, least: usize) -> Rule {
    rule(name, least, |call| {
        let entry = [Entry::Walk, Entry::Probed, Entry::Run][ENTRY];
        call.right() * u32::from(call.entry != entry)
    })
}

/// What comes from one side of the nodes of a kind is lost in a walk.
const fn lost<const KIND: u32, const SIDE: usize>(name: &'static str, least: usize) -> Rule {
    rule(name, least, |call| {
        call.any(|delay| delay.outside() && !delay.above.contains(&(KIND, SIDE)))
    })
}

pub const PLACES: [Rule; 14] = [
    silent::<0>("nothing from a walk", 340),
    silent::<1>("nothing from a walk with probes", 160),
    silent::<2>("nothing from a run", 460),
    lost::<7, 0>("nothing from the left of a sequence", 170),
    lost::<7, 1>("nothing from the right of a sequence", 290),
    lost::<8, 0>("nothing from the left of a parallel", 160),
    lost::<8, 1>("nothing from the right of a parallel", 160),
    lost::<9, 0>("nothing from the left of a split", 55),
    lost::<9, 1>("nothing from the right of a split", 110),
    lost::<10, 0>("nothing from the left of a merge", 75),
    lost::<10, 1>("nothing from the right of a merge", 50),
    lost::<11, 0>("nothing from the left of a recursion", 90),
    lost::<11, 1>("nothing from the right of a recursion", 35),
    lost::<12, 0>("nothing from a body", 140),
];
