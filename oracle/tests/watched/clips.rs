//! What the delays of a script's calls show.

use super::{Call, Delay, Reporting};
use oracle::script::{play, Command};
use std::cell::RefCell;

/// What the delays of the accepted calls show, those without ticks left out.
#[derive(Default, Debug)]
pub struct Clips {
    /// Every delay of every call, and those that see an amount outside 0 to D in it.
    pub delays: usize,
    pub outside: usize,
    /// Delays of D = 0, and such that see one.
    pub without_ring: usize,
    pub without_ring_outside: usize,
    /// Delays that see -1, 0, D above 0, D+1, the least number, the greatest.
    pub amounts: [usize; 6],
    /// Calls with a delay that is worked, and those of them whose report is 0.
    pub calls: usize,
    pub silent: usize,
    /// Calls that would have another report, were delays counted that are not worked; and of those
    /// the ones whose report is 0.
    pub idle: usize,
    pub only_idle: usize,
    /// Calls with two clips in a tick; with one in the first tick alone, in the last alone, in the
    /// last not, in every tick of several.
    pub twice: usize,
    pub first: usize,
    pub last: usize,
    pub early: usize,
    pub always: usize,
}

impl Clips {
    fn call(&mut self, call: &Call) {
        let Some(last) = call.ticks.len().checked_sub(1) else {
            return;
        };
        for i in 0..call.ticks[0].len() {
            let worked = call.ticks.iter().map(|tick| &tick[i]);
            let worked: Vec<&Delay> = worked.filter(|delay| delay.worked).collect();
            self.delay(call.ticks[0][i].d, &worked);
        }
        let clips = |tick: &Vec<Delay>| tick.iter().filter(|delay| delay.clips()).count();
        let clips: Vec<usize> = call.ticks.iter().map(clips).collect();
        let at = |tick: usize| clips[tick] > 0;
        let report = call.right() as usize;
        let unworked = call.count(|tick| tick.iter().any(Delay::outside)) as usize;
        self.calls += usize::from(call.any(|_| true) > 0);
        self.silent += usize::from(call.any(|_| true) > 0 && report == 0);
        self.idle += usize::from(unworked > report);
        self.only_idle += usize::from(unworked > 0 && report == 0);
        self.twice += usize::from(clips.iter().any(|&clips| clips > 1));
        self.first += usize::from(last > 0 && at(0) && report == 1);
        self.last += usize::from(last > 0 && at(last) && report == 1);
        self.early += usize::from(report > 0 && !at(last));
        self.always += usize::from(last > 0 && report == last + 1);
    }

    fn delay(&mut self, d: u32, worked: &[&Delay]) {
        let sees = |holds: &dyn Fn(i32) -> bool| {
            usize::from(worked.iter().any(|delay| holds(delay.amount)))
        };
        let most = d as i32;
        let outside = sees(&|amount| amount < 0 || amount > most);
        self.delays += 1;
        self.outside += outside;
        self.without_ring += usize::from(d == 0);
        self.without_ring_outside += outside * usize::from(d == 0);
        let amounts = [-1, 0, most, most + 1, i32::MIN, i32::MAX];
        for (times, wanted) in self.amounts.iter_mut().zip(amounts) {
            *times += sees(&|amount| amount == wanted);
        }
        self.amounts[2] -= sees(&|amount| amount == 0) * usize::from(d == 0);
    }

    pub fn of(commands: &[Command]) -> Clips {
        let seen = RefCell::new(Clips::default());
        let watch = Reporting::new(|call| {
            seen.borrow_mut().call(call);
            call.right()
        });
        play(commands, &watch);
        seen.into_inner()
    }
}
