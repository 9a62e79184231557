//! The flat code with one rule of E5 wrong.

mod call;

pub use call::Rule;
use call::{rule, Call};
use oracle::engine::{Refusal, Worked};
use oracle::flat::MOST_CELLS;
use oracle::probes::MOST_PROBES;

pub const RIGHT: Rule = rule("right", 0, Call::right);

/// Wrong in what is recorded and written.
pub const RECORDED: [Rule; 17] = [
    rule("the list starts at 0 with each call", 110, |call| {
        if call.answer().is_ok() {
            call.latest.fill(0);
        }
        call.right()
    }),
    rule("the list is not written", 200, |call| {
        let before = call.latest.clone();
        let answer = call.right();
        call.latest = before;
        answer
    }),
    rule("the list before the tick", 200, |call| {
        let (many, before) = (call.many(), call.latest.clone());
        let answer = call.right()?;
        if call.ticks > 0 {
            let all = &mut call.recording[..call.ticks as usize * many];
            all.rotate_right(many);
            all[..many].copy_from_slice(&before[..many]);
        }
        Ok(answer)
    }),
    rule("0 where a tick does not reach a wire", 150, |call| {
        call.shown(|seen| Some(seen.right().unwrap_or(0)))
    }),
    rule("every wire at every tick", 150, |call| {
        call.shown(|seen| Some(seen.register()))
    }),
    rule("an ondemand at its demands alone", 30, |call| {
        call.shown(|seen| {
            let inside = match seen.node.kind {
                12 => seen.places[seen.node.first as usize].skip,
                _ => seen.places[seen.wire.node].skip,
            };
            seen.reached(inside).then(|| seen.register())
        })
    }),
    rule("a body by its own clock alone", 30, |call| {
        call.shown(|seen| {
            let skip = seen.places[seen.wire.node].skip;
            let demand = skip.is_none_or(|skip| seen.clock(skip) != 0);
            demand.then(|| seen.register())
        })
    }),
    rule("the first output, whichever is named", 110, |call| {
        call.shown(|seen| {
            let first = seen.places[seen.wire.node].outputs[0];
            seen.right().map(|_| seen.trace.registers[first as usize])
        })
    }),
    rule("in the order of the nodes", 130, |call| {
        let mut order: Vec<usize> = (0..call.many()).collect();
        order.sort_by_key(|&i| [call.named[2 * i], call.named[2 * i + 1]]);
        let answer = call.right()?;
        for row in call.rows() {
            let before = row.to_vec();
            order.iter().zip(row).for_each(|(&i, to)| *to = before[i]);
        }
        Ok(answer)
    }),
    rule("probe by probe", 170, |call| {
        let answer = call.right()?;
        let (many, before) = (call.many(), call.recording.clone());
        let ticks = call.ticks as usize;
        for (at, number) in call.recording[..ticks * many].iter_mut().enumerate() {
            *number = before[at % ticks * many + at / ticks];
        }
        Ok(answer)
    }),
    rule("a wire that is named again is not set", 120, |call| {
        let (again, before) = (call.again(), call.latest.clone());
        let answer = call.right()?;
        for (i, _) in again {
            call.rows().for_each(|row| row[i] = before[i]);
            call.latest[i] = before[i];
        }
        Ok(answer)
    }),
    rule("a wire that is named again shows the first's", 30, |call| {
        let again = call.again();
        let answer = call.right()?;
        for (i, first) in again {
            call.rows().for_each(|row| row[i] = row[first]);
            call.latest[i] = call.latest[first];
        }
        Ok(answer)
    }),
    rule("the cells are not written", 190, |call| {
        let before = call.cells.clone();
        let answer = call.right();
        call.cells = before;
        answer
    }),
    rule("the list past the needed part set to 0", 50, |call| {
        let answer = call.right()?;
        let many = call.many();
        call.latest[many..].fill(0);
        Ok(answer)
    }),
    rule("the recording past the needed part set to 0", 110, |call| {
        let answer = call.right()?;
        let needed = call.ticks as usize * call.many();
        call.recording[needed..].fill(0);
        Ok(answer)
    }),
    rule("a refused call sets the list to 0", 150, |call| {
        call.right().inspect_err(|_| call.latest.fill(0))
    }),
    rule("the answer counts what is recorded", 200, |call| {
        let answer = call.right()?;
        Ok(Worked {
            samples: call.ticks * call.many() as u32,
            ..answer
        })
    }),
];

/// The probes of nodes of one kind are not set.
const fn unset<const KIND: u32>(name: &'static str, least: usize) -> Rule {
    rule(name, least, |call| {
        call.shown(|seen| seen.right().filter(|_| seen.node.kind != KIND))
    })
}

/// Every kind but the cut.
pub const KINDS: [Rule; 11] = [
    unset::<1>("numbers are not set", 55),
    unset::<2>("controls are not set", 25),
    unset::<3>("operations are not set", 50),
    unset::<4>("delays are not set", 14),
    unset::<5>("cables are not set", 80),
    unset::<7>("sequences are not set", 55),
    unset::<8>("parallels are not set", 130),
    unset::<9>("splits are not set", 28),
    unset::<10>("merges are not set", 10),
    unset::<11>("recursions are not set", 22),
    unset::<12>("ondemands are not set", 110),
];

/// Wrong in what is refused, and in which order.
pub const REFUSED: [Rule; 18] = [
    rule("15 before the table's", 15, |call| {
        let good = call.named.len().is_multiple_of(2) && call.many() <= MOST_PROBES;
        match call.checked().is_err() && !good {
            true => Err(Refusal::nowhere(15)),
            false => call.right(),
        }
    }),
    rule("15 before 11", 6, |call| {
        let checked = call.checked()?;
        let many = checked.counts.cells as usize > MOST_CELLS;
        match many && !call.names(&checked) {
            true => Err(Refusal::nowhere(15)),
            false => call.right(),
        }
    }),
    rule("15 before 14", 30, |call| {
        let answer = call.right();
        let wrong = answer == Err(Refusal::nowhere(14)) && !call.names(&call.checked()?);
        match wrong {
            true => Err(Refusal::nowhere(15)),
            false => answer,
        }
    }),
    rule("12 before 15", 100, |call| {
        let answer = call.right();
        match answer == Err(Refusal::nowhere(15)) && call.short() {
            true => Err(Refusal::nowhere(12)),
            false => answer,
        }
    }),
    rule("an odd count taken", 30, |call| {
        call.named.truncate(call.many() * 2);
        call.right()
    }),
    rule("17 probes taken", 14, |call| {
        if call.many() == MOST_PROBES + 1 {
            call.named.truncate(2 * MOST_PROBES);
        }
        call.right()
    }),
    rule("more than 15 probes refused", 40, |call| {
        call.unless(15, |call| call.many() > 15)
    }),
    rule("more than 16 numbers refused", 70, |call| {
        call.unless(15, |call| call.named.len() > MOST_PROBES)
    }),
    rule("no probe refused", 17, |call| {
        call.unless(15, |call| call.named.is_empty())
    }),
    rule("a wire named twice refused", 140, |call| {
        call.unless(15, |call| !call.again().is_empty())
    }),
    rule("the node behind the last taken", 15, |call| {
        call.rename(|node, output, checked| {
            let nodes = checked.arities.len() as u32;
            [node - u32::from(node == nodes), output]
        })
    }),
    rule("the output behind the last taken", 20, |call| {
        call.rename(|node, output, checked| {
            let arity = checked.arities.get(node as usize);
            let behind = arity.is_some_and(|arity| arity.outputs == output as usize);
            [node, output - u32::from(behind && output > 0)]
        })
    }),
    rule("a cut taken", 12, |call| {
        call.rename(|node, output, checked| {
            let arity = checked.arities.get(node as usize);
            let cut = arity.is_some_and(|arity| arity.outputs == 0);
            let other = checked.arities.iter().position(|arity| arity.outputs > 0);
            match other {
                Some(other) if cut && output == 0 => [other as u32, 0],
                _ => [node, output],
            }
        })
    }),
    rule("a negative node taken", 11, |call| {
        call.rename(|node, output, _| [node * u32::from(node as i32 >= 0), output])
    }),
    rule("a negative output taken", 7, |call| {
        call.rename(|node, output, _| [node, output * u32::from(output as i32 >= 0)])
    }),
    rule("the length of the list not looked at", 35, |call| {
        call.latest.resize(call.latest.len().max(call.many()), 0);
        call.right()
    }),
    rule("the length of the recording not looked at", 27, |call| {
        let needed = call.ticks.min(4096) as usize * call.many();
        call.recording.resize(call.recording.len().max(needed), 9);
        call.right()
    }),
    rule("no list needed for 0 ticks", 9, |call| {
        if call.ticks == 0 {
            call.latest.resize(call.latest.len().max(call.many()), 0);
        }
        call.right()
    }),
];
