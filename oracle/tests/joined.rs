//! E8: "Its samples are the composition of the two meanings": a joined table against the two
//! circuits themselves, each with a meaning of its own and wired by the document's sentences, tick
//! by tick. The joined table is not looked at for it.

use oracle::arity::check;
use oracle::circuits::{build, table};
use oracle::engine::Counts;
use oracle::good_cases::{controls, inputs, Circuit};
use oracle::join::join;
use oracle::meaning::Meaning;
use oracle::random::Random;

/// Two circuits, composed.
struct Composition {
    kind: u32,
    left: Meaning,
    right: Meaning,
    /// The inputs of the left and of the right.
    taken: [usize; 2],
    /// What a recursion feeds back, "one tick late".
    late: Vec<u32>,
}

impl Composition {
    fn of(kind: u32, parts: [&[u32]; 2]) -> Composition {
        let taken = parts.map(|part| counts(part).inputs as usize);
        let [left, right] = parts.map(Meaning::of);
        let late = vec![0; taken[1]];
        Composition {
            kind,
            left,
            right,
            taken,
            late,
        }
    }

    fn tick(&mut self, inputs: &[u32], controls: &[u32]) -> Vec<u32> {
        if self.kind == 11 {
            // "Recursion feeds its first q outputs, one tick late, through the right side into the
            // first r inputs of the left, whose other inputs and all outputs are the node's."
            let mut fed = self.right.tick(&self.late, controls);
            fed.extend(inputs);
            let outs = self.left.tick(&fed, controls);
            self.late = outs[..self.taken[1]].to_vec();
            return outs;
        }
        let (first, rest) = inputs.split_at(self.taken[0]);
        let mut beam = self.left.tick(first, controls);
        let wanted = self.taken[1];
        let into = match self.kind {
            8 => {
                beam.extend(self.right.tick(rest, controls));
                return beam;
            }
            9 => beam.iter().copied().cycle().take(wanted).collect(),
            10 => (0..wanted)
                .map(|i| {
                    beam[i..]
                        .iter()
                        .step_by(wanted)
                        .fold(0, |sum: u32, x| sum.wrapping_add(*x))
                })
                .collect(),
            _ => beam,
        };
        self.right.tick(&into, controls)
    }

    /// "A node's cells follow those of all lower-numbered nodes."
    fn cells(&mut self) -> Vec<u32> {
        let mut cells = self.left.cells();
        cells.extend(self.right.cells());
        if self.kind == 11 {
            cells.extend(&self.late);
        }
        cells
    }

    /// How many of the ticks from one on have a clipped delay; for a single tick.
    fn clipped_from(&mut self, tick: usize) -> usize {
        let left = self.left.clipped_from(tick);
        left.max(self.right.clipped_from(tick))
    }
}

fn counts(table: &[u32]) -> Counts {
    check(table).expect("an accepted table").counts
}

/// An accepted circuit, small enough for short tests.
fn part(random: &mut Random) -> Vec<u32> {
    loop {
        let [inputs, outputs] = [0; 2].map(|_: usize| random.below(5));
        let size = random.pick(&[1, 2, 4, 8, 14]);
        let tree = build(random, inputs, outputs, size);
        let part = table(random, &tree);
        if check(&part).is_ok_and(|part| part.counts.cells <= 200) {
            return part;
        }
    }
}

/// Samples, cells and clipped ticks over one history.
fn compare(random: &mut Random, kind: u32, parts: [&[u32]; 2], joined: Vec<u32>) {
    let mut composed = Composition::of(kind, parts);
    let mut meaning = Meaning::of(&joined);
    let circuit = Circuit::of(joined).expect("an accepted table");
    let n = circuit.counts.inputs as usize;
    for _ in 0..1 + random.below(3) {
        let ticks = random.below(9);
        let given = inputs(random, &circuit, ticks);
        let held = controls(random, &circuit);
        for tick in 0..ticks {
            let now = &given[tick * n..(tick + 1) * n];
            let at = meaning.ticks();
            let (want, have) = (composed.tick(now, &held), meaning.tick(now, &held));
            assert_eq!(want, have, "kind {kind}: {parts:?}");
            assert_eq!(composed.clipped_from(at), meaning.clipped_from(at));
        }
        assert_eq!(composed.cells(), meaning.cells(), "kind {kind}: {parts:?}");
    }
}

#[test]
fn composition_of_the_two_meanings() {
    let mut random = Random::new(8);
    let mut accepted = [0; 5];
    while accepted.iter().any(|&times| times < 400) {
        let (first, second) = (part(&mut random), part(&mut random));
        for kind in 7..=11 {
            let mut joined = vec![9; first.len() + second.len() + 3];
            if join(kind, &first, &second, &mut joined).is_ok() {
                accepted[kind as usize - 7] += 1;
                compare(&mut random, kind, [&first, &second], joined);
            }
        }
    }
    println!("{accepted:?}");
}

/// "The result is accepted if and only if the arity rule, the limit of 32 and the feedback check
/// pass at the joining node": by the counts of the two parts alone.
#[test]
fn accepted_by_the_counts() {
    let mut random = Random::new(18);
    for _ in 0..4000 {
        let (first, second) = (part(&mut random), part(&mut random));
        let ([a, b], [c, d]) = [&first, &second]
            .map(|part| {
                let counts = counts(part);
                [counts.inputs, counts.outputs]
            })
            .into();
        let whole = |many: u32, one: u32| match one {
            0 => many == 0,
            _ => many >= one && many % one == 0,
        };
        let refused = [
            (b != c).then_some(7),
            (a + c > 32 || b + d > 32).then_some(8),
            (!whole(c, b)).then_some(7),
            (!whole(b, c)).then_some(7),
            match (a >= d && b >= c, c + d) {
                (false, _) => Some(7),
                (_, 0) => Some(16),
                _ => None,
            },
        ];
        let last = (first.len() + second.len()) / 3;
        for (kind, refused) in (7..).zip(refused) {
            let answer = join(kind, &first, &second, &mut [0; 1536]);
            let answer = answer.map_err(|refused| (refused.number, refused.place));
            let want = match refused {
                None => Ok(3 * last as u32 + 3),
                Some(number) => Err((number, last as i32)),
            };
            assert_eq!(answer, want, "kind {kind}: {first:?} {second:?}");
        }
    }
}
