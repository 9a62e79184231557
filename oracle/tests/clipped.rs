//! Clipped delays (E6): by hand, and the reports of walks and runs against the meaning's number.

use oracle::arity::check;
use oracle::circuits::sample;
use oracle::engine::{Block, Probes, Refusal, Worked};
use oracle::entries::Past;
use oracle::good_cases::{circuit, controls, inputs, usual_size, Circuit};
use oracle::meaning::Meaning;
use oracle::random::Random;
use oracle::samples::clipped;
use oracle::translate::code;

fn words(numbers: &[i32]) -> Vec<u32> {
    numbers.iter().map(|&number| number as u32).collect()
}

fn block<'a>(ticks: usize, inputs: &'a [u32], controls: &'a [u32]) -> Block<'a> {
    Block {
        ticks: ticks as u32,
        inputs,
        controls,
    }
}

/// A circuit with its cells, walked and run, and what is known of both memories.
struct Played {
    circuit: Circuit,
    code: Vec<u32>,
    pasts: [Past; 3],
    cells: [Vec<u32>; 3],
}

impl Played {
    fn new(circuit: Circuit) -> Played {
        let checked = check(&circuit.table).expect("an accepted table");
        let cells = vec![7; circuit.counts.cells as usize];
        Played {
            code: code(&circuit.table, &checked),
            pasts: Default::default(),
            cells: [cells.clone(), cells.clone(), cells],
            circuit,
        }
    }

    fn load(&mut self) {
        let named = self.circuit.counts.cells;
        for (past, cells) in self.pasts.iter_mut().zip(&mut self.cells) {
            past.load(named, cells).expect("a load");
        }
    }

    /// The reports of a walk, a walk with probes and a run of a block.
    fn reports(&mut self, block: &Block) -> [u32; 3] {
        let samples = block.ticks * self.circuit.counts.outputs;
        let table = &self.circuit.table;
        let mut out = vec![9; samples as usize];
        let [walked, probed, ran] = &mut self.pasts;
        let [first, second, third] = &mut self.cells;
        let mut none = Probes {
            named: &[],
            latest: &mut [],
            recording: &mut [],
        };
        let answers = [
            walked.walk(table, block, first, &mut out),
            probed.walk_probed(table, block, second, &mut out, &mut none),
            ran.run(&self.code, Some(table), block, third, &mut out),
        ];
        answers.map(|answer| {
            let worked = answer.expect("an accepted call");
            assert_eq!(worked.samples, samples);
            worked.clipped
        })
    }
}

/// What a table reports after a load, block by block, by each entry.
fn reported(table: &[i32], blocks: &[&[i32]]) -> Vec<u32> {
    let circuit = Circuit::of(words(table)).expect("an accepted table");
    let n = circuit.counts.inputs as usize;
    let mut played = Played::new(circuit);
    played.load();
    let report = |given: &&[i32]| {
        let reports = played.reports(&block(given.len() / n, &words(given), &[0; 16]));
        assert_eq!(reports, [reports[0]; 3]);
        reports[0]
    };
    blocks.iter().map(report).collect()
}

/// "outside 0 to D"
#[test]
fn amounts() {
    for d in [0, 1, 3, 4094, 4095] {
        let most = d as i32;
        let outside = [
            -1,
            most + 1,
            i32::MIN,
            i32::MAX,
            i32::MIN + most,
            65536 + most,
        ];
        assert!(outside.iter().all(|&amount| clipped(amount, d)));
        assert!([0, most / 2, most]
            .iter()
            .all(|&amount| !clipped(amount, d)));
        let table = [4, most, 0];
        for amount in outside {
            assert_eq!(reported(&table, &[&[5, amount]]), [1]);
        }
        assert_eq!(reported(&table, &[&[5, 0, 6, most, 7, most / 2]]), [0]);
    }
}

/// "in how many ticks of the call at least one delay that was worked in that tick was clipped"
#[test]
fn ticks_of_the_call() {
    // D = 1 and D = 2 side by side: none, the first, the second, both
    let two = [4, 1, 0, 4, 2, 0, 8, 0, 1];
    let (none, first) = ([5, 1, 5, 2], [5, 2, 5, 2]);
    let (second, both) = ([5, 1, 5, 3], [5, -1, 5, -1]);
    let ticks = [both, none, first, none, second, none].concat();
    assert_eq!(reported(&two, &[&ticks]), [3]);
    let blocks: [&[i32]; 5] = [
        &ticks[..4],
        &ticks[4..12],
        &[],
        &ticks[12..20],
        &ticks[20..],
    ];
    assert_eq!(reported(&two, &blocks), [1, 1, 0, 1, 0]);
}

/// "A delay in a body without demand does not count."
#[test]
fn demands() {
    let body = [4, 1, 0, 12, 0, 0];
    assert_eq!(
        reported(&body, &[&[0, 5, 9, 1, 5, 1, -1, 5, 9, 0, 5, -1]]),
        [1]
    );
    let bodies = [4, 1, 0, 12, 0, 0, 12, 1, 0];
    let ticks = [[0, 1, 5, 9], [1, 0, 5, 9], [0, 0, 5, 9], [2, -1, 5, 9]];
    assert_eq!(reported(&bodies, &[&ticks.concat()]), [1]);
}

/// A delay on either side of a recursion: D = 1 on the left, its amount the input; D = 0 on the
/// right, its amount 1.
#[test]
fn feedback() {
    let right = [[5, 0, 0], [1, 1, 0], [8, 1, 2], [4, 0, 0], [7, 3, 4]].concat();
    let table = [&[4, 1, 0][..], &right, &[11, 0, 5]].concat();
    assert_eq!(reported(&table, &[&[0, 1, 2]]), [3]);
    let table = [4, 1, 0, 5, 0, 0, 11, 0, 1];
    assert_eq!(reported(&table, &[&[0, 1, 2]]), [1]);
}

/// A code that nobody has translated: a skipped delay, and two on the same cells.
#[test]
fn codes() {
    let skip = words(&[2, 1, 2, 2, 7, 0, 1, 0, 0, 0, 4, 1, 1, 0, 1, 0, 3]);
    let shared = words(&[2, 1, 2, 2, 4, 0, 1, 0, 1, 0, 4, 0, 1, 0, 1, 0, 3]);
    let given = words(&[0, 5, 1, 5, 1, 1, 0, -1]);
    for (code, clipped) in [(skip, 1), (shared, 3)] {
        let (mut cells, mut out) = ([3; 2], [9; 4]);
        let block = block(4, &given, &[0; 16]);
        let answer = Past::default().run(&code, None, &block, &mut cells, &mut out);
        let samples = 4;
        assert_eq!(answer, Ok(Worked { samples, clipped }));
    }
}

/// "over several walks or runs of one table since a load, .. the reports add up to the meaning's
/// number over all their ticks", which every tick raises by 1 at most.
#[test]
fn law() {
    let mut random = Random::new(66);
    let (mut histories, mut clipped, mut partly) = (0, 0, 0);
    for _ in 0..4000 {
        let size = usual_size(&mut random);
        let mut played = Played::new(circuit(&mut random, size));
        let mut meaning = Meaning::of(&played.circuit.table);
        let n = played.circuit.counts.inputs as usize;
        played.load();
        let mut sums = [0; 3];
        for _ in 0..1 + random.below(5) {
            let ticks = random.below(9);
            let given = inputs(&mut random, &played.circuit, ticks);
            let held = controls(&mut random, &played.circuit);
            for now in given
                .chunks(n.max(1))
                .chain(vec![&[][..]; ticks])
                .take(ticks)
            {
                let before = meaning.clipped();
                meaning.tick(now, &held);
                assert!(meaning.clipped() - before <= 1);
            }
            let reports = played.reports(&block(ticks, &given, &held));
            sums = [0, 1, 2].map(|i| sums[i] + reports[i] as usize);
            assert_eq!(sums, [meaning.clipped(); 3], "{:?}", played.circuit.table);
            // A refused call has no report, and changes none.
            let (past, table) = (&mut played.pasts[0], &played.circuit.table);
            let wrong = block(4097, &given, &held);
            let refused = past.walk(table, &wrong, &mut played.cells[0], &mut []);
            assert_eq!(refused, Err(Refusal::nowhere(14)));
        }
        histories += 1;
        clipped += usize::from(sums[0] > 0);
        partly += usize::from(sums[0] > 0 && sums[0] < meaning.ticks());
    }
    println!("{histories} histories, {clipped} clipped, {partly} of them not at every tick");
    assert!(5 * clipped > histories && 2 * partly > clipped);
}

/// Whatever the cells hold: walk, walk with probes and run of the translation report alike, and
/// the reports of the ticks one by one add up to that of the block.
#[test]
fn any_cells() {
    let mut random = Random::new(67);
    let mut clipped = 0;
    for _ in 0..3000 {
        let size = usual_size(&mut random);
        let mut played = Played::new(circuit(&mut random, size));
        let cells = played.cells[0].len();
        let any: Vec<u32> = (0..cells).map(|_| sample(&mut random) as u32).collect();
        played.cells = [any.clone(), any.clone(), any.clone()];
        let ticks = 1 + random.below(8);
        let given = inputs(&mut random, &played.circuit, ticks);
        let held = controls(&mut random, &played.circuit);
        let reports = played.reports(&block(ticks, &given, &held));
        assert_eq!(reports, [reports[0]; 3]);
        played.cells = [any.clone(), any.clone(), any];
        let n = played.circuit.counts.inputs as usize;
        let one = |tick: usize| {
            let now = &given[tick * n..(tick + 1) * n];
            played.reports(&block(1, now, &held))[0]
        };
        assert_eq!((0..ticks).map(one).sum::<u32>(), reports[0]);
        clipped += usize::from(reports[0] > 0);
    }
    assert!(5 * clipped > 3000, "{clipped}");
}
