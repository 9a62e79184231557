//! The meaning against the flat code: two ways to the same samples, cells and reports.

mod flat;

use flat::Flat;
use oracle::arity::check;
use oracle::flat::interpret;
use oracle::generate::generate;
use oracle::good_cases::{circuit, controls, inputs, usual_size};
use oracle::meaning::Meaning;
use oracle::random::Random;
use oracle::script::{expected, play};
use oracle::translate::code;

#[test]
fn scripts() {
    for seed in 1..4 {
        let commands = generate(seed, 1500);
        let (want, have) = (expected(&commands), play(&commands, &Flat));
        for (want, have) in want.lines().zip(have.lines()) {
            assert_eq!(want, have, "seed {seed}");
        }
        assert!(want == have);
    }
}

/// Every circuit, tick by tick and in blocks cut at random, with controls that change.
#[test]
fn circuits() {
    let mut random = Random::new(77);
    for _ in 0..4000 {
        let size = usual_size(&mut random);
        let circuit = circuit(&mut random, size);
        let checked = check(&circuit.table).expect("an accepted table");
        let code = code(&circuit.table, &checked);
        let mut meaning = Meaning::of(&circuit.table);
        let mut cells = vec![0; circuit.counts.cells as usize];
        let n = circuit.counts.inputs as usize;
        let mut reported = 0;
        for _ in 0..random.below(7) {
            let ticks = random.below(12);
            let given = inputs(&mut random, &circuit, ticks);
            let held = controls(&mut random, &circuit);
            let mut out = vec![9; ticks * circuit.counts.outputs as usize];
            reported += interpret(&code, &given, &held, &mut cells, &mut out, ticks);
            let want: Vec<u32> = (0..ticks)
                .flat_map(|tick| meaning.tick(&given[tick * n..(tick + 1) * n], &held))
                .collect();
            assert_eq!(out, want, "{:?}", circuit.table);
            assert_eq!(cells, meaning.cells(), "{:?}", circuit.table);
            assert_eq!(reported as usize, meaning.clipped(), "{:?}", circuit.table);
        }
    }
}
