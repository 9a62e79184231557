//! What is measured.
use crate::case::{Case, TICKS};
use crate::engine;
use crate::joins::Pair;
use crate::measure::{Call, Job, interleaved};
use crate::probes::{self, Probed};
use std::hint::black_box;
use std::time::Duration;

/// The block of a walk that is measured beside blocks of 4,096 ticks: shorter, so that it is tried more often.
const WALK: usize = 256;

/// Nanoseconds a tick, or a call of 0 ticks, each in four copies.
pub struct Times {
    pub runner: [f64; 4],
    pub c: [f64; 4],
    pub rust: [f64; 4],
    pub walker: [f64; 4],
}

impl Times {
    pub fn new(line: &[f64]) -> Times {
        let four = |from: usize| [0, 1, 2, 3].map(|k| line[from + k]);
        Times {
            runner: four(0),
            c: four(4),
            rust: four(8),
            walker: four(12),
        }
    }
}

/// All implementations in blocks of so many ticks, the walker in blocks of its own.
fn per_tick(case: &Case, ticks: usize, walk: usize, lasting: Duration) -> Vec<f64> {
    let (block, walked) = (case.block(ticks), case.block(walk));
    let calls = case.implementations().map(|mut implementation| {
        let walks = implementation.name.starts_with("walker");
        let block = if walks { &walked } else { &block };
        Box::new(move || _ = black_box(implementation.play(block))) as Call
    });
    let mut line = interleaved(lasting, calls).to_vec();
    for ns in &mut line[..12] {
        *ns /= ticks.max(1) as f64;
    }
    for ns in &mut line[12..] {
        *ns /= walk.max(1) as f64;
    }
    line
}

pub fn long_blocks(case: &Case, lasting: Duration) -> Job<'_> {
    Box::new(move || per_tick(case, TICKS, WALK, lasting))
}

pub fn blocks(case: &Case, ticks: usize, lasting: Duration) -> Job<'_> {
    Box::new(move || per_tick(case, ticks, ticks, lasting))
}

/// Nanoseconds a tick of the walker, then with probes, of which there is none, and with the most, each in four copies.
pub fn probes(case: &Case, lasting: Duration) -> Job<'_> {
    Box::new(move || {
        let block = &case.block(WALK);
        let walks = case
            .walkers()
            .map(|mut walker| Box::new(move || _ = black_box(walker.play(block))) as Call);
        let probed = [0, probes::MOST].map(|count| {
            Probed::copies(case, count)
                .map(|mut probed| Box::new(move || _ = black_box(probed.play(block))) as Call)
        });
        let calls: Vec<Call> = walks
            .into_iter()
            .chain(probed.into_iter().flatten())
            .collect();
        let Ok(calls) = <[Call; 12]>::try_from(calls) else {
            unreachable!("three in four copies")
        };
        interleaved(lasting, calls)
            .map(|ns| ns / WALK as f64)
            .to_vec()
    })
}

/// The column file of a table.
fn file(table: &[u32]) -> Vec<u8> {
    let lines = table.chunks(3).enumerate().map(|(i, node)| {
        let [kind, first, second] = [0, 1, 2].map(|k| node[k] as i32);
        format!("{i:4}{kind:12}{first:12}{second:12}\n")
    });
    lines.collect::<String>().into_bytes()
}

/// Nanoseconds of a reading, a check and a translation.
pub fn table(case: &Case, lasting: Duration) -> Job<'_> {
    let file = file(&case.table);
    Box::new(move || {
        let mut table = vec![0; case.table.len()];
        assert_eq!(engine::read(&file, &mut table), case.nodes());
        assert!(
            table == case.table,
            "{}: the table that was read",
            case.name
        );
        let mut code = case.code.clone();
        let calls: [Call; 3] = [
            Box::new(|| _ = black_box(engine::read(&file, &mut table))),
            Box::new(|| _ = black_box(engine::check(&case.table))),
            Box::new(|| _ = black_box(engine::translate(&case.table, &mut code))),
        ];
        interleaved(lasting, calls).to_vec()
    })
}

/// Nanoseconds of a join, and of the check of what is joined.
pub fn join(pair: &Pair, lasting: Duration) -> Job<'_> {
    Box::new(move || {
        let mut joined = pair.joined.clone();
        let calls: [Call; 2] = [
            Box::new(|| _ = black_box(pair.join(&mut joined))),
            Box::new(|| _ = black_box(engine::check(&pair.joined))),
        ];
        interleaved(lasting, calls).to_vec()
    })
}
