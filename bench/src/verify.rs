//! Before anything is measured: all implementations give the same samples and reports, and leave the same cells.
use crate::case::{Case, Implementation, Run};
use crate::engine::{self, Block, Worked};
use crate::interpreter;
use crate::probes::{self, Probed};
use crate::random::{self, Random};

/// One block by everyone; the first implementation is the one that the others are held to. Gives its answer.
fn agree(title: &str, implementations: &mut [Implementation], block: &Block) -> Worked {
    let answers: Vec<Worked> = implementations.iter_mut().map(|c| c.play(block)).collect();
    let first = &implementations[0];
    for (other, answer) in implementations.iter().zip(&answers) {
        let name = other.name;
        assert_eq!(*answer, answers[0], "{title}: answer of {name}");
        assert!(other.outputs == first.outputs, "{title}: samples of {name}");
        assert!(other.cells == first.cells, "{title}: cells of {name}");
    }
    answers[0]
}

/// A block with probes: answer, samples and cells are the walker's, and the last probe, of the circuit itself, shows its output.
fn agree_probed(
    case: &Case,
    walked: Worked,
    walker: &Implementation,
    probed: &mut Probed,
    block: &Block,
) {
    let m = case.counts.outputs;
    let title = format!("{}: with probes", case.name);
    assert_eq!(probed.play(block), walked, "{title}, answer");
    assert!(probed.outputs == walker.outputs, "{title}, samples");
    assert!(probed.cells == walker.cells, "{title}, cells");
    let rows = probed.recording.chunks(probes::MOST).take(block.ticks);
    let firsts = walker.outputs.iter().step_by(m);
    let same = rows
        .zip(firsts)
        .all(|(row, first)| row.last() == Some(first));
    assert!(same, "{title}, recording");
}

/// A history in blocks of several lengths, with other controls in each.
pub fn verify(case: &Case) {
    let mut implementations = case.implementations();
    let mut probed = Probed::copies(case, probes::MOST);
    let mut random = Random::new(13);
    let mut from = 0;
    for ticks in [1, 0, 2, 5, 64, 700, 1024] {
        let controls: Vec<u32> = (0..16).map(|_| random.below(3)).collect();
        let block = case.block_from(from, ticks, &controls);
        let walked = agree(&case.name, &mut implementations, &block);
        for probed in &mut probed {
            agree_probed(case, walked, &implementations[12], probed, &block);
        }
        from += ticks;
    }
}

/// Random codes, on cells that hold anything.
pub fn verify_codes(count: u64) {
    for seed in 0..count {
        let mut random = Random::new(seed);
        let code = random::code(&mut random);
        let [n, m, cells] = [0, 1, 3].map(|i| code[i] as usize);
        let ticks = 40;
        let inputs: Vec<u32> = (0..ticks * n).map(|_| random.edge()).collect();
        let controls: Vec<u32> = (0..16).map(|_| random.below(3)).collect();
        let cells: Vec<u32> = (0..cells)
            .map(|_| random.below(12).wrapping_sub(2))
            .collect();
        let one = |name, run: Run| Implementation {
            name,
            program: &code,
            run,
            cells: cells.clone(),
            outputs: vec![0; ticks * m],
        };
        let mut implementations = [
            one("runner", engine::run::<0>),
            one("C", engine::run_in_c::<0>),
            one("Rust", interpreter::run::<0>),
        ];
        let block = Block {
            ticks,
            inputs: &inputs,
            controls: &controls,
        };
        agree(&format!("code {seed}"), &mut implementations, &block);
    }
}
