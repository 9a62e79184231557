//! Benchmarks of the proved engine. Prints Markdown.
mod case;
mod circuits;
mod engine;
mod interpreter;
mod jobs;
mod joins;
mod machine;
mod measure;
mod probes;
mod random;
mod report;
mod verify;

use case::Case;

/// The sizes of the family, in nodes.
const SIZES: [usize; 7] = [8, 16, 32, 64, 128, 256, 512];

fn main() {
    let cases: Vec<Case> = circuits::all().into_iter().map(Case::new).collect();
    let family = SIZES.map(|nodes| Case::new(circuits::family(nodes)));
    cases.iter().chain(&family).for_each(verify::verify);
    verify::verify_codes(1000);
    report::print(&cases, &family, &joins::all());
}
