//! The tables, in Markdown.
use crate::case::Case;
use crate::jobs::{self, Times};
use crate::joins::Pair;
use crate::machine;
use crate::measure::{Job, passes};
use std::time::Duration;

/// The lengths of blocks, in ticks.
const BLOCKS: [usize; 8] = [0, 1, 4, 16, 64, 256, 1024, 4096];

/// How often everything is measured.
const PASSES: u32 = 8;

/// The heading of a section, its text, and the columns of its table, the first of names, the others of numbers.
fn heading(title: &str, text: &str, columns: &str) {
    let numbers = columns.matches(" | ").count();
    println!("\n## {title}\n\n{text}\n");
    println!("| {columns} |\n|---{}|", "|---:".repeat(numbers));
}

fn line(name: &str, values: impl IntoIterator<Item = String>) {
    let values: Vec<String> = values.into_iter().collect();
    println!("| {name} | {} |", values.join(" | "));
}

/// Three digits that count.
fn digits(x: f64) -> String {
    match x {
        _ if x < 9.995 => format!("{x:.2}"),
        _ if x < 99.95 => format!("{x:.1}"),
        _ => format!("{x:.0}"),
    }
}

/// The least and the greatest.
fn range(values: [f64; 4]) -> String {
    let least = values.into_iter().fold(f64::INFINITY, f64::min);
    let greatest = values.into_iter().fold(0.0, f64::max);
    format!("{} to {}", digits(least), digits(greatest))
}

fn mean(values: [f64; 4]) -> f64 {
    values.iter().sum::<f64>() / 4.0
}

fn title() {
    println!("# Performance\n");
    println!(
        "Made by `bench/run`. Each number is the least processor time of many calls. Those that are compared take \
         turns in one process, so that other load on the machine hits all alike. A load clears the cells before the \
         first call, and they go on from call to call; all buffers are warm.\n\n\
         The speed of an interpreter depends on the alignment that the linker gives its code. Runner, C and walker \
         are measured in four copies, 0, 16, 32 and 48 bytes after a multiple of 64; Rust in four as they come; the \
         others in one. Where one number is given it is the mean of the four.\n"
    );
    machine::print();
}

fn circuits(cases: &[Case]) {
    let text = "Before the measurement, runner, walker, with probes and without, and both hand-written interpreters gave \
                the same samples, reports and cells on each circuit, over several blocks; runner and interpreters also on 1,000 \
                random codes.";
    let columns = "circuit | nodes | inputs | outputs | instructions | cells";
    heading("Circuits", text, columns);
    for case in cases {
        let c = &case.counts;
        let values = [case.nodes(), c.inputs, c.outputs, c.instructions, c.cells];
        line(&case.name, values.map(|x| x.to_string()));
    }
}

fn runners(cases: &[Case], lines: &[Vec<f64>]) {
    let text = "Nanoseconds per instruction of the code and tick, in blocks of 4,096 ticks. Skipped instructions \
                count. The last columns have the least and the greatest of the four copies.";
    let columns = "circuit | runner | C | Rust | runner / C | runner / Rust | runner, range | C, range | Rust, range";
    heading("Runner, C and Rust", text, columns);
    for (case, values) in cases.iter().zip(lines) {
        let times = Times::new(values);
        let count = case.counts.instructions as f64;
        let runner = times.runner.map(|ns| ns / count);
        let c = times.c.map(|ns| ns / count);
        let rust = times.rust.map(|ns| ns / count);
        let ratios = [mean(runner) / mean(c), mean(runner) / mean(rust)];
        let numbers = [mean(runner), mean(c), mean(rust)]
            .into_iter()
            .chain(ratios);
        let ranges = [runner, c, rust].map(range);
        line(&case.name, numbers.map(digits).chain(ranges));
    }
}

fn walkers(cases: &[Case], lines: &[Vec<f64>]) {
    let text = "Nanoseconds; the walker in blocks of 256 ticks, the runner of 4,096. Nodes of a body without demand \
                count.";
    let columns =
        "circuit | walker per tick | walker per node and tick | runner per tick | walker / runner";
    heading("Walker and runner", text, columns);
    for (case, values) in cases.iter().zip(lines) {
        let times = Times::new(values);
        let (walker, runner) = (mean(times.walker), mean(times.runner));
        let per_node = walker / case.nodes() as f64;
        let numbers = [walker, per_node, runner, walker / runner];
        line(&case.name, numbers.map(digits));
    }
}

fn probes(cases: &[Case], lines: &[Vec<f64>]) {
    let text = "Nanoseconds per tick, in blocks of 256 ticks: the walk, the walk with probes where none is named, and \
                with 16, each of a node's first output, evenly over the nodes that have one. Where these are fewer, some \
                are named more than once.";
    let columns = "circuit | walk | no probe | 16 probes | no probe / walk | 16 probes / walk";
    heading("Walker with probes", text, columns);
    for (case, times) in cases.iter().zip(lines) {
        let [walk, none, most] = [0, 4, 8].map(|from| mean([0, 1, 2, 3].map(|k| times[from + k])));
        let ratios = [none / walk, most / walk];
        line(
            &case.name,
            [walk, none, most].into_iter().chain(ratios).map(digits),
        );
    }
}

fn tables(cases: &[&Case], lines: &[Vec<f64>]) {
    let text = "Microseconds per table of 512 nodes, and nanoseconds per node. The translator checks the table first.";
    let columns =
        "table | read | check | translate | read, per node | check, per node | translate, per node";
    heading("Reader, check and translator", text, columns);
    for (case, times) in cases.iter().zip(lines) {
        let micro = times.iter().map(|ns| ns / 1000.0);
        let per_node = times.iter().map(|ns| ns / 512.0);
        line(&case.name, micro.chain(per_node).map(digits));
    }
}

fn joins(pairs: &[Pair], lines: &[Vec<f64>]) {
    let text = "Microseconds per joined table of 512 nodes, of tables of 256 and 255 in sequence, and nanoseconds per node. A \
                join checks both tables, and then the joined one.";
    let columns =
        "tables | join | check of the joined | join, per node | check, per node | join / check";
    heading("Join", text, columns);
    for (pair, times) in pairs.iter().zip(lines) {
        let micro = times.iter().map(|ns| ns / 1000.0);
        let per_node = times.iter().map(|ns| ns / 512.0);
        let ratio = times[0] / times[1];
        line(&pair.name, micro.chain(per_node).chain([ratio]).map(digits));
    }
}

fn nodes(family: &[Case], lines: &[Vec<f64>], tables: &[Vec<f64>]) {
    let text = "Circuits of one shape: one-pole filters in a row, 8 nodes for each, in an ondemand that is always \
                busy. Nanoseconds; the walker in blocks of 256 ticks, the runner of 4,096.";
    let columns = "nodes | runner per tick | per instruction | walker per tick | per node | check | per node | \
                   translate | per node";
    heading("Growth with the nodes", text, columns);
    for (case, (values, table)) in family.iter().zip(lines.iter().zip(tables)) {
        let times = Times::new(values);
        let nodes = case.nodes() as f64;
        let runner = mean(times.runner);
        let pairs = [mean(times.walker), table[1], table[2]].map(|ns| [ns, ns / nodes]);
        let numbers = [runner, runner / case.counts.instructions as f64].into_iter();
        line(
            &nodes.to_string(),
            numbers.chain(pairs.into_iter().flatten()).map(digits),
        );
    }
}

fn blocks(case: &Case, lines: &[Vec<f64>]) {
    let text = "Nanoseconds per tick; in the line of 0 ticks, per call. Runner and walker check the code or the table \
                at every call; C and Rust check nothing and decode the code.";
    let columns = "ticks in a block | runner | C | Rust | walker";
    heading(
        &format!("Growth with the block: {}", case.name),
        text,
        columns,
    );
    for (ticks, values) in BLOCKS.iter().zip(lines) {
        let times = Times::new(values);
        let numbers = [
            mean(times.runner),
            mean(times.c),
            mean(times.rust),
            mean(times.walker),
        ];
        line(&ticks.to_string(), numbers.map(digits));
    }
}

/// Measures everything, then prints it.
pub fn print(cases: &[Case], family: &[Case], pairs: &[Pair]) {
    let named = |case: &&Case| case.name == "integrator" || case.name == "random 1";
    let two: Vec<&Case> = cases.iter().filter(named).collect();
    let large: Vec<&Case> = cases.iter().filter(|case| case.nodes() == 512).collect();
    let [long, short, shorter] = [450, 120, 60].map(Duration::from_millis);

    let mut jobs: Vec<Job> = Vec::new();
    jobs.extend(cases.iter().map(|case| jobs::long_blocks(case, long)));
    jobs.extend(family.iter().map(|case| jobs::long_blocks(case, short)));
    for case in &two {
        jobs.extend(BLOCKS.map(|ticks| jobs::blocks(case, ticks, short)));
    }
    jobs.extend(cases.iter().map(|case| jobs::probes(case, short)));
    jobs.extend(large.iter().map(|case| jobs::table(case, shorter)));
    jobs.extend(family.iter().map(|case| jobs::table(case, shorter)));
    jobs.extend(pairs.iter().map(|pair| jobs::join(pair, shorter)));
    let lines = passes(&jobs, PASSES);

    let (of_cases, rest) = lines.split_at(cases.len());
    let (of_family, rest) = rest.split_at(family.len());
    let (of_blocks, rest) = rest.split_at(two.len() * BLOCKS.len());
    let (of_probes, rest) = rest.split_at(cases.len());
    let (of_large, rest) = rest.split_at(large.len());
    let (of_family_tables, of_pairs) = rest.split_at(family.len());
    title();
    circuits(cases);
    runners(cases, of_cases);
    walkers(cases, of_cases);
    probes(cases, of_probes);
    tables(&large, of_large);
    joins(pairs, of_pairs);
    nodes(family, of_family, of_family_tables);
    for (case, lines) in two.into_iter().zip(of_blocks.chunks(BLOCKS.len())) {
        blocks(case, lines);
    }
}
