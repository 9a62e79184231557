//! What the default mix holds of selectors: every op as often as the others, both ways of a
//! selector, and calls on which a wrong rule shows.

mod found;
mod wrong;

use found::joined;
use oracle::arity::check;
use oracle::column;
use oracle::flat::{self, length, HEADER, WIDTH};
use oracle::generate::generate;
use oracle::graph::Signal;
use oracle::meaning::Meaning;
use oracle::parse;
use oracle::samples::{ops, SELECTOR};
use oracle::script::{expected, play, Command};
use wrong::{Wrong, RIGHT, WRONG};

/// How often each op is there; place 0 counts what is none.
fn counts(found: impl Iterator<Item = u32>) -> Vec<usize> {
    let mut counts = vec![0; ops().len() + 1];
    for op in found {
        let place = if ops().contains(&op) { op as usize } else { 0 };
        counts[place] += 1;
    }
    counts
}

/// Whether each op has at least so many and at most so many of 100.
fn between(counts: &[usize], least: usize, most: usize) -> bool {
    let all: usize = counts[1..].iter().sum();
    let mut shares = counts[1..].iter().map(|times| 100 * times / all);
    shares.all(|share| (least..=most).contains(&share))
}

#[test]
fn ops_alike() {
    let commands = generate(1, 3000);
    let table = |command: &Command| match command {
        Command::Table(numbers) | Command::Second(numbers) => numbers.clone(),
        Command::File(bytes) => column::parse(bytes).unwrap_or_default(),
        _ => vec![],
    };
    let tables: Vec<Vec<u32>> = commands.iter().map(table).collect();
    let nodes = tables.iter().flat_map(|table| table.chunks_exact(3));
    let in_tables = counts(nodes.filter(|node| node[0] == 3).map(|node| node[1]));
    let codes = commands.iter().filter_map(|command| match command {
        Command::Code(numbers) if numbers.len() > HEADER => Some(&numbers[HEADER..]),
        _ => None,
    });
    let instructions = codes.flat_map(|numbers| numbers.chunks_exact(WIDTH));
    let in_codes = counts(instructions.filter(|six| six[0] == 3).map(|six| six[1]));
    println!("tables {in_tables:?}\ncodes {in_codes:?}");
    assert!(between(&in_tables, 8, 12));
    // Merges are additions in a code.
    let others = [&in_codes[..1], &in_codes[2..]].concat();
    assert!(between(&others, 8, 16));
}

/// What the selectors of the accepted walks show.
#[derive(Default, Debug)]
struct Seen {
    walks: usize,
    walks_with_selectors: usize,
    selectors: usize,
    /// With a first input that is 0 and one that is not, and different samples to choose from.
    both_ways: usize,
    /// First inputs that are neither 0 nor 1; negative ones; -2147483648.
    other: usize,
    negative: usize,
    least: usize,
    /// A product of the first input and one of the others does not fit 32 bits.
    would_wrap: usize,
    in_bodies: usize,
    in_feedback: usize,
    is_clock: usize,
}

impl Seen {
    fn walk(&mut self, table: &[u32], inputs: &[u32], controls: &[u32], ticks: usize) {
        let mut meaning = Meaning::of(table);
        let n = inputs.len() / ticks.max(1);
        for tick in 0..ticks {
            meaning.tick(&inputs[tick * n..(tick + 1) * n], controls);
        }
        let before = self.selectors;
        let graph = meaning.graph().clone();
        for (id, (signal, time)) in graph.signals.iter().enumerate() {
            if let Signal::Operation(SELECTOR, ins) = signal {
                let values = [0, 1, 2].map(|i| meaning.values(ins[i]).to_vec());
                self.selector(&values);
                self.in_bodies += usize::from(*time > 0 && !values[0].is_empty());
                let clocks = graph.demands[1..].iter();
                self.is_clock += usize::from(clocks.clone().any(|demand| demand.clock == id));
                let fed =
                    |s: &(Signal, usize)| matches!(s.0, Signal::Previous(Some(now)) if now == id);
                self.in_feedback += usize::from(graph.signals.iter().any(fed));
            }
        }
        self.walks += 1;
        self.walks_with_selectors += usize::from(self.selectors > before);
    }

    fn selector(&mut self, [first, second, third]: &[Vec<i32>; 3]) {
        let differ = (0..first.len()).filter(|&i| second[i] != third[i]);
        let tests: Vec<i32> = differ.map(|i| first[i]).collect();
        let wraps = |i: usize| {
            let products = [second[i], third[i]].map(|x| first[i].checked_mul(x));
            products.contains(&None)
        };
        self.selectors += 1;
        self.both_ways += usize::from(tests.contains(&0) && tests.iter().any(|&x| x != 0));
        self.other += usize::from(tests.iter().any(|x| !matches!(x, 0 | 1)));
        self.negative += usize::from(tests.iter().any(|&x| x < 0));
        self.least += usize::from(tests.contains(&i32::MIN));
        self.would_wrap += usize::from((0..first.len()).any(wraps));
    }
}

#[test]
fn both_ways() {
    let mut seen = Seen::default();
    let (mut table, mut inputs, mut controls) = (vec![], vec![], vec![]);
    let mut second = vec![];
    for command in generate(1, 3000) {
        match command {
            Command::Table(numbers) => table = numbers,
            Command::Second(numbers) => second = numbers,
            Command::Join(kind, lent) => {
                table = joined(kind, &table, &second, lent).unwrap_or(table)
            }
            Command::Inputs(numbers) => inputs = numbers,
            Command::Controls(numbers) => controls = numbers,
            Command::Walk(ticks, _, _) if ticks <= 4096 && controls.len() == 16 => {
                let ticks = ticks as usize;
                let wanted = check(&table).map(|c| c.counts.inputs as usize * ticks);
                if wanted == Ok(inputs.len()) {
                    seen.walk(&table, &inputs, &controls, ticks);
                }
            }
            _ => {}
        }
    }
    println!("{seen:#?}");
    assert!(6 * seen.walks_with_selectors >= seen.walks);
    assert!(4 * seen.both_ways >= seen.selectors);
    assert!(3 * seen.other >= seen.selectors);
    assert!(5 * seen.negative >= seen.selectors);
    let often = [
        seen.least,
        seen.would_wrap,
        seen.in_bodies,
        seen.in_feedback,
        seen.is_clock,
    ];
    assert!(often.iter().all(|&times| times >= 50), "{often:?}");
}

/// Codes that are refused for one sixth number alone, by the code and by the op of its instruction.
#[test]
fn sixth_numbers() {
    let (mut by_code, mut by_op) = ([0; 8], [0; 10]);
    for command in generate(1, 3000) {
        let Command::Code(mut code) = command else {
            continue;
        };
        let count = code.get(2).map_or(0, |&c| c.min(2048) as usize);
        let wrong = |&i: &usize| {
            let six = code.get(length(i, 0)..length(i + 1, 0));
            six.is_some_and(|six| six[..2] != [3, SELECTOR] && six[5] != 0)
        };
        let wrong: Vec<usize> = (0..count).filter(wrong).collect();
        if let [i] = wrong[..] {
            code[length(i, 0) + 5] = 0;
            if flat::check(&code).is_ok() {
                let six = flat::instruction(&code, i);
                by_code[six[0] as usize] += 1;
                by_op[six[1] as usize * usize::from(six[0] == 3)] += 1;
            }
        }
    }
    println!("codes {by_code:?}, ops {by_op:?}");
    assert!(by_code[1..].iter().all(|&times| times >= 3));
    assert!(by_op[1..].iter().all(|&times| times >= 1));
}

/// The calls that a rule answers otherwise, and the cases with such a call.
fn differences(cases: &[&[Command]], wanted: &[String], rule: &Wrong) -> (usize, usize) {
    let (mut lines, mut titles) = (0, 0);
    for (case, wanted) in cases.iter().zip(wanted) {
        let have = play(case, rule);
        if have != *wanted {
            let pairs = wanted.lines().zip(have.lines());
            lines += pairs.filter(|(want, have)| want != have).count();
            titles += 1;
        }
    }
    (lines, titles)
}

/// A wrong rule for selectors shows in the default mix, each in so many cases.
#[test]
fn wrong_rules() {
    let commands = generate(1, 3000);
    let cases = commands.chunk_by(|_, next| !matches!(next, Command::Title(_)));
    let cases: Vec<&[Command]> = cases.collect();
    let wanted: Vec<String> = cases.iter().map(|case| expected(case)).collect();
    assert_eq!(differences(&cases, &wanted, &RIGHT), (0, 0));
    for rule in &WRONG {
        let (lines, cases) = differences(&cases, &wanted, rule);
        println!("{}: {lines} lines in {cases} cases", rule.name);
        assert!(cases >= rule.least, "{}", rule.name);
    }
}

/// Each of them shows in the cases written by hand too.
#[test]
fn wrong_rules_by_hand() {
    let script = concat!(env!("CARGO_MANIFEST_DIR"), "/../crates/cases/stdin");
    let commands = parse::parse(&std::fs::read(script).expect("a script"));
    let wanted = expected(&commands);
    assert!(play(&commands, &RIGHT) == wanted);
    for rule in &WRONG {
        assert!(play(&commands, rule) != wanted, "{}", rule.name);
    }
}
