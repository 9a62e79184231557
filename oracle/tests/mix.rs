//! What the default mix holds: every refusal, every kind, bodies that demands reach, tables with
//! several loose nodes, delays that are clipped, recursions that feed nothing back, and joins.

mod flat;
mod found;
mod watched;

use found::feedback::Feedback;
use found::joined;
use found::joins::Joins;
use oracle::arity::{check, Node};
use oracle::column::parse;
use oracle::generate::generate;
use oracle::graph::Signal;
use oracle::meaning::Meaning;
use oracle::play_cases::file;
use oracle::random::Random;
use oracle::script::{expected, plays_in_pieces, render, Command};
use std::iter::successors;
use watched::clips::Clips;

#[test]
fn refusals() {
    let printed = expected(&generate(1, 3000));
    for number in 1..=17 {
        let answer = format!("refused {number} ");
        let times = printed.matches(&answer).count();
        println!("refusal {number}: {times}");
        assert!(times >= 36, "refusal {number} only {times} times");
    }
}

/// What the accepted walks of a script show.
#[derive(Default, Debug)]
struct Seen {
    circuits: usize,
    kinds: [usize; 13],
    bodies_with_demands: usize,
    bodies_without: usize,
    /// Bodies whose clock is, at an own tick of the ondemand, neither 0 nor 1.
    other_clocks: usize,
    negative_clocks: usize,
    /// Bodies whose ondemand has own ticks with a demand and without.
    changing_clocks: usize,
    nested_with_demands: usize,
    twice_nested_with_demands: usize,
    feedback_in_bodies: usize,
    bodies_in_feedback: usize,
    feedback_in_feedback: usize,
    /// Recursions whose right side is 0 → r, and those with q → 0.
    only_feeding: usize,
    only_fed: usize,
    delays_in_bodies: usize,
    long_blocks: usize,
    changing_outputs: usize,
}

/// Whether a node of a kind lies below another node of a kind.
fn within(table: &[u32], outer: u32, inner: u32) -> bool {
    fn holds(table: &[u32], number: u32, kind: u32) -> bool {
        let node = Node::at(table, number as usize);
        let below = node.children();
        node.kind == kind || below.iter().any(|&child| holds(table, child, kind))
    }
    (0..table.len() / 3).any(|number| {
        let node = Node::at(table, number);
        let below = node.children();
        node.kind == outer && below.iter().any(|&child| holds(table, child, inner))
    })
}

impl Seen {
    fn circuit(&mut self, table: &[u32], ticks: usize, inputs: &[u32], controls: &[u32]) {
        let checked = check(table).expect("accepted");
        let n = checked.counts.inputs as usize;
        let mut meaning = Meaning::of(table);
        let outs: Vec<Vec<u32>> = (0..ticks)
            .map(|tick| meaning.tick(&inputs[tick * n..(tick + 1) * n], controls))
            .collect();
        self.circuits += 1;
        if ticks >= 3 && !outs[0].is_empty() {
            self.long_blocks += 1;
            self.changing_outputs += usize::from(outs.iter().any(|out| *out != outs[0]));
        }
        for number in 0..table.len() / 3 {
            let node = Node::at(table, number);
            self.kinds[node.kind as usize] += 1;
            if node.kind == 11 {
                let right = checked.arities[node.second as usize];
                self.only_feeding += usize::from(right.inputs == 0);
                self.only_fed += usize::from(right.outputs == 0);
            }
        }
        self.feedback_in_feedback += usize::from(within(table, 11, 11));
        self.bodies_in_feedback += usize::from(within(table, 11, 12));
        self.bodies(&mut meaning);
    }

    fn bodies(&mut self, meaning: &mut Meaning) {
        let graph = meaning.graph().clone();
        for time in 1..graph.demands.len() {
            let clock = meaning.clock(time);
            let idle = clock.contains(&0);
            self.other_clocks += usize::from(clock.iter().any(|h| !matches!(h, 0 | 1)));
            self.negative_clocks += usize::from(clock.iter().any(|&h| h < 0));
            self.changing_clocks += usize::from(idle && clock.iter().any(|&h| h != 0));
            if meaning.own_ticks(time) == 0 {
                self.bodies_without += 1;
                continue;
            }
            self.bodies_with_demands += 1;
            let parent = graph.demands[time].parent;
            self.nested_with_demands += usize::from(parent > 0);
            let above = graph.demands[parent].parent;
            self.twice_nested_with_demands += usize::from(parent > 0 && above > 0);
            let inside = graph.signals.iter().filter(|(_, own)| *own == time);
            let inside: Vec<&Signal> = inside.map(|(signal, _)| signal).collect();
            let feedback = inside.iter().any(|s| matches!(s, Signal::Previous(_)));
            let delay = inside.iter().any(|s| matches!(s, Signal::Delay { .. }));
            self.feedback_in_bodies += usize::from(feedback);
            self.delays_in_bodies += usize::from(delay);
        }
    }
}

#[test]
fn kinds() {
    let mut seen = Seen::default();
    let (mut table, mut inputs, mut controls) = (vec![], vec![], vec![]);
    let mut second = vec![];
    for command in generate(1, 3000) {
        match command {
            Command::Table(numbers) => table = numbers,
            Command::File(bytes) => table = parse(&bytes).unwrap_or(table),
            Command::Second(numbers) => second = numbers,
            Command::Join(kind, lent) => {
                table = joined(kind, &table, &second, lent).unwrap_or(table)
            }
            Command::Inputs(numbers) => inputs = numbers,
            Command::Controls(numbers) => controls = numbers,
            Command::Walk(ticks, _, _) if ticks <= 4096 && controls.len() == 16 => {
                let accepted = check(&table).map(|c| c.counts.inputs as usize);
                let wanted = accepted.map(|n| n * ticks as usize);
                if wanted == Ok(inputs.len()) {
                    seen.circuit(&table, ticks as usize, &inputs, &controls);
                }
            }
            _ => {}
        }
    }
    println!("{seen:#?}");
    assert!(seen.kinds[1..].iter().all(|&times| times >= 1000));
    let often = [
        seen.nested_with_demands,
        seen.twice_nested_with_demands,
        seen.feedback_in_bodies,
        seen.bodies_in_feedback,
        seen.feedback_in_feedback,
        seen.only_feeding,
        seen.only_fed,
        seen.delays_in_bodies,
    ];
    assert!(often.iter().all(|&times| times >= 100), "{often:?}");
    assert!(seen.bodies_with_demands > seen.bodies_without);
    assert!(2 * seen.changing_outputs > seen.long_blocks);
    let bodies = seen.bodies_with_demands + seen.bodies_without;
    assert!(3 * seen.other_clocks >= bodies);
    assert!(5 * seen.negative_clocks >= bodies);
    assert!(5 * seen.changing_clocks >= bodies);
}

/// Each node's parent, by the table alone; none for a node that is nobody's child.
fn parents(table: &[u32]) -> Vec<Option<usize>> {
    let mut parents = vec![None; table.len() / 3];
    for number in 0..parents.len() {
        for child in Node::at(table, number).children() {
            if let Some(parent) = parents.get_mut(child as usize) {
                *parent = Some(number);
            }
        }
    }
    parents
}

/// What the tables show that a script hands to an entry.
#[derive(Default, Debug)]
struct Loose {
    /// Were the last node a loose one too, these would be refused.
    accepted: usize,
    /// Refusals 4 to 8 at a node after a loose one: 9 is checked "after the last node".
    refused_before: usize,
    /// Tables with refusal 9; with two loose nodes or more, with three or more.
    refused: usize,
    several: usize,
    many: usize,
    neighbours: usize,
    /// Where the lowest loose node is node 0, where it has children.
    first: usize,
    with_children: usize,
    last_but_one: usize,
    last_takes_nothing: usize,
    /// Tables with refusal 9 that would get another place by each of the wrong rules.
    wrong: [usize; 4],
}

impl Loose {
    fn table(&mut self, table: &[u32]) {
        let parents = parents(table);
        match check(table) {
            Ok(_) => self.accepted += 1,
            Err(refused) if refused.number == 9 => {
                let last = parents.len() - 1;
                let loose: Vec<usize> = (0..last).filter(|&n| parents[n].is_none()).collect();
                assert_eq!(refused.place, loose[0] as i32);
                self.nodes(table, &loose);
                self.rules(&parents, loose[0]);
            }
            Err(refused) if refused.number > 3 => {
                let before = parents[..refused.place as usize].contains(&None);
                self.refused_before += usize::from(before);
            }
            Err(_) => {}
        }
    }

    fn nodes(&mut self, table: &[u32], loose: &[usize]) {
        let last = table.len() / 3 - 1;
        let childless = |node| Node::at(table, node).children().is_empty();
        let next = |two: &[usize]| two[0] + 1 == two[1];
        self.refused += 1;
        self.several += usize::from(loose.len() > 1);
        self.many += usize::from(loose.len() > 2);
        self.neighbours += usize::from(loose.windows(2).any(next));
        self.first += usize::from(loose[0] == 0);
        self.with_children += usize::from(!childless(loose[0]));
        self.last_but_one += usize::from(loose.contains(&(last - 1)));
        self.last_takes_nothing += usize::from(childless(last));
    }

    /// The places by the wrong rules: the highest loose node; the highest node that is nobody's
    /// child, the last included; the lowest that the next node does not take, as a single pass
    /// might find it; the lowest that is not below the last, though another may have it.
    fn rules(&mut self, parents: &[Option<usize>], lowest: usize) {
        let last = parents.len() - 1;
        let top = |node| successors(Some(node), |&node: &usize| parents[node]).last();
        let places = [
            parents[..last].iter().rposition(Option::is_none),
            parents.iter().rposition(Option::is_none),
            (0..last).find(|&node| parents[node] != Some(node + 1)),
            (0..last).find(|&node| top(node) != Some(last)),
        ];
        for (times, place) in self.wrong.iter_mut().zip(places) {
            *times += usize::from(place != Some(lowest));
        }
    }

    /// Whether there are so many of each, and enough tables with several loose nodes.
    fn holds(&self, least: usize) -> bool {
        let often = [
            self.accepted,
            self.refused_before,
            self.neighbours,
            self.first,
            self.with_children,
            self.last_but_one,
            self.last_takes_nothing,
        ];
        let mut counts = often.iter().chain(&self.wrong);
        let shares = 2 * self.several >= self.refused && 4 * self.many >= self.refused;
        shares && self.several < self.refused && counts.all(|&times| times >= least)
    }
}

/// Tables with several loose nodes, such that a wrong choice among them shows.
#[test]
fn loose_nodes() {
    let mut seen: [Loose; 3] = Default::default();
    let (mut table, mut second) = (vec![], vec![]);
    for command in generate(1, 3000) {
        match command {
            Command::Table(numbers) => table = numbers,
            Command::Second(numbers) => second = numbers,
            Command::Join(kind, lent) => {
                table = joined(kind, &table, &second, lent).unwrap_or(table)
            }
            Command::Check => seen[0].table(&table),
            Command::Translate(_) => seen[1].table(&table),
            Command::Walk(..) => seen[2].table(&table),
            _ => {}
        }
    }
    println!("check, translate, walk: {seen:#?}");
    let mut least = seen.iter().zip([50, 15, 12]);
    assert!(least.all(|(seen, least)| seen.holds(least)));
}

/// The files of the programs have such tables as well.
#[test]
fn loose_nodes_in_files() {
    let mut random = Random::new(1);
    let mut seen = Loose::default();
    let tables = (0..4000).filter_map(|_| parse(&file(&mut random).1).ok());
    tables.for_each(|table| seen.table(&table));
    println!("{seen:#?}");
    assert!(seen.holds(10));
}

/// E6: amounts outside 0 to D, at its ends and beside them; calls of which every tick, some or none
/// is clipped; delays that are not worked.
#[test]
fn clipped_delays() {
    let commands = generate(1, 3000);
    let seen = Clips::of(&commands);
    println!("{seen:#?}");
    assert!(3 * seen.outside >= seen.delays);
    assert!(3 * seen.without_ring_outside >= seen.without_ring);
    assert!(3 * seen.silent >= seen.calls);
    let often = [seen.idle, seen.twice, seen.first, seen.last, seen.early];
    let mut often = often.iter().chain(&seen.amounts[..4]);
    assert!(seen.always >= 100 && often.all(|&times| times >= 100));
    let few = [seen.only_idle, seen.amounts[4], seen.amounts[5]];
    assert!(few.iter().all(|&times| times >= 40), "{few:?}");
}

/// Codes that are nobody's translation: skips over delays whose amounts are outside.
#[test]
fn skipped_delays_of_codes() {
    let commands = generate(1, 3000);
    let cases = commands.chunk_by(|_, next| !matches!(next, Command::Title(_)));
    let random = |case: &&[Command]| matches!(&case[0], Command::Title(title) if title.ends_with("random code"));
    let seen = Clips::of(&cases.filter(random).collect::<Vec<_>>().concat());
    println!("{seen:#?}");
    let often = [
        seen.silent,
        seen.outside,
        seen.idle,
        seen.only_idle,
        seen.twice,
    ];
    assert!(often.iter().all(|&times| times >= 7), "{often:?}");
}

/// E7: recursions that feed nothing back, at any node and with other faults around them, and
/// accepted ones that come near.
#[test]
fn empty_feedback() {
    let seen = Feedback::of(&generate(1, 3000));
    println!("{seen:#?}");
    assert!(seen.holds());
}

/// E8: joins of every kind that are accepted and worked, and each refusal of the entry, alone and
/// with others at once.
#[test]
fn joins() {
    let seen = Joins::of(&generate(1, 3000));
    println!("{seen:#?}");
    assert!(seen.holds());
}

/// A case does not depend on earlier ones.
#[test]
fn cases_stand_alone() {
    let commands = generate(1, 600);
    let cases = commands.chunk_by(|_, next| !matches!(next, Command::Title(_)));
    let alone: String = cases.map(expected).collect();
    assert!(alone == expected(&commands));
}

/// The most that a script's player holds.
#[test]
fn maxima() {
    for command in generate(1, 3000) {
        let fits = match command {
            Command::Table(numbers) | Command::Second(numbers) => numbers.len() <= 2000,
            Command::Code(numbers) => numbers.len() <= 13000,
            Command::Inputs(numbers) => numbers.len() <= 131200,
            Command::Controls(numbers) => numbers.len() <= 32,
            Command::File(bytes) => bytes.len() <= 21100,
            Command::Read(length) | Command::Join(_, length) => length <= 2000,
            Command::Write(length) => length <= 21100,
            Command::Translate(length) => length <= 13000,
            Command::Load(_, lent) | Command::Cells(lent) => lent <= 17000,
            Command::Walk(_, lent, out) | Command::Run(_, lent, out) => {
                lent <= 17000 && out <= 131200
            }
            Command::Probes(numbers) => numbers.len() <= 64,
            Command::Latest(numbers) => numbers.len() <= 40,
            Command::Probed(lent) => {
                let walk = lent.cells <= 17000 && lent.out <= 131200;
                walk && lent.latest <= 40 && lent.recording <= 65600
            }
            _ => true,
        };
        assert!(fits);
    }
}

#[test]
fn pieces() {
    let commands = generate(1, 3000);
    let script = render(&commands);
    assert!(plays_in_pieces(&script));
    assert!(script.is_ascii());
    println!("script {} bytes", script.len());
    println!("output {} bytes", expected(&commands).len());
}
