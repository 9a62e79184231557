//! What the joins of a script show, E8.

use super::joined;
use oracle::arity::{check, Node, MOST_NODES, MOST_WIRES};
use oracle::join::drawn;
use oracle::script::Command;

#[derive(Default, Debug)]
pub struct Joins {
    pub calls: usize,
    /// By kind, 7 to 11; those that a walk of three ticks or more follows.
    pub accepted: [usize; 5],
    pub worked: [usize; 5],
    /// The refusals in their order: the first table's, the second's, 17, the joined table's by
    /// their numbers, 12.
    pub first: usize,
    pub second: usize,
    pub long: usize,
    pub rows: [usize; 17],
    pub short: usize,
    /// Several at once: both tables; the first or the second and 17; 17 and a kind that is none;
    /// the joined table's and 12.
    pub both: usize,
    pub first_long: usize,
    pub second_long: usize,
    pub kind_long: usize,
    pub row_short: usize,
    /// A buffer of the wanted length, a longer one, one that is one number too short, none.
    pub exact: usize,
    pub longer: usize,
    pub one_short: usize,
    pub none: usize,
    /// Two accepted tables and a node, of 511, 512, 513 nodes.
    pub nodes: [usize; 3],
    /// Accepted, with 32 inputs or outputs; too large for translator or walker.
    pub full: usize,
    pub large: usize,
    /// Accepted, of a table with itself, of one that a join has made.
    pub itself: usize,
    pub again: usize,
    /// Accepted, the second with: a number that could be a child, control, delay, recursion, ondemand.
    pub values: usize,
    pub with: [usize; 4],
}

/// A call of the entry.
struct Call<'a> {
    kind: u32,
    first: &'a [u32],
    second: &'a [u32],
    lent: usize,
}

impl Call<'_> {
    fn nodes(&self) -> usize {
        self.first.len() / 3 + self.second.len() / 3 + 1
    }

    fn composition(&self) -> bool {
        matches!(self.kind, 7..=11)
    }

    fn needed(&self) -> usize {
        3 * self.nodes()
    }
}

impl Joins {
    pub fn of(commands: &[Command]) -> Joins {
        let mut seen = Joins::default();
        let (mut table, mut second, mut made_by) = (vec![], vec![], None);
        for command in commands {
            match *command {
                Command::Table(ref numbers) => (table, made_by) = (numbers.clone(), None),
                Command::Second(ref numbers) => second.clone_from(numbers),
                Command::Join(kind, lent) => {
                    seen.call(&Call {
                        kind,
                        first: &table,
                        second: &second,
                        lent,
                    });
                    if let Some(joined) = joined(kind, &table, &second, lent) {
                        seen.again += usize::from(made_by.is_some());
                        (table, made_by) = (joined, Some(kind));
                    }
                }
                Command::Walk(3..=4096, ..) => {
                    made_by.map(|kind| seen.worked[kind as usize - 7] += 1);
                }
                _ => {}
            }
        }
        seen
    }

    fn call(&mut self, call: &Call) {
        self.calls += 1;
        let (first, second) = (check(call.first).is_err(), check(call.second).is_err());
        let long = call.nodes() > MOST_NODES;
        self.both += usize::from(first && second);
        self.first_long += usize::from(first && long);
        self.second_long += usize::from(!first && second && long);
        match (first, second) {
            (true, _) => self.first += 1,
            (_, true) => self.second += 1,
            _ => self.parts(call, long),
        }
    }

    /// Both tables are accepted ones.
    fn parts(&mut self, call: &Call, long: bool) {
        if let nodes @ 511..=513 = call.nodes() {
            self.nodes[nodes - 511] += 1;
        }
        if long {
            self.long += 1;
            self.kind_long += usize::from(!call.composition());
            return;
        }
        let short = call.lent < call.needed();
        match check(&drawn(call.kind, call.first, call.second)) {
            Err(refused) => {
                self.rows[refused.number as usize] += 1;
                self.row_short += usize::from(short);
            }
            Ok(_) if short => {
                self.short += 1;
                self.one_short += usize::from(call.lent + 1 == call.needed());
                self.none += usize::from(call.lent == 0);
            }
            Ok(checked) => {
                let counts = checked.counts;
                let most = counts.inputs.max(counts.outputs) as usize;
                self.full += usize::from(most == MOST_WIRES);
                self.large += usize::from(counts.instructions > 2048 || counts.cells > 16384);
                self.accepted(call);
            }
        }
    }

    fn accepted(&mut self, call: &Call) {
        self.accepted[call.kind as usize - 7] += 1;
        self.exact += usize::from(call.lent == call.needed());
        self.longer += usize::from(call.lent > call.needed());
        self.itself += usize::from(call.first == call.second);
        let count = call.second.len() / 3;
        let nodes: Vec<Node> = (0..count).map(|n| Node::at(call.second, n)).collect();
        let any = |holds: &dyn Fn(&Node) -> bool| usize::from(nodes.iter().any(holds));
        self.values += any(&|node| node.kind == 1 && (node.first as usize) < count);
        for (times, kind) in self.with.iter_mut().zip([2, 4, 11, 12]) {
            *times += any(&|node| node.kind == kind);
        }
    }

    /// Whether there are enough of each, and a good part of the calls is accepted.
    pub fn holds(&self) -> bool {
        let accepted: usize = self.accepted.iter().sum();
        let [seven, eight, sixteen] = [7, 8, 16].map(|row| self.rows[row]);
        let [four, five] = [4, 5].map(|row| self.rows[row]);
        let often = [self.first, self.second, self.long, seven, four, five];
        let at_times = [
            eight,
            sixteen,
            self.short,
            self.both,
            self.values,
            self.longer,
        ];
        let few = [
            self.first_long,
            self.second_long,
            self.kind_long,
            self.row_short,
            self.one_short,
            self.none,
            self.full,
            self.large,
            self.itself,
            self.again,
        ];
        let mut few = few.iter().chain(&self.nodes);
        let mut each = self.accepted.iter().chain(&self.worked).chain(&self.with);
        4 * accepted >= self.calls
            && 2 * self.exact >= accepted
            && often.iter().all(|&times| times >= 30)
            && at_times.iter().all(|&times| times >= 20)
            && few.all(|&times| times >= 4)
            && each.all(|&times| times >= 15)
    }
}
