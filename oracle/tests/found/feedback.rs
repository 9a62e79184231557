//! What the tables of a script show of empty feedback, E7.

use super::Found;
use oracle::arity::check;
use oracle::script::Command;

#[derive(Default, Debug)]
pub struct Feedback {
    /// Tables with refusal 16.
    pub refused: usize,
    /// Of these, at node 4, the first that can have it; at a node that is not the last.
    pub first: usize,
    pub not_last: usize,
    /// Where the right side is not the node before, where the left side is.
    pub right_apart: usize,
    pub left_before: usize,
    pub left_empty: usize,
    /// By the kind of the right side, 7 to 11.
    pub forms: [usize; 5],
    /// Tables with refusal 16 and another fault at a later node: by the first row of 4 to 8, with
    /// another 16, with a loose node.
    pub later: [usize; 5],
    pub again: usize,
    pub loose: usize,
    /// With the first two of these.
    pub later_fault: usize,
    /// Tables with another refusal and a later node that would get 16; of rows 4 to 8.
    pub earlier: [usize; 5],
    /// Tables with refusal 6 at a recursion whose right side is empty.
    pub same: usize,
    /// Tables with 3 for their count of numbers, and such a recursion.
    pub odd: usize,
    /// Accepted tables with a recursion that is only fed, that only feeds, and one whose right side
    /// is an ondemand of nothing.
    pub only_fed: usize,
    pub only_feeds: usize,
    pub demanded: usize,
}

/// Whether a node from a place on would get 16.
fn any_from(found: &Found, from: usize) -> bool {
    (from..found.nodes.len()).any(|place| found.empty(place))
}

impl Feedback {
    /// The tables that a script hands to an entry.
    pub fn of(commands: &[Command]) -> Feedback {
        let mut seen = Feedback::default();
        let (mut table, mut fresh) = (&vec![], false);
        for command in commands {
            match command {
                Command::Table(numbers) => (table, fresh) = (numbers, true),
                Command::Check | Command::Translate(_) | Command::Walk(..) | Command::Probed(_)
                    if fresh =>
                {
                    seen.table(table);
                    fresh = false;
                }
                _ => {}
            }
        }
        seen
    }

    fn table(&mut self, table: &[u32]) {
        let found = Found::of(table);
        match check(table) {
            Ok(_) => self.accepted(&found),
            Err(refused) if refused.number == 16 => {
                self.refused(&found, refused.place as usize);
                self.around(&found, refused.place as usize);
            }
            Err(refused) if refused.number == 3 => self.odd += usize::from(any_from(&found, 0)),
            Err(refused) if refused.number < 9 => {
                let (row, place) = (refused.number, refused.place as usize);
                self.earlier[row as usize - 4] += usize::from(any_from(&found, place + 1));
                self.same += usize::from(row == 6 && found.empty(place));
            }
            Err(_) => {}
        }
    }

    /// The faults after 16 at a node.
    fn around(&mut self, found: &Found, place: usize) {
        let row = found.rows[place + 1..].iter().flatten().next();
        if let Some(row) = row {
            self.later[*row as usize - 4] += 1;
        }
        let again = any_from(found, place + 1);
        self.again += usize::from(again);
        self.later_fault += usize::from(again || row.is_some());
        self.loose += usize::from(row.is_none() && found.loose.is_some());
    }

    fn refused(&mut self, found: &Found, place: usize) {
        let node = found.nodes[place];
        let right = found.nodes[node.second as usize];
        self.refused += 1;
        self.first += usize::from(place == 4);
        self.not_last += usize::from(place + 1 < found.nodes.len());
        self.right_apart += usize::from(node.second as usize + 1 != place);
        self.left_before += usize::from(node.first as usize + 1 == place);
        let left = found.left(place).expect("a left side");
        self.left_empty += usize::from(left.is_empty());
        self.forms[right.kind as usize - 7] += 1;
    }

    fn accepted(&mut self, found: &Found) {
        let rights = (0..found.nodes.len())
            .filter(|&place| found.recursion(place))
            .map(|place| found.nodes[place].second as usize);
        let rights: Vec<usize> = rights.collect();
        let any = |holds: &dyn Fn(usize) -> bool| usize::from(rights.iter().any(|&r| holds(r)));
        self.only_fed += any(&|right| found.arities[right].outputs == 0);
        self.only_feeds += any(&|right| found.arities[right].inputs == 0);
        self.demanded += any(&|right| found.idle(right));
    }

    /// Whether there are enough of each.
    pub fn holds(&self) -> bool {
        let often = [
            self.refused,
            self.not_last,
            self.right_apart,
            self.left_before,
            self.left_empty,
            self.later_fault,
            self.only_fed,
            self.only_feeds,
        ];
        let at_times = [self.first, self.again, self.same, self.odd];
        let mut at_times = at_times.iter().chain(&self.forms);
        let mut few = self.later.iter().chain(&self.earlier);
        often.iter().all(|&times| times >= 36)
            && at_times.all(|&times| times >= 15)
            && few.all(|&times| times >= 4)
            && self.loose >= 6
            && self.demanded >= 10
    }
}
