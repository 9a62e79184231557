//! The random script: a mix of cases, each on its own.

use crate::bad_codes::{bad_code_case, garbage_case};
use crate::bad_files::{bad_file_case, round_case};
use crate::bad_tables::bad_table_case;
use crate::clip_cases::clipped_case;
use crate::empty_feedback::feedback_case;
use crate::good_cases::{good_case, long_case, usual_size};
use crate::join_cases::join_case;
use crate::limit_cases::{limit_case, nodes_case, operations_case};
use crate::probe_cases::probed_case;
use crate::random::Random;
use crate::random_codes::{operands_case, random_code_case};
use crate::script::Command;

/// The commands of so many cases.
pub fn generate(seed: u64, cases: usize) -> Vec<Command> {
    let mut random = Random::new(seed);
    // Joins have random numbers of their own, by which no other case is another.
    let mut for_joins = Random::new(!seed);
    let mut others = 0..;
    let mut commands = Vec::new();
    for number in 0..cases {
        let (kind, case) = match number % 15 == 7 {
            true => ("joins", join_case(&mut for_joins)),
            false => one(&mut random, others.next().expect("a number")),
        };
        commands.push(Command::Title(format!("case {number}: {kind}")));
        commands.extend(case);
    }
    commands
}

/// A case of the default mix that has no join.
fn one(random: &mut Random, number: usize) -> (&'static str, Vec<Command>) {
    if number % 1000 == 500 {
        return ("many nodes", nodes_case(random, number % 2000 == 500));
    }
    if number % 200 == 100 {
        return ("operations", operations_case(random));
    }
    if number % 200 == 150 {
        return ("operands", operands_case(random));
    }
    match random.below(1000) {
        0..=3 => ("long block", long_case(random)),
        4..=9 => {
            let size = 100 + random.below(300);
            ("large circuit", good_case(random, size))
        }
        10..=59 => ("limits", limit_case(random)),
        60..=159 => ("damaged table", bad_table_case(random)),
        160..=239 => ("damaged file", bad_file_case(random)),
        240..=279 => ("round trip", round_case(random)),
        280..=379 => ("damaged code", bad_code_case(random)),
        380..=429 => ("random code", random_code_case(random)),
        430..=479 => ("garbage cells", garbage_case(random)),
        480..=629 => ("probes", probed_case(random)),
        630..=719 => ("clipped delays", clipped_case(random)),
        720..=759 => ("empty feedback", feedback_case(random)),
        _ => {
            let size = usual_size(random);
            ("circuit", good_case(random, size))
        }
    }
}
