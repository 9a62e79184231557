//! The flat code with one rule of E4 wrong.

use oracle::arity::check;
use oracle::column;
use oracle::engine::{Block, Counts, Engine, Probes, Refusal, Worked};
use oracle::entries::Past;
use oracle::flat::{instruction, interpret_by, length, Instruction, Operate, HEADER, WIDTH};
use oracle::join::join;
use oracle::probes::{walk_by, wires, Recorder};
use oracle::samples::{operate, BEYOND, SELECTOR};
use oracle::translate::{code, translate};

type Answer = Result<u32, Refusal>;
type Work = Result<Worked, Refusal>;

/// What an engine with a wrong rule does to what it is given.
#[derive(Clone, Copy)]
pub struct Wrong {
    pub name: &'static str,
    /// In so many cases of the default mix, at least, it shows.
    pub least: usize,
    /// A node, before the table's check.
    drawn: fn(&mut [u32]),
    /// An instruction that the translator places.
    placed: fn(&mut Instruction),
    /// A code before row 13.
    handed: fn(&mut Vec<u32>),
    /// An instruction that row 13 has let pass.
    worked: fn(&mut Instruction),
    operate: Operate,
}

pub const RIGHT: Wrong = Wrong {
    name: "right",
    least: 0,
    drawn: |_| {},
    placed: |_| {},
    handed: |_| {},
    worked: |_| {},
    operate,
};

fn selects(six: &Instruction) -> bool {
    six[..2] == [3, SELECTOR]
}

/// Changes each whole instruction of a code; `change` is told the instruction's own register too.
fn each(code: &mut [u32], change: impl Fn(&mut Instruction, u32)) {
    if code.len() < HEADER {
        return;
    }
    let (n, c) = (code[0], code[2] as usize);
    for i in 0..c.min((code.len() - HEADER) / WIDTH) {
        let mut six = instruction(code, i);
        change(&mut six, n.wrapping_add(i as u32));
        code[length(i, 0)..length(i + 1, 0)].copy_from_slice(&six);
    }
}

/// Instructions of five numbers, where the length is theirs, get a sixth.
fn widen(code: &mut Vec<u32>) {
    let old = |c: usize, m: usize| HEADER + (WIDTH - 1) * c + m;
    let narrow = code.len() >= HEADER && code[2] <= 2048 && code[1] <= 32;
    if narrow && code.len() == old(code[2] as usize, code[1] as usize) {
        let c = code[2] as usize;
        (1..=c).rev().for_each(|i| code.insert(old(i, 0), 0));
    }
}

/// A selector's rule, with the other ops as they are.
macro_rules! selector {
    ($rule:expr) => {
        |op, inputs| match inputs {
            &[x, y, z] => {
                let rule: fn(i32, i32, i32) -> i32 = $rule;
                rule(x, y, z)
            }
            _ => operate(op, inputs),
        }
    };
}

/// A rule that is wrong in what a selector gives.
const fn given(name: &'static str, least: usize, operate: Operate) -> Wrong {
    Wrong {
        name,
        least,
        operate,
        ..RIGHT
    }
}

/// A rule that is wrong in what row 13 looks at.
const fn seen(name: &'static str, least: usize, handed: fn(&mut Vec<u32>)) -> Wrong {
    Wrong {
        name,
        least,
        handed,
        ..RIGHT
    }
}

/// A rule that is wrong in the translator.
const fn put(name: &'static str, least: usize, placed: fn(&mut Instruction)) -> Wrong {
    Wrong {
        name,
        least,
        placed,
        ..RIGHT
    }
}

pub const WRONG: [Wrong; 18] = [
    given(
        "second and third exchanged",
        280,
        selector!(|x, y, z| if x == 0 { z } else { y }),
    ),
    given(
        "third at 1 alone",
        200,
        selector!(|x, y, z| if x == 1 { z } else { y }),
    ),
    given(
        "third above 0 alone",
        140,
        selector!(|x, y, z| if x > 0 { z } else { y }),
    ),
    given(
        "third by the low bit",
        160,
        selector!(|x, y, z| if x & 1 == 1 { z } else { y }),
    ),
    given(
        "third by the low half",
        70,
        selector!(|x, y, z| if x & 0xffff != 0 { z } else { y }),
    ),
    given(
        "the last input as the first",
        260,
        selector!(|x, y, z| if z == 0 { x } else { y }),
    ),
    given(
        "two multiplications and an addition",
        200,
        selector!(|x, y, z| {
            let second = 1i32.wrapping_sub(x).wrapping_mul(y);
            second.wrapping_add(x.wrapping_mul(z))
        }),
    ),
    put("sixth number left 0", 300, |six| six[5] = 0),
    put("third register in the fifth number", 300, |six| {
        six.swap(4, 5)
    }),
    Wrong {
        name: "third operand read from the fifth number",
        least: 230,
        worked: |six| six[5] = six[4],
        ..RIGHT
    },
    seen("sixth number not checked where unused", 50, |code| {
        each(code, |six, _| six[5] *= u32::from(selects(six)));
    }),
    seen("fifth number of a selector not checked", 30, |code| {
        each(code, |six, _| six[4] *= u32::from(!selects(six)));
    }),
    seen("third register not checked against the own", 20, |code| {
        each(code, |six, own| {
            if selects(six) && own > 0 {
                six[5] = six[5].min(own - 1);
            }
        });
    }),
    seen("third register may be the own", 14, |code| {
        each(code, |six, own| {
            if selects(six) && six[5] == own && own > 0 {
                six[5] = own - 1;
            }
        });
    }),
    seen("op 10 refused in a code", 380, |code| {
        each(code, |six, _| six[1] += u32::from(selects(six)));
    }),
    seen("op 11 taken for a selector in a code", 14, |code| {
        each(code, |six, _| six[1] -= u32::from(six[..2] == [3, BEYOND]));
    }),
    seen("instructions of five numbers taken", 9, widen),
    Wrong {
        name: "op 11 taken for a selector in a table",
        least: 12,
        drawn: |node| node[1] -= u32::from(node[..2] == [3, BEYOND]),
        ..RIGHT
    },
];

impl Wrong {
    /// The table as the rule takes it.
    fn table(&self, table: &[u32]) -> Vec<u32> {
        let mut table = table.to_vec();
        table.chunks_exact_mut(3).for_each(self.drawn);
        table
    }
}

impl Engine for Wrong {
    fn check(&self, table: &[u32]) -> Result<Counts, Refusal> {
        check(&self.table(table)).map(|checked| checked.counts)
    }
    fn read(&self, file: &[u8], table: &mut [u32]) -> Answer {
        column::read(file, table)
    }
    fn write(&self, table: &[u32], file: &mut [u8]) -> Answer {
        column::write(table, file)
    }
    fn translate(&self, table: &[u32], code: &mut [u32]) -> Answer {
        let numbers = translate(&self.table(table), code)?;
        each(&mut code[..numbers as usize], |six, _| {
            if selects(six) {
                (self.placed)(six);
            }
        });
        Ok(numbers)
    }
    fn load(&self, named: u32, cells: &mut [u32]) -> Answer {
        Past::default().load(named, cells)
    }
    fn walk(&self, table: &[u32], block: &Block, cells: &mut [u32], outputs: &mut [u32]) -> Work {
        let table = self.table(table);
        // The right answer, on buffers of its own; a refusal is the same.
        let (mut own, mut out) = (cells.to_vec(), outputs.to_vec());
        let answer = Past::default().walk(&table, block, &mut own, &mut out)?;
        let code = code(&table, &check(&table).expect("an accepted table"));
        let (inputs, controls, ticks) = (block.inputs, block.controls, block.ticks as usize);
        let clipped = interpret_by(self.operate, &code, inputs, controls, cells, outputs, ticks);
        Ok(Worked { clipped, ..answer })
    }
    fn walk_probed(
        &self,
        table: &[u32],
        block: &Block,
        cells: &mut [u32],
        outputs: &mut [u32],
        probes: &mut Probes,
    ) -> Work {
        let table = self.table(table);
        // As with a walk: the right answer first, on buffers of its own.
        let (mut own, mut out) = (cells.to_vec(), outputs.to_vec());
        let (mut latest, mut recording) = (probes.latest.to_vec(), probes.recording.to_vec());
        let mut right = Probes {
            named: probes.named,
            latest: &mut latest,
            recording: &mut recording,
        };
        let answer = Past::default().walk_probed(&table, block, &mut own, &mut out, &mut right)?;
        let wires = wires(probes.named, &check(&table).expect("an accepted table"))?;
        let mut recorder = Recorder::new(wires, block.ticks, probes)?;
        let clipped = walk_by(self.operate, &table, block, cells, outputs, &mut recorder);
        Ok(Worked { clipped, ..answer })
    }
    fn run(&self, code: &[u32], block: &Block, cells: &mut [u32], outputs: &mut [u32]) -> Work {
        let mut code = code.to_vec();
        (self.handed)(&mut code);
        let (mut own, mut out) = (cells.to_vec(), outputs.to_vec());
        let answer = Past::default().run(&code, None, block, &mut own, &mut out)?;
        each(&mut code, |six, _| {
            if selects(six) {
                (self.worked)(six);
            }
        });
        let (inputs, controls, ticks) = (block.inputs, block.controls, block.ticks as usize);
        let clipped = interpret_by(self.operate, &code, inputs, controls, cells, outputs, ticks);
        Ok(Worked { clipped, ..answer })
    }
    fn join(&self, kind: u32, first: &[u32], second: &[u32], joined: &mut [u32]) -> Answer {
        join(kind, first, second, joined)
    }
}
