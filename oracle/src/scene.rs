//! A scene on which commands are performed: what they set, and what they print. The same
//! scene serves the oracle and an engine under test.

use crate::arity;
use crate::column;
use crate::engine::{Block, Counts, Engine, Probes, Refusal, Worked};
use crate::entries::Past;
use crate::flat::{HEADER, MOST_CODE, WIDTH};
use crate::join;
use crate::programs::played;
use crate::script::{list, Command, Lent};
use crate::translate;

/// "There are two memories of 17,000 cells each, one for walks and one for runs."
const MEMORY: usize = 17000;
/// "the list has 40 numbers, all 0 at the beginning"
const LATEST: usize = 40;

type Answer = Result<u32, Refusal>;
type Work = Result<Worked, Refusal>;

/// Whoever answers the calls of a scene.
pub trait Actor {
    fn check(&mut self, table: &[u32]) -> Result<Counts, Refusal>;
    fn read(&mut self, file: &[u8], table: &mut [u32]) -> Answer;
    fn write(&mut self, table: &[u32], file: &mut [u8]) -> Answer;
    fn translate(&mut self, table: &[u32], code: &mut [u32]) -> Answer;
    /// A load on the walks' memory (0) or the runs' (1).
    fn load(&mut self, memory: usize, named: u32, cells: &mut [u32]) -> Answer;
    fn walk(&mut self, table: &[u32], block: &Block, cells: &mut [u32], out: &mut [u32]) -> Work;
    fn walk_probed(
        &mut self,
        table: &[u32],
        block: &Block,
        cells: &mut [u32],
        out: &mut [u32],
        probes: &mut Probes,
    ) -> Work;
    fn run(&mut self, code: &[u32], block: &Block, cells: &mut [u32], out: &mut [u32]) -> Work;
    fn join(&mut self, kind: u32, first: &[u32], second: &[u32], joined: &mut [u32]) -> Answer;
    /// Both memories were set by the script.
    fn forget(&mut self) {}
}

/// An engine under test.
pub struct Live<'a, E: Engine>(pub &'a E);

impl<E: Engine> Actor for Live<'_, E> {
    fn check(&mut self, table: &[u32]) -> Result<Counts, Refusal> {
        self.0.check(table)
    }
    fn read(&mut self, file: &[u8], table: &mut [u32]) -> Answer {
        self.0.read(file, table)
    }
    fn write(&mut self, table: &[u32], file: &mut [u8]) -> Answer {
        self.0.write(table, file)
    }
    fn translate(&mut self, table: &[u32], code: &mut [u32]) -> Answer {
        self.0.translate(table, code)
    }
    fn load(&mut self, _memory: usize, named: u32, cells: &mut [u32]) -> Answer {
        self.0.load(named, cells)
    }
    fn walk(&mut self, table: &[u32], block: &Block, cells: &mut [u32], out: &mut [u32]) -> Work {
        self.0.walk(table, block, cells, out)
    }
    fn walk_probed(
        &mut self,
        table: &[u32],
        block: &Block,
        cells: &mut [u32],
        out: &mut [u32],
        probes: &mut Probes,
    ) -> Work {
        self.0.walk_probed(table, block, cells, out, probes)
    }
    fn run(&mut self, code: &[u32], block: &Block, cells: &mut [u32], out: &mut [u32]) -> Work {
        self.0.run(code, block, cells, out)
    }
    fn join(&mut self, kind: u32, first: &[u32], second: &[u32], joined: &mut [u32]) -> Answer {
        self.0.join(kind, first, second, joined)
    }
}

/// The oracle; it knows each memory's past and the tables and codes of the translations.
#[derive(Default)]
pub struct Oracle {
    pasts: [Past; 2],
    translated: Vec<(Vec<u32>, Vec<u32>)>,
}

impl Actor for Oracle {
    fn check(&mut self, table: &[u32]) -> Result<Counts, Refusal> {
        arity::check(table).map(|checked| checked.counts)
    }
    fn read(&mut self, file: &[u8], table: &mut [u32]) -> Answer {
        column::read(file, table)
    }
    fn write(&mut self, table: &[u32], file: &mut [u8]) -> Answer {
        column::write(table, file)
    }
    fn translate(&mut self, table: &[u32], code: &mut [u32]) -> Answer {
        let length = translate::translate(table, code)?;
        let code = code[..length as usize].to_vec();
        self.translated.push((table.to_vec(), code));
        Ok(length)
    }
    fn load(&mut self, memory: usize, named: u32, cells: &mut [u32]) -> Answer {
        self.pasts[memory].load(named, cells)
    }
    fn walk(&mut self, table: &[u32], block: &Block, cells: &mut [u32], out: &mut [u32]) -> Work {
        self.pasts[0].walk(table, block, cells, out)
    }
    fn walk_probed(
        &mut self,
        table: &[u32],
        block: &Block,
        cells: &mut [u32],
        out: &mut [u32],
        probes: &mut Probes,
    ) -> Work {
        self.pasts[0].walk_probed(table, block, cells, out, probes)
    }
    fn run(&mut self, code: &[u32], block: &Block, cells: &mut [u32], out: &mut [u32]) -> Work {
        let known = self.translated.iter().find(|(_, of)| of == code);
        let table = known.map(|(table, _)| table.as_slice());
        self.pasts[1].run(code, table, block, cells, out)
    }
    fn join(&mut self, kind: u32, first: &[u32], second: &[u32], joined: &mut [u32]) -> Answer {
        join::join(kind, first, second, joined)
    }
    fn forget(&mut self) {
        self.pasts.iter_mut().for_each(Past::forget);
        self.translated.clear();
    }
}

struct Scene {
    table: Vec<u32>,
    second: Vec<u32>,
    code: Vec<u32>,
    inputs: Vec<u32>,
    controls: Vec<u32>,
    file: Vec<u8>,
    memories: [Vec<u32>; 2],
    probes: Vec<u32>,
    latest: Vec<u32>,
}

/// Performs the commands and gives what they print.
pub fn perform(commands: &[Command], actor: &mut impl Actor) -> String {
    let mut scene = Scene {
        table: vec![],
        second: vec![],
        code: vec![],
        inputs: vec![],
        controls: vec![],
        file: vec![],
        memories: [vec![0; MEMORY], vec![0; MEMORY]],
        probes: vec![],
        latest: vec![0; LATEST],
    };
    let mut printed = String::new();
    for command in commands {
        if !scene.set(command, actor) {
            printed.push_str(&scene.call(command, actor));
        }
    }
    printed
}

fn answer(answer: &Answer) -> String {
    match answer {
        Ok(count) => (*count as i32).to_string(),
        Err(refusal) => refused(refusal),
    }
}

/// What walker and runner answer: "two numbers", samples and clipped ticks.
fn report(answer: &Work) -> String {
    match answer {
        Ok(worked) => format!("{} {}", worked.samples, worked.clipped),
        Err(refusal) => refused(refusal),
    }
}

fn refused(refusal: &Refusal) -> String {
    format!("refused {} {}", refusal.number, refusal.place)
}

impl Scene {
    /// The commands that print nothing; false for any other.
    fn set(&mut self, command: &Command, actor: &mut impl Actor) -> bool {
        match command {
            Command::Table(numbers) => self.table.clone_from(numbers),
            Command::Second(numbers) => self.second.clone_from(numbers),
            Command::Code(numbers) => self.code.clone_from(numbers),
            Command::Inputs(numbers) => self.inputs.clone_from(numbers),
            Command::Controls(numbers) => self.controls.clone_from(numbers),
            Command::File(bytes) => self.file.clone_from(bytes),
            Command::Probes(numbers) => self.probes.clone_from(numbers),
            Command::Latest(numbers) => self.latest[..numbers.len()].copy_from_slice(numbers),
            Command::Memory(value) => {
                self.memories.iter_mut().for_each(|m| m.fill(*value));
                actor.forget();
            }
            _ => return false,
        }
        true
    }

    fn call(&mut self, command: &Command, actor: &mut impl Actor) -> String {
        match *command {
            Command::Check => self.check(actor),
            Command::Read(length) => self.read(length, actor),
            Command::Write(length) => self.write(length, actor),
            Command::Translate(length) => self.translate(length, actor),
            Command::Join(kind, length) => self.join(kind, length, actor),
            Command::Print => self.print(actor),
            Command::Play => played(&self.file),
            Command::Load(named, lent) => {
                let [walks, runs] = &mut self.memories;
                let walked = actor.load(0, named, &mut walks[..lent]);
                let ran = actor.load(1, named, &mut runs[..lent]);
                format!("load {} {}\n", answer(&walked), answer(&ran))
            }
            Command::Walk(ticks, cells, length) => {
                let mut out = vec![9; length];
                let block = block(ticks, &self.inputs, &self.controls);
                let lent = &mut self.memories[0][..cells];
                let walked = actor.walk(&self.table, &block, lent, &mut out);
                format!("walk {} |{}\n", report(&walked), list(&out))
            }
            Command::Run(ticks, cells, length) => {
                let mut out = vec![9; length];
                let block = block(ticks, &self.inputs, &self.controls);
                let lent = &mut self.memories[1][..cells];
                let ran = actor.run(&self.code, &block, lent, &mut out);
                format!("run {} |{}\n", report(&ran), list(&out))
            }
            Command::Probed(ref lent) => self.probed(lent, actor),
            Command::Cells(count) => {
                let [walked, ran] = [0, 1].map(|i| list(&self.memories[i][..count]));
                format!("walked{walked}\nran{ran}\n")
            }
            Command::Title(ref title) => format!("# {title}\n"),
            _ => panic!("a command that only sets something"),
        }
    }

    fn check(&self, actor: &mut impl Actor) -> String {
        match actor.check(&self.table) {
            Ok(counts) => format!(
                "check {} {} {} {}\n",
                counts.inputs, counts.outputs, counts.instructions, counts.cells
            ),
            Err(refusal) => format!("check {}\n", refused(&refusal)),
        }
    }

    fn read(&mut self, length: usize, actor: &mut impl Actor) -> String {
        let mut buffer = vec![9; length];
        let read = actor.read(&self.file, &mut buffer);
        if let Ok(nodes) = read {
            self.table = buffer[..3 * nodes as usize].to_vec();
        }
        format!("read {} |{}\n", answer(&read), list(&buffer))
    }

    fn write(&mut self, length: usize, actor: &mut impl Actor) -> String {
        let mut buffer = vec![b'.'; length];
        let written = actor.write(&self.table, &mut buffer);
        if let Ok(bytes) = written {
            self.file = buffer[..bytes as usize].to_vec();
        }
        let text = String::from_utf8_lossy(&buffer);
        format!("write {} |\n{text}\n", answer(&written))
    }

    fn translate(&mut self, length: usize, actor: &mut impl Actor) -> String {
        let mut buffer = vec![9; length];
        let translated = actor.translate(&self.table, &mut buffer);
        if let Ok(numbers) = translated {
            self.code = buffer[..numbers as usize].to_vec();
        }
        format!("translate {} |{}\n", answer(&translated), list(&buffer))
    }

    fn join(&mut self, kind: u32, length: usize, actor: &mut impl Actor) -> String {
        let mut buffer = vec![9; length];
        let joined = actor.join(kind, &self.table, &self.second, &mut buffer);
        if let Ok(numbers) = joined {
            self.table = buffer[..numbers as usize].to_vec();
        }
        format!("join {} |{}\n", answer(&joined), list(&buffer))
    }

    fn probed(&mut self, lent: &Lent, actor: &mut impl Actor) -> String {
        let (mut out, mut recording) = (vec![9; lent.out], vec![9; lent.recording]);
        let latest = &mut self.latest[..lent.latest];
        let mut probes = Probes {
            named: &self.probes,
            latest: &mut *latest,
            recording: &mut recording,
        };
        let block = block(lent.ticks, &self.inputs, &self.controls);
        let cells = &mut self.memories[0][..lent.cells];
        let walked = actor.walk_probed(&self.table, &block, cells, &mut out, &mut probes);
        let (out, latest, recorded) = (list(&out), list(latest), list(&recording));
        let walked = report(&walked);
        format!("probed {walked} |{out}\nlatest{latest}\nrecorded{recorded}\n")
    }

    /// "prints the code, each number in 12 columns: the header on a line, each instruction on
    /// a line, each output on a line. On refusal it prints number and place on one line".
    fn print(&self, actor: &mut impl Actor) -> String {
        let mut table = vec![0; 3 * arity::MOST_NODES];
        let mut code = vec![0; MOST_CODE];
        let length = actor
            .read(&self.file, &mut table)
            .and_then(|nodes| actor.translate(&table[..3 * nodes as usize], &mut code));
        let length = match length {
            Ok(length) => length as usize,
            Err(refusal) => return row(&[refusal.number, refusal.place as u32]),
        };
        let (header, rest) = code[..length].split_at(HEADER);
        let (instructions, outputs) = rest.split_at(WIDTH * header[2] as usize);
        let lines = [header].into_iter();
        let lines = lines.chain(instructions.chunks(WIDTH));
        lines.chain(outputs.chunks(1)).map(row).collect()
    }
}

fn block<'a>(ticks: u32, inputs: &'a [u32], controls: &'a [u32]) -> Block<'a> {
    Block {
        ticks,
        inputs,
        controls,
    }
}

/// "each number in 12 columns", on a line
pub fn row(numbers: &[u32]) -> String {
    let columns: Vec<String> = numbers
        .iter()
        .map(|&number| format!("{:12}", number as i32))
        .collect();
    columns.concat() + "\n"
}
