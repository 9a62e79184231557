//! What is said of a refusal, in docs/FORMAT.md, is said in the same words in README.md, in the C header, at the engine's enum
//! and by this package, and so is the order of each call's refusals; and the header's limits are this package's.
use circuit::Refusal;

const FORMAT: &str = include_str!("../../../docs/FORMAT.md");
const README: &str = include_str!("../../../README.md");
const HEADER: &str = include_str!("../../c/circuit.h");
const ENUM: &str = include_str!("../../../crates/refusal/src/lib.rt");

/// Number, name and words of a refusal.
type Row = (u32, String, String);

/// The part of a text between two others.
fn between<'a>(text: &'a str, from: &str, to: &str) -> &'a str {
    let (_, rest) = text.split_once(from).expect(from);
    rest.split_once(to).expect(to).0
}

/// The rows of the document's table, with the place of each: line, node, line or node, or -1.
fn table() -> Vec<(Row, String)> {
    let lines = FORMAT.lines().skip_while(|line| *line != "## Refusals");
    let section = lines.skip(1).take_while(|line| !line.starts_with("## "));
    let cells = section.filter_map(|line| line.strip_prefix("| ")?.strip_suffix(" |"));
    let rows = cells.map(|line| line.split(" | ").collect::<Vec<_>>());
    rows.filter(|cells| cells[0].parse::<u32>().is_ok())
        .map(|cells| {
            let [number, name, place, words] = cells[..] else {
                panic!("four columns: {cells:?}")
            };
            let row = (number.parse().unwrap(), name.into(), words.into());
            (row, place.into())
        })
        .collect()
}

fn rows() -> Vec<Row> {
    table().into_iter().map(|(row, _)| row).collect()
}

/// MalformedLine as MALFORMED_LINE.
fn upper(name: &str) -> String {
    let mut upper = String::new();
    for letter in name.chars() {
        if letter.is_uppercase() && !upper.is_empty() {
            upper.push('_');
        }
        upper.push(letter.to_ascii_uppercase());
    }
    upper
}

#[test]
fn numbered_from_1_to_17() {
    let numbers: Vec<u32> = rows().into_iter().map(|(number, _, _)| number).collect();
    assert_eq!(numbers, (1..=17).collect::<Vec<_>>());
}

/// By the place where they are looked for, so in another order.
#[test]
fn in_the_readme() {
    let lines = between(README, "## Refusals\n", "\n## ").lines();
    let mut said: Vec<(u32, String)> = lines
        .filter_map(|line| {
            let [_, number, words] = line.split(" | ").collect::<Vec<_>>()[..] else {
                return None;
            };
            Some((number.parse().ok()?, words.strip_suffix(" |")?.into()))
        })
        .collect();
    said.sort();
    let wanted: Vec<(u32, String)> = rows().into_iter().map(|(n, _, w)| (n, w)).collect();
    assert_eq!(said, wanted);
}

#[test]
fn in_the_header() {
    let lines = between(HEADER, "enum {\n", "};").lines();
    let header: Vec<Row> = lines
        .map(|line| {
            let (name, rest) = line.split_once(" = ").expect(line);
            let (number, _) = rest.split_once([',', ' ']).expect(line);
            let name = name.trim().strip_prefix("CIRCUIT_").expect(line);
            let words = between(line, "/* ", " */");
            (number.parse().expect(line), name.into(), words.into())
        })
        .collect();
    assert_eq!(header, rows());
}

#[test]
fn at_the_enum() {
    let lines: Vec<&str> = between(ENUM, "pub enum Refusal {\n", "\n}")
        .lines()
        .collect();
    let variants: Vec<Row> = lines
        .chunks(2)
        .map(|pair| {
            let comment = pair[0].trim().strip_prefix("// ").expect(pair[0]);
            let (number, words) = comment.split_once(": ").expect(comment);
            let name = pair[1]
                .trim()
                .trim_end_matches(',')
                .trim_end_matches("(u32)");
            (number.parse().expect(comment), upper(name), words.into())
        })
        .collect();
    assert_eq!(variants, rows());
}

#[test]
fn by_this_package() {
    for ((number, _, words), place) in table() {
        let refusal = Refusal { number, place: 5 };
        assert_eq!(refusal.meaning(), words);
        let at = match place.as_str() {
            "-1" => String::new(),
            place => format!(" at {place} 5"),
        };
        assert_eq!(
            refusal.to_string(),
            format!("refusal {number}{at}: {words}")
        );
    }
    for number in [0, rows().len() as u32 + 1] {
        let refusal = Refusal { number, place: -1 };
        assert_eq!(refusal.meaning(), "no refusal of the document");
    }
}

/// The entries of the document's table of calls, each with its refusals in their order.
fn orders() -> Vec<(String, String)> {
    let lines = FORMAT.lines().skip_while(|line| *line != "## Calls");
    let section = lines.skip(1).take_while(|line| !line.starts_with("## "));
    let cells = section.filter_map(|line| line.strip_prefix("| ")?.strip_suffix(" |"));
    let rows = cells.map(|line| line.split(" | ").collect::<Vec<_>>());
    rows.filter(|cells| cells.len() == 5 && cells[0] != "entry")
        .map(|cells| (cells[0].into(), cells[4].into()))
        .collect()
}

/// The order as it is said last before the text's mention of the entry.
fn said<'a>(text: &'a str, entry: &str) -> &'a str {
    let (before, _) = text.split_once(entry).expect(entry);
    let (_, order) = before.rsplit_once("Refusals: ").expect(entry);
    order.split_once('.').expect(entry).0
}

#[test]
fn orders_of_the_calls() {
    let package = include_str!("../src/lib.rs");
    assert_eq!(orders().len(), 9);
    for (entry, order) in orders() {
        // The exported check fills a buffer.
        let exported = match entry.as_str() {
            "check" => order.clone() + "; 12",
            _ => order.clone(),
        };
        assert_eq!(
            said(HEADER, &format!("uint64_t circuit_{entry}(")),
            exported
        );
        assert_eq!(said(package, &format!("pub fn {entry}(")), order);
    }
}

/// A number that the header defines, alone or as a sum of products in brackets, of numbers and other names.
fn defined(name: &str) -> usize {
    let text = between(HEADER, &format!("#define CIRCUIT_{name} "), "\n");
    let text = text.split("/*").next().unwrap().trim();
    let factor = |x: &str| match x.strip_prefix("CIRCUIT_") {
        Some(other) => defined(other),
        None => x.parse().expect(name),
    };
    let terms = text.trim_matches(['(', ')']).split(" + ");
    terms
        .map(|term| term.split(" * ").map(factor).product::<usize>())
        .sum()
}

#[test]
fn limits() {
    for (name, value) in [
        ("NODES", circuit::NODES),
        ("TABLE_NUMBERS", circuit::TABLE_NUMBERS),
        ("FILE_BYTES", circuit::FILE_BYTES),
        ("WIDTH", circuit::WIDTH),
        ("INSTRUCTIONS", circuit::INSTRUCTIONS),
        ("HEADER_NUMBERS", circuit::HEADER_NUMBERS),
        ("INSTRUCTION_NUMBERS", circuit::INSTRUCTION_NUMBERS),
        ("CODE_NUMBERS", circuit::CODE_NUMBERS),
        ("CELLS", circuit::CELLS),
        ("TICKS", circuit::TICKS),
        ("CONTROLS", circuit::CONTROLS),
        ("PROBES", circuit::PROBES),
        ("PROBE_NUMBERS", circuit::PROBE_NUMBERS),
        ("RECORDING_NUMBERS", circuit::RECORDING_NUMBERS),
        ("STACK_TRANSLATE", circuit::STACK_TRANSLATE),
        ("STACK_WALK", circuit::STACK_WALK),
        ("STACK_RUN", circuit::STACK_RUN),
        ("STACK_CHECK", circuit::STACK_CHECK),
        ("STACK_JOIN", circuit::STACK_JOIN),
        ("STACK_READ", circuit::STACK_READ),
        ("STACK_WRITE", circuit::STACK_WRITE),
        ("STACK_LOAD", circuit::STACK_LOAD),
    ] {
        assert_eq!(value, defined(name), "{name}");
    }
}
