//! Column files: "One line a node: its number in 4 columns, then kind, first and second in 12
//! each, decimal, right-justified with spaces, then a line feed; 41 bytes."

use crate::arity::{count_nodes, MOST_NODES};
use crate::engine::Refusal;

pub const LINE: usize = 41;
const COLUMNS: [(usize, usize); 4] = [(0, 4), (4, 16), (16, 28), (28, 40)];

/// "Reader: lines, 12." The table that the file holds, without looking at a buffer.
pub fn parse(file: &[u8]) -> Result<Vec<u32>, Refusal> {
    if file.is_empty() {
        return Err(Refusal::at(3, 0));
    }
    let mut table = Vec::new();
    for (place, line) in file.split_inclusive(|&b| b == b'\n').enumerate() {
        // "no line, or a 513th; before that line's 1 and 2"
        if place == MOST_NODES {
            return Err(Refusal::at(3, place));
        }
        table.extend(parse_line(line, place).map_err(|number| Refusal::at(number, place))?);
    }
    Ok(table)
}

/// "In the first wrong line, only the first wrong column counts. Its length is looked at
/// before its columns."
fn parse_line(line: &[u8], place: usize) -> Result<[u32; 3], u32> {
    if line.len() != LINE || line[LINE - 1] != b'\n' {
        return Err(1);
    }
    let mut fields = [0; 4];
    for (column, (from, to)) in COLUMNS.into_iter().enumerate() {
        fields[column] = parse_number(&line[from..to]).ok_or(1u32)?;
        if column == 0 && fields[0] as usize != place {
            return Err(2);
        }
    }
    Ok([fields[1], fields[2], fields[3]])
}

/// "A minus stands directly before the digits; there are no leading zeros, no plus, no minus
/// zero": a text has the form when it is the one text of its number.
pub fn parse_number(column: &[u8]) -> Option<u32> {
    let text = std::str::from_utf8(column).ok()?;
    let number: i32 = text.trim_start_matches(' ').parse().ok()?;
    let same = format!("{number:>width$}", width = column.len()) == text;
    same.then_some(number as u32)
}

pub fn read(file: &[u8], table: &mut [u32]) -> Result<u32, Refusal> {
    let found = parse(file)?;
    if table.len() < found.len() {
        return Err(Refusal::nowhere(12));
    }
    table[..found.len()].copy_from_slice(&found);
    Ok((found.len() / 3) as u32)
}

/// The file of a table, whatever its numbers are.
pub fn text(table: &[u32]) -> Vec<u8> {
    let mut file = String::new();
    for (number, node) in table.chunks(3).enumerate() {
        let [kind, first, second] = [0, 1, 2].map(|i| node[i] as i32);
        file.push_str(&format!("{number:4}{kind:12}{first:12}{second:12}\n"));
    }
    file.into_bytes()
}

/// "Writer: 3, 12."
pub fn write(table: &[u32], file: &mut [u8]) -> Result<u32, Refusal> {
    let bytes = count_nodes(table)? * LINE;
    if file.len() < bytes {
        return Err(Refusal::nowhere(12));
    }
    file[..bytes].copy_from_slice(&text(table));
    Ok(bytes as u32)
}
