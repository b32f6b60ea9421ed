//! The cases of tests/cases: files with the text that must be printed for them, and rows with the writer's answer, by hand.

use crate::file;
use crate::notation;
use crate::writing::Rows;

const SEQUENCES: &str = include_str!("../cases/sequences.txt");
const FILE_EDGES: &str = include_str!("../cases/file-edges.txt");
const WRITINGS: &str = include_str!("../cases/writings.txt");

pub struct Case {
    pub name: String,
    pub file: Vec<u8>,
    pub expected: String,
}

/// Rows for the writer, with what it must answer.
pub struct Writing {
    pub name: String,
    pub rows: Rows,
    pub buffer: usize,
    pub expected: String,
    /// What the buffer must begin with, where the rows are written.
    pub file: Option<Vec<u8>>,
}

/// The sequences first, then the edges of the file form.
pub fn all() -> Result<Vec<Case>, String> {
    let mut cases = cases_of(SEQUENCES)?;
    cases.extend(cases_of(FILE_EDGES)?);
    Ok(cases)
}

pub fn writings() -> Result<Vec<Writing>, String> {
    blocks(WRITINGS, writing_of)
}

fn cases_of(text: &str) -> Result<Vec<Case>, String> {
    blocks(text, case_of)
}

/// Cases are separated by empty lines; lines that start with # are for the reader.
fn blocks<T>(text: &str, of: impl Fn(&[&str]) -> Result<T, String>) -> Result<Vec<T>, String> {
    let lines: Vec<&str> = text.lines().filter(|line| !line.starts_with('#')).collect();
    lines
        .split(|line| line.is_empty())
        .filter(|lines| !lines.is_empty())
        .map(of)
        .collect()
}

/// `case NAME`, then either `bytes` or `workers`, `fields` and `events`, then the printed lines.
fn case_of(lines: &[&str]) -> Result<Case, String> {
    let name = part(lines, 0, "case")?.to_string();
    let in_case = |problem: String| format!("case {name}: {problem}");
    let (file, printed_from) = match part(lines, 1, "bytes") {
        Ok(pieces) => (bytes(pieces).map_err(in_case)?, 2),
        Err(_) => (sequence(lines).map_err(in_case)?, 4),
    };
    let expected = lines[printed_from..]
        .iter()
        .map(|line| format!("{line}\n"))
        .collect();
    Ok(Case {
        name,
        file,
        expected,
    })
}

/// `case NAME`, the five rows and the length of the buffer, the answer, and if it is `written` also the `bytes`.
fn writing_of(lines: &[&str]) -> Result<Writing, String> {
    let name = part(lines, 0, "case")?.to_string();
    let in_case = |problem: String| format!("case {name}: {problem}");
    let row = |line, word| row(part(lines, line, word)?);
    let rows = || {
        Ok(Rows {
            worker_labels: row(1, "worker-labels")?,
            field_labels: row(2, "field-labels")?,
            kinds: row(3, "kinds")?,
            workers: row(4, "workers")?,
            fields: row(5, "fields")?,
        })
    };
    let expected = lines.get(7).ok_or("there is no answer".to_string());
    let expected = expected.map_err(in_case)?.to_string();
    let file = match expected.starts_with("written") {
        true => Some(part(lines, 8, "bytes").and_then(bytes).map_err(in_case)?),
        false => None,
    };
    Ok(Writing {
        rows: rows().map_err(in_case)?,
        buffer: part(lines, 6, "buffer")
            .and_then(decimal)
            .map_err(in_case)?,
        expected,
        file,
        name,
    })
}

fn row(entries: &str) -> Result<Vec<u32>, String> {
    let entries: Vec<Vec<u32>> = entries
        .split_whitespace()
        .map(entry)
        .collect::<Result<_, _>>()?;
    Ok(entries.concat())
}

/// `7` is an entry of a row; `labels:3` are the entries 0, 1 and 2; `5*1` five entries.
fn entry(text: &str) -> Result<Vec<u32>, String> {
    let number = |text: &str| text.parse().map_err(|_| format!("'{text}' is no entry"));
    if let Some(count) = text.strip_prefix("labels:") {
        return Ok((0..number(count)?).collect());
    }
    match text.split_once('*') {
        Some((times, entry)) => Ok(vec![number(entry)?; number(times)? as usize]),
        None => Ok(vec![number(text)?]),
    }
}

fn sequence(lines: &[&str]) -> Result<Vec<u8>, String> {
    let workers = notation::labels(part(lines, 1, "workers")?)?;
    let fields = notation::labels(part(lines, 2, "fields")?)?;
    let recording = notation::recording(part(lines, 3, "events")?, Some(workers), Some(fields))?;
    Ok(file::write(&recording))
}

/// What follows the given word on a line of the case.
fn part<'a>(lines: &[&'a str], line: usize, word: &str) -> Result<&'a str, String> {
    let rest = lines.get(line).and_then(|text| text.strip_prefix(word));
    rest.map(str::trim)
        .ok_or(format!("line {} should start with '{word}'", line + 1))
}

fn bytes(pieces: &str) -> Result<Vec<u8>, String> {
    let pieces: Vec<Vec<u8>> = pieces
        .split_whitespace()
        .map(piece)
        .collect::<Result<_, _>>()?;
    Ok(pieces.concat())
}

/// `0A` is a byte; `count:17` a two-byte number; `labels:3` the labels 0, 1 and 2; `5*01000000` five reads.
fn piece(text: &str) -> Result<Vec<u8>, String> {
    let two_bytes = |number: usize| (number as u16).to_le_bytes();
    if let Some(count) = text.strip_prefix("count:") {
        return Ok(two_bytes(decimal(count)?).to_vec());
    }
    if let Some(count) = text.strip_prefix("labels:") {
        return Ok((0..decimal(count)?).flat_map(two_bytes).collect());
    }
    match text.split_once('*') {
        Some((times, bytes)) => Ok(hexadecimal(bytes)?.repeat(decimal(times)?)),
        None => hexadecimal(text),
    }
}

fn decimal(text: &str) -> Result<usize, String> {
    text.parse()
        .ok()
        .filter(|&number| number < 65_536)
        .ok_or(format!("'{text}' is no number below 65536"))
}

fn hexadecimal(text: &str) -> Result<Vec<u8>, String> {
    let byte = |pair: &[u8]| {
        std::str::from_utf8(pair)
            .ok()
            .and_then(|pair| u8::from_str_radix(pair, 16).ok())
    };
    let bytes: Option<Vec<u8>> = text.as_bytes().chunks(2).map(byte).collect();
    bytes
        .filter(|_| text.len() % 2 == 0)
        .ok_or(format!("'{text}' is not made of hexadecimal bytes"))
}

#[cfg(test)]
mod tests {
    use super::*;
    use crate::printed::printed;
    use crate::writing::{self, Written};
    use std::collections::BTreeSet;

    #[test]
    fn the_reference_prints_what_every_case_expects() {
        for case in all().expect("the case files are good") {
            assert_eq!(
                printed(&file::read(&case.file)),
                case.expected,
                "case {}",
                case.name
            );
        }
    }

    #[test]
    fn the_fourteen_cases_and_the_printed_example_are_there() {
        let cases = all().expect("the case files are good");
        for name in "a b c d e f g h i j k l m n printed-example".split(' ') {
            assert_eq!(
                cases.iter().filter(|case| case.name == name).count(),
                1,
                "case {name}"
            );
        }
    }

    #[test]
    fn the_reference_writes_what_every_case_expects() {
        for case in writings().expect("the case files are good") {
            let mut buffer = vec![0xEE; case.buffer];
            let answer = match writing::write(&case.rows, &mut buffer) {
                Written::Refused(refused) => {
                    format!("refused {} {}", refused.number, refused.place)
                }
                Written::Bytes(bytes) => format!("written {bytes}"),
            };
            assert_eq!(answer, case.expected, "case {}", case.name);
            let mut expected = case.file.unwrap_or_default();
            expected.resize(case.buffer, 0xEE);
            assert_eq!(buffer, expected, "case {}", case.name);
        }
    }

    #[test]
    fn no_two_cases_have_one_name() {
        let cases = all().expect("the case files are good");
        let names: BTreeSet<&String> = cases.iter().map(|case| &case.name).collect();
        assert_eq!(names.len(), cases.len());
    }

    #[test]
    fn no_two_writings_have_one_name() {
        let writings = writings().expect("the case files are good");
        let names: BTreeSet<&String> = writings.iter().map(|case| &case.name).collect();
        assert_eq!(names.len(), writings.len());
    }
}
