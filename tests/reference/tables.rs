//! The words of the five lent tables by the document's sentences, from the events before event n.
//! A history keeps flag accesses apart from reads and writes, so the words of a flag are 0 in every table.

use crate::file::{MOST_FIELDS, MOST_WORKERS};
use crate::verdict::History;

/// A lent table, by the sentence that gives its words.
#[derive(Clone, Copy, PartialEq, Eq, Debug)]
pub enum Table {
    Stretch,
    Writer,
    Readers,
    Version,
    Log,
}

pub const EARLY: [Table; 3] = [Table::Stretch, Table::Writer, Table::Readers];
pub const LATE: [Table; 4] = [Table::Stretch, Table::Writer, Table::Version, Table::Log];

impl Table {
    pub fn full_length(self) -> usize {
        match self {
            Table::Stretch => MOST_WORKERS,
            Table::Writer | Table::Version => MOST_FIELDS,
            Table::Readers | Table::Log => MOST_WORKERS * MOST_FIELDS,
        }
    }

    /// The full length of the table after the events before n; words of unused workers and fields are 0.
    pub fn words(self, history: &History, n: usize) -> Vec<u32> {
        let mut words = vec![0; self.full_length()];
        match self {
            Table::Stretch => {
                for worker in history.workers() {
                    words[worker] = history.stretch_number(worker, n) as u32;
                }
            }
            Table::Writer => {
                each_field(&mut words, history, |field| writer_word(history, field, n))
            }
            Table::Version => each_field(&mut words, history, |field| version(history, field, n)),
            Table::Readers => each_pair(&mut words, history, |field, worker| {
                readers_word(history, field, worker, n)
            }),
            Table::Log => each_pair(&mut words, history, |field, worker| {
                log_word(history, field, worker, n)
            }),
        }
        words
    }
}

fn each_field(words: &mut [u32], history: &History, word: impl Fn(usize) -> usize) {
    for field in history.fields() {
        words[field] = word(field) as u32;
    }
}

fn each_pair(words: &mut [u32], history: &History, word: impl Fn(usize, usize) -> usize) {
    for field in history.fields() {
        for worker in history.workers() {
            words[16 * field + worker] = word(field, worker) as u32;
        }
    }
}

/// The event number of the last write of the field before event n.
fn last_write(history: &History, field: usize, n: usize) -> Option<usize> {
    history
        .workers()
        .filter_map(|worker| history.writes_before(worker, field, n).last().copied())
        .max()
}

/// 16 times the stretch number, plus the worker, of the last write; 0 if none.
fn writer_word(history: &History, field: usize, n: usize) -> usize {
    last_write(history, field, n).map_or(0, |write| {
        let worker = history.events()[write].worker;
        16 * history.stretch_number(worker, write) + worker
    })
}

/// The number of the worker's latest stretch that read the field; 0 if none.
fn readers_word(history: &History, field: usize, worker: usize, n: usize) -> usize {
    history
        .reads_before(worker, field, n)
        .last()
        .map_or(0, |&read| history.stretch_number(worker, read))
}

/// How many stretches have written the field.
fn version(history: &History, field: usize, n: usize) -> usize {
    history
        .workers()
        .map(|worker| stretches_that_wrote(history, field, worker, n))
        .sum()
}

fn stretches_that_wrote(history: &History, field: usize, worker: usize, n: usize) -> usize {
    let writes = history.writes_before(worker, field, n);
    let mut stretches: Vec<usize> = writes
        .iter()
        .map(|&write| history.stretch_number(worker, write))
        .collect();
    stretches.dedup();
    stretches.len()
}

/// If the worker's open stretch has read the field at a moment when that same stretch was not its last writer,
/// 1 plus the version at the first such read; else 0.
fn log_word(history: &History, field: usize, worker: usize, n: usize) -> usize {
    let own_writes = history.open_writes(worker, field, n);
    let after_own_write = |read: usize| match last_write(history, field, read) {
        Some(write) => own_writes.contains(&write),
        None => false,
    };
    let reads = history.open_reads(worker, field, n);
    let first = reads.iter().find(|&&read| !after_own_write(read));
    first.map_or(0, |&read| 1 + version(history, field, read))
}
