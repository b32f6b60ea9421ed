//! The recordings that the finders are timed on: 16,000 events, mostly reads or mostly writes, none of them a clash.

use reference::file::{self, Kind, Recording};
use reference::generate::{self, Care, Shape};
use reference::random::Random;
use reference::verdict::FIRST_FLAG_LABEL;
use reference::writing::{Rows, Written};

use crate::proved;

const SEED: u64 = 16_000;

pub struct Input {
    pub name: String,
    pub recording: Recording,
    pub file: Vec<u8>,
}

/// Two and sixteen workers, mostly reads and mostly writes: each with few crossings, with many, and with flags.
pub fn all() -> Vec<Input> {
    let mut inputs = Vec::new();
    for (accesses, writes) in [("reads", 100), ("writes", 900)] {
        for workers in [2, 16] {
            let mut add = |kind, shape| {
                let name = format!("mostly {accesses}, {workers} workers, {kind}");
                inputs.push(input(name, &shape));
            };
            add("few crossings", with_crossings(workers, writes, 2));
            add("many crossings", with_crossings(workers, writes, 100));
            add("flags", with_flags(workers, writes));
        }
    }
    inputs
}

/// Every field is plain data. Crossings are of a thousand events, writes of a thousand accesses. A worker that finds no
/// free field crosses too, so that nothing clashes: with sixteen that mostly write, there are never few crossings.
fn with_crossings(workers: usize, writes: usize, crossings: usize) -> Shape {
    Shape {
        workers,
        fields: file::MOST_FIELDS,
        flags: 0,
        events: file::MOST_EVENTS,
        crossings,
        writes,
        flag_accesses: 0,
        hot_fields: 8,
        runs: 50,
        care: Care::Careful,
        care_ends: file::MOST_EVENTS,
    }
}

/// Half of the fields are flags, and a tenth of the accesses are of one: they close stretches in place of crossings.
fn with_flags(workers: usize, writes: usize) -> Shape {
    Shape {
        flags: file::MOST_FIELDS / 2,
        flag_accesses: 100,
        ..with_crossings(workers, writes, 2)
    }
}

fn input(name: String, shape: &Shape) -> Input {
    let recording = generate::recording(shape, &mut Random::new(SEED));
    let file = written(&Rows::of(&recording));
    Input {
        name,
        recording,
        file,
    }
}

/// The file of these rows, by the proved writer.
fn written(rows: &Rows) -> Vec<u8> {
    let mut file = vec![0; rows.file_length()];
    let answer = proved::write(rows, &mut file);
    assert_eq!(answer, Written::Bytes(file.len()));
    file
}

impl Input {
    /// How many of the fields are flags: the last ones, since labels rise.
    pub fn flags(&self) -> usize {
        let labels = self.recording.fields.iter();
        labels.filter(|&&label| label >= FIRST_FLAG_LABEL).count()
    }

    /// How many fields and flags there are, and events of each kind.
    pub fn describe(&self) -> String {
        let count = |kind| {
            self.recording
                .events
                .iter()
                .filter(|event| event.kind == kind)
                .count()
        };
        let (reads, writes, crossings) =
            (count(Kind::Read), count(Kind::Write), count(Kind::Crossing));
        format!(
            "{}: {} fields, {} of them flags, {reads} reads, {writes} writes, {crossings} crossings",
            self.name,
            self.recording.fields.len(),
            self.flags()
        )
    }
}
