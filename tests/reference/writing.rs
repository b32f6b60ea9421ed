//! The writer: what it must answer to rows of labels and events, and what it must leave in the buffer it is lent.

use crate::file::{Kind, Recording, Refused, EVENT_BYTES, MOST_EVENTS, MOST_FIELDS, MOST_WORKERS};

const CROSSING: u32 = 3;

/// The five rows that the writer is given; event n is entry n of the last three.
#[derive(Clone, PartialEq, Eq, Debug, Default)]
pub struct Rows {
    pub worker_labels: Vec<u32>,
    pub field_labels: Vec<u32>,
    pub kinds: Vec<u32>,
    pub workers: Vec<u32>,
    pub fields: Vec<u32>,
}

#[derive(Clone, Copy, PartialEq, Eq, Debug)]
pub enum Written {
    Refused(Refused),
    /// So many bytes at the start of the buffer are the file.
    Bytes(usize),
}

impl Rows {
    pub fn of(recording: &Recording) -> Rows {
        let events = &recording.events;
        Rows {
            worker_labels: recording
                .workers
                .iter()
                .map(|&label| label.into())
                .collect(),
            field_labels: recording.fields.iter().map(|&label| label.into()).collect(),
            kinds: events.iter().map(|event| kind_number(event.kind)).collect(),
            workers: events.iter().map(|event| event.worker as u32).collect(),
            fields: events.iter().map(|event| event.field as u32).collect(),
        }
    }

    fn event_rows(&self) -> [usize; 3] {
        [self.kinds.len(), self.workers.len(), self.fields.len()]
    }

    /// How many events there are to be written: as many as the longest of their rows has entries.
    pub fn events(&self) -> usize {
        self.event_rows().into_iter().fold(0, usize::max)
    }

    /// How many events have all three numbers.
    fn whole_events(&self) -> usize {
        self.event_rows().into_iter().fold(usize::MAX, usize::min)
    }

    fn first_event(&self) -> usize {
        6 + 2 * self.worker_labels.len() + 2 * self.field_labels.len()
    }

    /// How many bytes the file has.
    pub fn file_length(&self) -> usize {
        self.first_event() + EVENT_BYTES * self.events()
    }
}

fn kind_number(kind: Kind) -> u32 {
    match kind {
        Kind::Read => 1,
        Kind::Write => 2,
        Kind::Crossing => CROSSING,
    }
}

/// The answer, after which the buffer is as the writer must leave it.
pub fn write(rows: &Rows, buffer: &mut [u8]) -> Written {
    if let Some(refused) = refusal(rows) {
        return Written::Refused(refused);
    }
    let file = file_of(rows);
    if buffer.len() < file.len() {
        return Written::Refused(Refused {
            number: 12,
            place: 0,
        });
    }
    buffer[..file.len()].copy_from_slice(&file);
    Written::Bytes(file.len())
}

/// One test of the rows: whether it fails, and what it then answers.
struct Test {
    fails: bool,
    refused: Refused,
}

/// Every test of the rows, in the order of reading; the first that fails is the answer. The file can be written only up
/// to what has no room in it, or is not there: it ends before that, which is number 1.
fn refusal(rows: &Rows) -> Option<Refused> {
    let worker_count = rows.worker_labels.len();
    let field_count = rows.field_labels.len();
    let mut tests = Vec::new();
    let mut test = |fails, number, place| {
        tests.push(Test {
            fails,
            refused: Refused { number, place },
        })
    };
    test(worker_count == 0 || worker_count > MOST_WORKERS, 2, 0);
    label_tests(&rows.worker_labels, 2, 3, &mut test);
    let fields_at = 2 + 2 * worker_count;
    test(field_count == 0 || field_count > MOST_FIELDS, 4, fields_at);
    label_tests(&rows.field_labels, fields_at + 2, 5, &mut test);
    let first_event = rows.first_event();
    test(rows.events() > MOST_EVENTS, 6, first_event - 2);
    // An event that lacks one of its numbers.
    let whole = rows.whole_events();
    test(whole < rows.events(), 1, first_event + EVENT_BYTES * whole);
    for n in 0..whole {
        let (kind, worker, field) = (rows.kinds[n], rows.workers[n], rows.fields[n]);
        let place = first_event + EVENT_BYTES * n;
        test(!(1..=3).contains(&kind), 7, place);
        test(worker as usize >= worker_count, 8, place + 1);
        test(field as usize >= field_count, 9, place + 2);
        test(kind == CROSSING && field != 0, 9, place + 2);
    }
    tests
        .into_iter()
        .find(|test| test.fails)
        .map(|test| test.refused)
}

/// All labels have two bytes, then each is above the one before.
fn label_tests(labels: &[u32], first: usize, order: u32, test: &mut impl FnMut(bool, u32, usize)) {
    for (i, &label) in labels.iter().enumerate() {
        test(label > 65_535, 1, first + 2 * i);
    }
    for i in 1..labels.len() {
        test(labels[i] <= labels[i - 1], order, first + 2 * i);
    }
}

/// The file of rows that passed every test.
fn file_of(rows: &Rows) -> Vec<u8> {
    let mut file = Vec::new();
    let mut two_bytes = |number: u32| file.extend([(number % 256) as u8, (number / 256) as u8]);
    for labels in [&rows.worker_labels, &rows.field_labels] {
        two_bytes(labels.len() as u32);
        labels.iter().for_each(|&label| two_bytes(label));
    }
    two_bytes(rows.events() as u32);
    for n in 0..rows.events() {
        // Kind and worker have a byte each.
        two_bytes(rows.kinds[n] + 256 * rows.workers[n]);
        two_bytes(rows.fields[n]);
    }
    file
}

#[cfg(test)]
mod tests {
    use super::*;
    use crate::file;
    use crate::generate::{self, Shape};
    use crate::random::Random;
    use crate::writings;

    /// Rising labels from 0, and reads of field 0 by worker 0.
    fn plain(workers: u32, fields: u32, events: usize) -> Rows {
        Rows {
            worker_labels: (0..workers).collect(),
            field_labels: (0..fields).collect(),
            kinds: vec![1; events],
            workers: vec![0; events],
            fields: vec![0; events],
        }
    }

    fn refused(rows: &Rows) -> (u32, usize) {
        let mut buffer = [9; 100];
        match write(rows, &mut buffer) {
            Written::Refused(refused) => {
                assert_eq!(buffer, [9; 100]);
                (refused.number, refused.place)
            }
            Written::Bytes(bytes) => panic!("{bytes} bytes of {rows:?} were written"),
        }
    }

    /// The answer by way of the reader: what can be written of the file is read. A number that has no room there
    /// becomes the largest that has, which every test takes in the same way; the file ends at a label that has no
    /// room, and at an event that lacks a number.
    fn refused_by_reading(rows: &Rows) -> Option<Refused> {
        let mut file: Vec<u8> = Vec::new();
        let two_bytes = |number: usize| number.min(65_535).to_le_bytes()[..2].to_vec();
        for labels in [&rows.worker_labels, &rows.field_labels] {
            file.extend(two_bytes(labels.len()));
            for &label in labels {
                if label > 65_535 {
                    return file::read(&file).err();
                }
                file.extend(two_bytes(label as usize));
            }
        }
        file.extend(two_bytes(rows.events()));
        let events = rows.kinds.iter().zip(&rows.workers).zip(&rows.fields);
        for ((&kind, &worker), &field) in events {
            file.push(kind.min(255) as u8);
            file.push(worker.min(255) as u8);
            file.extend(two_bytes(field as usize));
        }
        file::read(&file).err()
    }

    #[test]
    fn tests_are_those_of_reading() {
        let mut random = Random::new(11);
        let mut refusals = 0;
        for _ in 0..20_000 {
            let recording = generate::recording(&Shape::random(&mut random), &mut random);
            let rows = writings::damaged(&Rows::of(&recording), &mut random);
            assert_eq!(refusal(&rows), refused_by_reading(&rows), "{rows:?}");
            refusals += usize::from(refusal(&rows).is_some());
        }
        assert!(refusals > 10_000, "only {refusals} were refused");
    }

    #[test]
    fn recordings_are_written_as_the_encoder_writes_them() {
        let mut random = Random::new(12);
        for _ in 0..2000 {
            let recording = generate::recording(&Shape::random(&mut random), &mut random);
            let rows = Rows::of(&recording);
            let file = file::write(&recording);
            let mut buffer = vec![7; file.len() + 3];
            assert_eq!(rows.file_length(), file.len());
            assert_eq!(write(&rows, &mut buffer), Written::Bytes(file.len()));
            assert_eq!(buffer, [file, vec![7; 3]].concat());
        }
    }

    #[test]
    fn limits_pass_and_one_more_does_not() {
        let mut buffer = vec![0; 65_062];
        assert_eq!(
            write(&plain(16, 512, 16_000), &mut buffer),
            Written::Bytes(65_062)
        );
        assert_eq!(refused(&plain(0, 1, 0)), (2, 0));
        assert_eq!(refused(&plain(17, 1, 0)), (2, 0));
        assert_eq!(refused(&plain(1, 0, 0)), (4, 4));
        assert_eq!(refused(&plain(1, 513, 0)), (4, 4));
        assert_eq!(refused(&plain(1, 1, 16_001)), (6, 8));
    }

    #[test]
    fn a_label_without_two_bytes_comes_before_falling_ones() {
        let mut rows = plain(3, 3, 0);
        rows.field_labels = vec![5, 5, 65_536];
        assert_eq!(refused(&rows), (1, 14));
        rows.worker_labels = vec![5, 4, 70_000];
        assert_eq!(refused(&rows), (1, 6));
        rows.worker_labels = vec![5, 4, 3];
        assert_eq!(refused(&rows), (3, 4));
        rows.worker_labels = vec![65_536, 4, 3];
        assert_eq!(refused(&rows), (1, 2));
    }

    #[test]
    fn event_rows_are_whole_before_they_are_looked_at() {
        let mut rows = plain(1, 1, 2);
        rows.kinds = vec![9, 9];
        rows.fields.pop();
        assert_eq!(refused(&rows), (1, 14));
        rows.kinds = vec![1; 16_001];
        assert_eq!(refused(&rows), (6, 8));
    }

    #[test]
    fn events_are_tested_kind_worker_field() {
        let mut rows = plain(1, 2, 2);
        rows.fields[1] = 2;
        assert_eq!(refused(&rows), (9, 18));
        rows.workers[1] = 256;
        assert_eq!(refused(&rows), (8, 17));
        rows.kinds[1] = 257;
        assert_eq!(refused(&rows), (7, 16));
        rows.fields[0] = 65_536;
        assert_eq!(refused(&rows), (9, 14));
        rows.fields[0] = 1;
        rows.kinds[0] = 3;
        assert_eq!(refused(&rows), (9, 14));
    }

    #[test]
    fn a_short_buffer_comes_last() {
        let mut rows = plain(1, 1, 1);
        assert_eq!(
            write(&rows, &mut [9; 13]),
            Written::Refused(Refused {
                number: 12,
                place: 0
            })
        );
        assert_eq!(write(&rows, &mut [9; 14]), Written::Bytes(14));
        rows.kinds[0] = 0;
        assert_eq!(
            write(&rows, &mut [9; 13]),
            Written::Refused(Refused {
                number: 7,
                place: 10
            })
        );
    }
}
