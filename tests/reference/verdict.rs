//! The early and the late verdict by the document's sentences, looking back over the events; no tables.

use crate::file::{Event, Kind, Recording};

/// A field with this label or a higher one is a flag; every other field is plain data.
pub const FIRST_FLAG_LABEL: u16 = 32_768;
/// Stands for another worker that is not recorded.
pub const NOT_RECORDED: usize = 16;
pub const WRITE_AFTER_WRITE: u32 = 1;
pub const WRITE_AFTER_READ: u32 = 2;
pub const READ_AFTER_WRITE: u32 = 3;

#[derive(Clone, Copy, PartialEq, Eq, Debug)]
pub struct Report {
    pub event: usize,
    pub sort: u32,
    pub worker: usize,
    pub other: usize,
    pub field: usize,
}

/// What an event does. An access to a flag is no read or write of a field: it clashes with nothing and enters no table
/// but the stretch table.
#[derive(Clone, Copy, PartialEq, Eq)]
enum Deed {
    Read,
    Write,
    Crossing,
    FlagAccess,
}

impl Deed {
    /// An access is to a flag by the label of its own field. A crossing's field number names no field.
    fn of(recording: &Recording, event: Event) -> Deed {
        let is_flag = recording.fields[event.field] >= FIRST_FLAG_LABEL;
        match event.kind {
            Kind::Crossing => Deed::Crossing,
            Kind::Read | Kind::Write if is_flag => Deed::FlagAccess,
            Kind::Read => Deed::Read,
            Kind::Write => Deed::Write,
        }
    }
}

/// A recording with the event numbers of each worker's crossings, flag accesses, reads and writes, rising.
pub struct History<'a> {
    recording: &'a Recording,
    crossings: Vec<Vec<usize>>,
    flag_accesses: Vec<Vec<usize>>,
    reads: Vec<Vec<usize>>,
    writes: Vec<Vec<usize>>,
}

/// The event numbers from `from` on and below `to`.
fn between(numbers: &[usize], from: usize, to: usize) -> &[usize] {
    let start = numbers.partition_point(|&i| i < from);
    let end = numbers.partition_point(|&i| i < to);
    &numbers[start..end.max(start)]
}

impl<'a> History<'a> {
    pub fn of(recording: &'a Recording) -> Self {
        let pairs = recording.workers.len() * recording.fields.len();
        let mut history = History {
            recording,
            crossings: vec![Vec::new(); recording.workers.len()],
            flag_accesses: vec![Vec::new(); recording.workers.len()],
            reads: vec![Vec::new(); pairs],
            writes: vec![Vec::new(); pairs],
        };
        for (n, &event) in recording.events.iter().enumerate() {
            let pair = history.pair(event.worker, event.field);
            match Deed::of(recording, event) {
                Deed::Read => history.reads[pair].push(n),
                Deed::Write => history.writes[pair].push(n),
                Deed::Crossing => history.crossings[event.worker].push(n),
                Deed::FlagAccess => history.flag_accesses[event.worker].push(n),
            }
        }
        history
    }

    fn pair(&self, worker: usize, field: usize) -> usize {
        worker * self.recording.fields.len() + field
    }

    pub fn events(&self) -> &[Event] {
        &self.recording.events
    }

    pub fn workers(&self) -> std::ops::Range<usize> {
        0..self.recording.workers.len()
    }

    pub fn fields(&self) -> std::ops::Range<usize> {
        0..self.recording.fields.len()
    }

    fn others(&self, worker: usize) -> impl Iterator<Item = usize> {
        self.workers().filter(move |&other| other != worker)
    }

    fn deed(&self, n: usize) -> Deed {
        Deed::of(self.recording, self.events()[n])
    }

    /// The worker's crossings before event n.
    fn crossings_before(&self, worker: usize, n: usize) -> &[usize] {
        between(&self.crossings[worker], 0, n)
    }

    /// The worker's flag accesses before event n.
    fn flag_accesses_before(&self, worker: usize, n: usize) -> &[usize] {
        between(&self.flag_accesses[worker], 0, n)
    }

    /// The number of the worker's stretch open at event n: 1 plus its crossings so far, plus two for each flag access,
    /// which is a stretch by itself and opens another.
    pub fn stretch_number(&self, worker: usize, n: usize) -> usize {
        1 + self.crossings_before(worker, n).len() + 2 * self.flag_accesses_before(worker, n).len()
    }

    /// The first event number that lies in the worker's stretch open at event n: the one after its last crossing or
    /// flag access.
    fn stretch_start(&self, worker: usize, n: usize) -> usize {
        let crossing = self.crossings_before(worker, n).last();
        let flag_access = self.flag_accesses_before(worker, n).last();
        crossing.max(flag_access).map_or(0, |&last| last + 1)
    }

    /// Reads of the field before event n by the worker's stretch open at n.
    pub fn open_reads(&self, worker: usize, field: usize, n: usize) -> &[usize] {
        between(
            &self.reads[self.pair(worker, field)],
            self.stretch_start(worker, n),
            n,
        )
    }

    /// Writes of the field before event n by the worker's stretch open at n.
    pub fn open_writes(&self, worker: usize, field: usize, n: usize) -> &[usize] {
        between(
            &self.writes[self.pair(worker, field)],
            self.stretch_start(worker, n),
            n,
        )
    }

    pub fn reads_before(&self, worker: usize, field: usize, n: usize) -> &[usize] {
        between(&self.reads[self.pair(worker, field)], 0, n)
    }

    pub fn writes_before(&self, worker: usize, field: usize, n: usize) -> &[usize] {
        between(&self.writes[self.pair(worker, field)], 0, n)
    }

    /// The lowest other worker whose open stretch has written the field.
    fn open_writer(&self, worker: usize, field: usize, n: usize) -> Option<usize> {
        self.others(worker)
            .find(|&other| !self.open_writes(other, field, n).is_empty())
    }

    /// The lowest other worker whose open stretch has read the field.
    fn open_reader(&self, worker: usize, field: usize, n: usize) -> Option<usize> {
        self.others(worker)
            .find(|&other| !self.open_reads(other, field, n).is_empty())
    }

    /// The clash of event n with an open stretch that has written the field: sort 1 or 3.
    fn clash_with_writer(&self, n: usize) -> Option<Report> {
        let Event { worker, field, .. } = self.events()[n];
        let sort = match self.deed(n) {
            Deed::Read => READ_AFTER_WRITE,
            Deed::Write => WRITE_AFTER_WRITE,
            Deed::Crossing | Deed::FlagAccess => return None,
        };
        let other = self.open_writer(worker, field, n)?;
        Some(Report {
            event: n,
            sort,
            worker,
            other,
            field,
        })
    }

    /// The clash of a write at event n with an open stretch that has read the field: sort 2.
    fn clash_with_reader(&self, n: usize) -> Option<Report> {
        let Event { worker, field, .. } = self.events()[n];
        if self.deed(n) != Deed::Write {
            return None;
        }
        let other = self.open_reader(worker, field, n)?;
        Some(Report {
            event: n,
            sort: WRITE_AFTER_READ,
            worker,
            other,
            field,
        })
    }

    /// If a write meets both, sort 1 is reported.
    fn clash(&self, n: usize) -> Option<Report> {
        self.clash_with_writer(n)
            .or_else(|| self.clash_with_reader(n))
    }

    /// The lowest-numbered event that clashes; nothing if the recording is accepted.
    pub fn early(&self) -> Option<Report> {
        (0..self.events().len()).find_map(|n| self.clash(n))
    }

    /// The worker's stretch open at event n read the field and another worker wrote it after that read.
    fn stale(&self, worker: usize, field: usize, n: usize) -> bool {
        self.open_reads(worker, field, n).iter().any(|&read| {
            self.others(worker).any(|other| {
                let writes = &self.writes[self.pair(other, field)];
                !between(writes, read + 1, n).is_empty()
            })
        })
    }

    /// The lowest field that is stale for the worker at event n, or at the end if n is the event count.
    fn stale_read(&self, worker: usize, n: usize) -> Option<Report> {
        let field = self.fields().find(|&field| self.stale(worker, field, n))?;
        Some(Report {
            event: n,
            sort: WRITE_AFTER_READ,
            worker,
            other: NOT_RECORDED,
            field,
        })
    }

    /// A flag access is checked as a crossing is.
    fn late_at(&self, n: usize) -> Option<Report> {
        match self.deed(n) {
            Deed::Read | Deed::Write => self.clash_with_writer(n),
            Deed::Crossing | Deed::FlagAccess => self.stale_read(self.events()[n].worker, n),
        }
    }

    fn late_at_the_end(&self) -> Option<Report> {
        self.workers()
            .find_map(|worker| self.stale_read(worker, self.events().len()))
    }

    /// The first late report in event order; nothing if the recording is accepted.
    pub fn late(&self) -> Option<Report> {
        (0..self.events().len())
            .find_map(|n| self.late_at(n))
            .or_else(|| self.late_at_the_end())
    }
}

#[cfg(test)]
mod tests {
    use super::*;
    use crate::generate::{self, Shape};
    use crate::notation::{self, FIRST_FIELD_LABEL};
    use crate::random::Random;

    fn recordings() -> impl Iterator<Item = Recording> {
        let mut random = Random::new(7);
        let shape = move |_| {
            let shape = Shape::random(&mut random);
            generate::recording(
                &Shape {
                    events: shape.events.min(200),
                    ..shape
                },
                &mut random,
            )
        };
        generate::all_small(2, &[FIRST_FIELD_LABEL], 5)
            .chain(generate::all_small(3, &[FIRST_FIELD_LABEL], 4))
            .chain(generate::all_small(
                2,
                &[FIRST_FIELD_LABEL, FIRST_FLAG_LABEL],
                4,
            ))
            .chain((0..2000).map(shape))
    }

    /// Event i is the worker's, and a crossing or an access to a flag.
    fn closes(recording: &Recording, worker: usize, i: usize) -> bool {
        let event = recording.events[i];
        let closing = event.kind == Kind::Crossing || recording.fields[event.field] >= 32_768;
        event.worker == worker && closing
    }

    /// The same access at some i before n, and from there on nothing that closes the worker's stretch: an access to a
    /// flag is never open, as it closes the stretch itself.
    fn open_access(recording: &Recording, access: Event, n: usize) -> bool {
        let none_closes = |i| (i..n).all(|j| !closes(recording, access.worker, j));
        (0..n).any(|i| recording.events[i] == access && none_closes(i))
    }

    #[test]
    fn open_accesses_are_those_with_no_crossing_since() {
        for recording in recordings() {
            let history = History::of(&recording);
            let n = recording.events.len();
            for (worker, field) in history
                .workers()
                .flat_map(|worker| (0..2).map(move |field| (worker, field)))
            {
                if field < recording.fields.len() {
                    let read = Event {
                        kind: Kind::Read,
                        worker,
                        field,
                    };
                    let write = Event {
                        kind: Kind::Write,
                        worker,
                        field,
                    };
                    assert_eq!(
                        !history.open_reads(worker, field, n).is_empty(),
                        open_access(&recording, read, n)
                    );
                    assert_eq!(
                        !history.open_writes(worker, field, n).is_empty(),
                        open_access(&recording, write, n)
                    );
                }
            }
        }
    }

    /// The event number of the worker's next crossing or flag access after event n, or the event count.
    fn next_crossing(recording: &Recording, worker: usize, n: usize) -> usize {
        let end = recording.events.len();
        (n + 1..end)
            .find(|&i| closes(recording, worker, i))
            .unwrap_or(end)
    }

    #[test]
    fn the_late_finder_meets_the_third_demand() {
        for recording in recordings() {
            let history = History::of(&recording);
            match (history.early(), history.late()) {
                (None, None) => (),
                (Some(early), Some(late)) => meets_the_third_demand(&history, early, late),
                _ => panic!("one verdict accepts and one reports {recording:?}"),
            }
        }
    }

    fn meets_the_third_demand(history: &History, early: Report, late: Report) {
        assert!(early.event <= late.event, "{early:?} {late:?}");
        if early.sort != WRITE_AFTER_READ {
            assert_eq!(early, late);
            return;
        }
        let has_read = |&reader: &usize| {
            let reads = history.open_reads(reader, early.field, early.event);
            !reads.is_empty()
        };
        for reader in history.others(early.worker).filter(has_read) {
            let latest = next_crossing(history.recording, reader, early.event);
            assert!(late.event <= latest, "{early:?} {late:?}");
        }
    }

    /// The stretch numbers of worker 0 before each event and at the end.
    fn stretch_numbers(events: &str, fields: &str) -> Vec<usize> {
        let recording = notation::recording(events, None, notation::labels(fields).ok())
            .expect("the notation is good");
        let history = History::of(&recording);
        (0..=recording.events.len())
            .map(|n| history.stretch_number(0, n))
            .collect()
    }

    #[test]
    fn a_flag_access_raises_the_stretch_number_by_two() {
        let numbers = stretch_numbers("W0.0 R0.1 W0.0 W0.1 B0 R1.1 R0.0", "7,32768");
        assert_eq!(numbers, [1, 1, 3, 3, 5, 6, 6, 6]);
        let plain = stretch_numbers("W0.0 R0.1 W0.0 W0.1 B0 R1.1 R0.0", "7,32767");
        assert_eq!(plain, [1, 1, 1, 1, 1, 2, 2, 2]);
    }

    #[test]
    fn a_crossing_is_no_access_to_field_0() {
        assert_eq!(stretch_numbers("B0 R0.0 B0", "32768"), [1, 2, 4, 5]);
    }
}
