//! Recording files: bytes to labels and events by the document's tests in their order, and back to bytes.

pub const MOST_WORKERS: usize = 16;
pub const MOST_FIELDS: usize = 512;
pub const MOST_EVENTS: usize = 16_000;
pub const EVENT_BYTES: usize = 4;

#[derive(Clone, Copy, PartialEq, Eq, Debug)]
pub enum Kind {
    Read,
    Write,
    Crossing,
}

/// What one worker did; a crossing has field 0.
#[derive(Clone, Copy, PartialEq, Eq, Debug)]
pub struct Event {
    pub kind: Kind,
    pub worker: usize,
    pub field: usize,
}

/// A well-formed file: the labels of its workers and fields, and its events in their one order.
#[derive(Clone, PartialEq, Eq, Debug)]
pub struct Recording {
    pub workers: Vec<u16>,
    pub fields: Vec<u16>,
    pub events: Vec<Event>,
}

/// The number of the first test that fails, and the byte offset that goes with it.
#[derive(Clone, Copy, PartialEq, Eq, Debug)]
pub struct Refused {
    pub number: u32,
    pub place: usize,
}

fn refuse<T>(number: u32, place: usize) -> Result<T, Refused> {
    Err(Refused { number, place })
}

/// Goes through the file front to back; the first test that fails is the answer.
pub fn read(file: &[u8]) -> Result<Recording, Refused> {
    let mut reader = Reader { file, place: 0 };
    let count = reader.count(1, MOST_WORKERS, 2)?;
    let workers = reader.labels(count, 3)?;
    let count = reader.count(1, MOST_FIELDS, 4)?;
    let fields = reader.labels(count, 5)?;
    let count = reader.count(0, MOST_EVENTS, 6)?;
    let events = reader.events(count, workers.len(), fields.len())?;
    if reader.place < file.len() {
        return refuse(10, reader.place);
    }
    Ok(Recording {
        workers,
        fields,
        events,
    })
}

struct Reader<'a> {
    file: &'a [u8],
    place: usize,
}

impl Reader<'_> {
    /// Test 1: so many bytes are still there.
    fn present(&self, bytes: usize) -> Result<(), Refused> {
        if self.file.len() - self.place < bytes {
            return refuse(1, self.file.len());
        }
        Ok(())
    }

    /// The next two bytes, which are present, the low byte first.
    fn two_bytes(&mut self) -> u16 {
        let low = self.file[self.place];
        let high = self.file[self.place + 1];
        self.place += 2;
        u16::from(low) + 256 * u16::from(high)
    }

    /// A count is present, then in its range.
    fn count(&mut self, least: usize, most: usize, number: u32) -> Result<usize, Refused> {
        self.present(2)?;
        let place = self.place;
        let count = usize::from(self.two_bytes());
        if count < least || count > most {
            return refuse(number, place);
        }
        Ok(count)
    }

    /// All labels are present, then each is above the one before.
    fn labels(&mut self, count: usize, number: u32) -> Result<Vec<u16>, Refused> {
        self.present(2 * count)?;
        let mut labels: Vec<u16> = Vec::new();
        for _ in 0..count {
            let place = self.place;
            let label = self.two_bytes();
            if labels.last().map_or(false, |&before| label <= before) {
                return refuse(number, place);
            }
            labels.push(label);
        }
        Ok(labels)
    }

    /// All events are present, then each is in order.
    fn events(
        &mut self,
        count: usize,
        workers: usize,
        fields: usize,
    ) -> Result<Vec<Event>, Refused> {
        self.present(EVENT_BYTES * count)?;
        (0..count).map(|_| self.event(workers, fields)).collect()
    }

    /// Within an event: kind, worker, field, each refused at its own first byte.
    fn event(&mut self, workers: usize, fields: usize) -> Result<Event, Refused> {
        let place = self.place;
        let kind = match self.file[place] {
            1 => Kind::Read,
            2 => Kind::Write,
            3 => Kind::Crossing,
            _ => return refuse(7, place),
        };
        let worker = usize::from(self.file[place + 1]);
        if worker >= workers {
            return refuse(8, place + 1);
        }
        self.place = place + 2;
        let field = usize::from(self.two_bytes());
        if field >= fields || (kind == Kind::Crossing && field != 0) {
            return refuse(9, place + 2);
        }
        Ok(Event {
            kind,
            worker,
            field,
        })
    }
}

/// The bytes of a recording, also of one that breaks the rules, so that bad files can be made.
pub fn write(recording: &Recording) -> Vec<u8> {
    let mut file = Vec::new();
    write_labels(&mut file, &recording.workers);
    write_labels(&mut file, &recording.fields);
    write_two_bytes(&mut file, recording.events.len() as u16);
    for event in &recording.events {
        file.push(kind_byte(event.kind));
        file.push(event.worker as u8);
        write_two_bytes(&mut file, event.field as u16);
    }
    file
}

fn kind_byte(kind: Kind) -> u8 {
    match kind {
        Kind::Read => 1,
        Kind::Write => 2,
        Kind::Crossing => 3,
    }
}

fn write_labels(file: &mut Vec<u8>, labels: &[u16]) {
    write_two_bytes(file, labels.len() as u16);
    for &label in labels {
        write_two_bytes(file, label);
    }
}

fn write_two_bytes(file: &mut Vec<u8>, number: u16) {
    file.extend(number.to_le_bytes());
}

#[cfg(test)]
mod tests {
    use super::*;

    /// Rising labels from 0, and reads of field 0 by worker 0.
    fn plain(workers: usize, fields: usize, events: usize) -> Vec<u8> {
        let read = Event {
            kind: Kind::Read,
            worker: 0,
            field: 0,
        };
        write(&Recording {
            workers: (0..workers as u16).collect(),
            fields: (0..fields as u16).collect(),
            events: vec![read; events],
        })
    }

    fn refused(file: &[u8]) -> (u32, usize) {
        let Refused { number, place } = read(file).expect_err("the file should be refused");
        (number, place)
    }

    fn changed(mut file: Vec<u8>, changes: &[(usize, u8)]) -> Vec<u8> {
        for &(place, byte) in changes {
            file[place] = byte;
        }
        file
    }

    #[test]
    fn empty_file_and_one_byte() {
        assert_eq!(refused(&[]), (1, 0));
        assert_eq!(refused(&[1]), (1, 1));
    }

    #[test]
    fn limits_pass_and_one_more_does_not() {
        assert!(read(&plain(16, 1, 0)).is_ok());
        assert_eq!(refused(&plain(17, 1, 0)), (2, 0));
        assert_eq!(refused(&plain(0, 1, 0)), (2, 0));
        assert!(read(&plain(1, 512, 0)).is_ok());
        assert_eq!(refused(&plain(1, 513, 0)), (4, 4));
        assert_eq!(refused(&plain(1, 0, 0)), (4, 4));
        assert!(read(&plain(1, 1, 16_000)).is_ok());
        assert_eq!(refused(&plain(1, 1, 16_001)), (6, 8));
    }

    #[test]
    fn largest_file_has_65062_bytes() {
        let file = plain(16, 512, 16_000);
        assert_eq!(file.len(), 65_062);
        assert!(read(&file).is_ok());
    }

    #[test]
    fn labels_must_rise() {
        assert_eq!(refused(&changed(plain(2, 1, 0), &[(4, 0)])), (3, 4));
        assert_eq!(refused(&changed(plain(3, 1, 0), &[(6, 1)])), (3, 6));
        assert_eq!(refused(&changed(plain(1, 2, 0), &[(8, 0)])), (5, 8));
    }

    #[test]
    fn high_byte_of_a_label_counts() {
        assert!(read(&changed(plain(2, 1, 0), &[(2, 255), (4, 0), (5, 1)])).is_ok());
    }

    #[test]
    fn every_cut_ends_before_a_count_or_an_item() {
        let file = plain(2, 2, 2);
        for length in 0..file.len() {
            assert_eq!(refused(&file[..length]), (1, length));
        }
    }

    #[test]
    fn events_are_tested_kind_worker_field() {
        let file = plain(1, 1, 2);
        assert_eq!(refused(&changed(file.clone(), &[(14, 0)])), (7, 14));
        assert_eq!(
            refused(&changed(file.clone(), &[(14, 4), (15, 9), (16, 9)])),
            (7, 14)
        );
        assert_eq!(
            refused(&changed(file.clone(), &[(15, 1), (16, 9)])),
            (8, 15)
        );
        assert_eq!(refused(&changed(file.clone(), &[(16, 1)])), (9, 16));
        assert_eq!(refused(&changed(file, &[(17, 1)])), (9, 16));
    }

    #[test]
    fn a_crossing_has_field_0() {
        let file = plain(1, 2, 1);
        assert_eq!(
            refused(&changed(file.clone(), &[(12, 3), (14, 1)])),
            (9, 14)
        );
        assert!(read(&changed(file, &[(12, 3)])).is_ok());
    }

    #[test]
    fn items_are_present_before_they_are_looked_at() {
        let equal_labels = changed(plain(2, 1, 0), &[(4, 0)]);
        assert_eq!(refused(&equal_labels[..5]), (1, 5));
        let bad_kind = changed(plain(1, 1, 2), &[(10, 9)]);
        assert_eq!(refused(&bad_kind[..17]), (1, 17));
    }

    #[test]
    fn extra_bytes_come_last() {
        let mut file = plain(1, 1, 1);
        file.push(0);
        assert_eq!(refused(&file), (10, 14));
        assert_eq!(refused(&changed(file, &[(10, 0)])), (7, 10));
    }

    #[test]
    fn what_is_read_is_written_again() {
        let file = plain(3, 4, 5);
        assert_eq!(read(&file).map(|recording| write(&recording)), Ok(file));
    }
}
