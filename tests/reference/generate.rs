//! Recordings to compare on: random ones, all small ones, and damaged files.

use std::collections::BTreeSet;

use crate::file::{
    self, Event, Kind, Recording, EVENT_BYTES, MOST_EVENTS, MOST_FIELDS, MOST_WORKERS,
};
use crate::notation::{rising, FIRST_WORKER_LABEL};
use crate::random::Random;
use crate::verdict::FIRST_FLAG_LABEL;

/// Which clashes a random recording keeps clear of.
#[derive(Clone, Copy, PartialEq, Eq)]
pub enum Care {
    /// None: most longer recordings are reported at an access.
    Careless,
    /// Those with open writers only: what is left is reported late at a crossing, at a flag access or at the end.
    OverReaders,
    /// All: the recording is accepted.
    Careful,
}

/// What a random recording looks like.
pub struct Shape {
    pub workers: usize,
    pub fields: usize,
    /// So many of the fields are flags: the last ones, since labels rise.
    pub flags: usize,
    pub events: usize,
    /// Crossings in a thousand events.
    pub crossings: usize,
    /// Writes in a thousand accesses.
    pub writes: usize,
    /// Flag accesses in a thousand accesses: 0 if no field is a flag, 1000 if every field is one.
    pub flag_accesses: usize,
    /// So many of the plain fields get most of their accesses.
    pub hot_fields: usize,
    /// One worker goes on in so many of a hundred events.
    pub runs: usize,
    pub care: Care,
    /// From this event on there is no care.
    pub care_ends: usize,
}

impl Shape {
    pub fn random(random: &mut Random) -> Shape {
        let workers = match random.below(4) {
            0 => random.from_to(1, MOST_WORKERS),
            _ => random.one_of(&[2, 2, 2, 3, 3, 4, 5, 16]),
        };
        let fields = match random.below(5) {
            0 => random.from_to(1, MOST_FIELDS),
            _ => random.one_of(&[1, 1, 2, 2, 3, 4, 6, 10, MOST_FIELDS]),
        };
        // A flag access closes a stretch, so recordings with many of them hold few clashes: more than half of the
        // recordings have no flag, one in twenty has nothing else, and in the others most accesses are to plain fields.
        let (flags, flag_accesses) = match random.below(20) {
            0 => (fields, 1000),
            1..=9 if fields > 1 => {
                let flags = random.from_to(1, fields - 1);
                (flags, random.one_of(&[30, 100, 300]))
            }
            _ => (0, 0),
        };
        let plain_fields = fields - flags;
        let events = match random.below(1000) {
            0 => random.one_of(&[MOST_EVENTS - 1, MOST_EVENTS]),
            1..=20 => random.from_to(300, 3000),
            21..=200 => random.from_to(40, 300),
            _ => random.below(40),
        };
        let (care, care_ends) = match random.below(20) {
            0..=4 => (Care::Careful, events),
            5..=11 => (Care::OverReaders, events),
            12..=14 => (Care::Careless, events),
            _ => (Care::Careful, random.below(events + 1)),
        };
        Shape {
            workers,
            fields,
            flags,
            events,
            crossings: random.one_of(&[5, 30, 100, 250]),
            writes: random.one_of(&[30, 100, 250, 500]),
            flag_accesses,
            hot_fields: random.from_to(plain_fields.min(1), plain_fields.min(4)),
            runs: random.one_of(&[0, 30, 80]),
            care,
            care_ends,
        }
    }

    fn plain_fields(&self) -> usize {
        self.fields - self.flags
    }
}

/// Which workers' open stretches have read and written each plain field, a bit each: only to steer the events.
struct OpenStretches {
    read: Vec<u16>,
    written: Vec<u16>,
}

impl OpenStretches {
    fn none(shape: &Shape) -> OpenStretches {
        OpenStretches {
            read: vec![0; shape.plain_fields()],
            written: vec![0; shape.plain_fields()],
        }
    }

    /// The plain fields come first.
    fn is_flag(&self, field: usize) -> bool {
        field >= self.read.len()
    }

    fn enter(&mut self, event: Event) {
        let bit = 1 << event.worker;
        match event.kind {
            Kind::Crossing => self.close(bit),
            _ if self.is_flag(event.field) => self.close(bit),
            Kind::Read => self.read[event.field] |= bit,
            Kind::Write => self.written[event.field] |= bit,
        }
    }

    fn close(&mut self, bit: u16) {
        let all = self.read.iter_mut().chain(&mut self.written);
        all.for_each(|bits| *bits &= !bit);
    }

    fn allows(&self, access: Event, care: Care) -> bool {
        if self.is_flag(access.field) {
            return true;
        }
        let others: u16 = !(1 << access.worker);
        let meets_writer = self.written[access.field] & others != 0;
        let meets_reader = access.kind == Kind::Write && self.read[access.field] & others != 0;
        match care {
            Care::Careless => true,
            Care::OverReaders => !meets_writer,
            Care::Careful => !meets_writer && !meets_reader,
        }
    }
}

pub fn recording(shape: &Shape, random: &mut Random) -> Recording {
    let workers = labels(shape.workers, 0, u16::MAX, random);
    let mut fields = labels(shape.plain_fields(), 0, FIRST_FLAG_LABEL - 1, random);
    fields.extend(labels(shape.flags, FIRST_FLAG_LABEL, u16::MAX, random));
    let mut open = OpenStretches::none(shape);
    let mut events: Vec<Event> = Vec::new();
    for n in 0..shape.events {
        let worker = match events.last() {
            Some(before) if random.percent(shape.runs) => before.worker,
            _ => random.below(shape.workers),
        };
        let care = if n < shape.care_ends {
            shape.care
        } else {
            Care::Careless
        };
        let event = next_event(shape, worker, care, &open, random);
        open.enter(event);
        events.push(event);
    }
    Recording {
        workers,
        fields,
        events,
    }
}

/// A crossing also if no access can be found that the care allows.
fn next_event(
    shape: &Shape,
    worker: usize,
    care: Care,
    open: &OpenStretches,
    random: &mut Random,
) -> Event {
    let crossing = Event {
        kind: Kind::Crossing,
        worker,
        field: 0,
    };
    if random.below(1000) < shape.crossings {
        return crossing;
    }
    let mut accesses = (0..10).map(|_| access(shape, worker, random));
    accesses
        .find(|&access| open.allows(access, care))
        .unwrap_or(crossing)
}

fn access(shape: &Shape, worker: usize, random: &mut Random) -> Event {
    let kind = if random.below(1000) < shape.writes {
        Kind::Write
    } else {
        Kind::Read
    };
    Event {
        kind,
        worker,
        field: field(shape, random),
    }
}

/// A flag, one of the hot fields, or any plain field.
fn field(shape: &Shape, random: &mut Random) -> usize {
    if random.below(1000) < shape.flag_accesses {
        return shape.plain_fields() + random.below(shape.flags);
    }
    let fields = if random.percent(60) {
        shape.hot_fields
    } else {
        shape.plain_fields()
    };
    random.below(fields)
}

/// So many rising labels from `least` to `most`: in small steps or anywhere, also these two values themselves.
fn labels(count: usize, least: u16, most: u16, random: &mut Random) -> Vec<u16> {
    if count == 0 {
        return Vec::new();
    }
    if random.percent(30) {
        return rising(least + random.below(3) as u16, count);
    }
    let mut labels = BTreeSet::new();
    if random.percent(20) {
        labels.insert(random.one_of(&[least, most]));
    }
    while labels.len() < count {
        labels.insert(random.from_to(least.into(), most.into()) as u16);
    }
    labels.into_iter().collect()
}

/// All recordings of up to so many events, over fields with these labels.
pub fn all_small(
    workers: usize,
    fields: &[u16],
    most_events: usize,
) -> impl Iterator<Item = Recording> {
    let fields = fields.to_vec();
    let choices = all_events(workers, fields.len());
    (0..=most_events).flat_map(move |length| {
        let (fields, choices) = (fields.clone(), choices.clone());
        (0..choices.len().pow(length as u32)).map(move |number| Recording {
            workers: rising(FIRST_WORKER_LABEL, workers),
            fields: fields.clone(),
            events: digits(number, length, choices.len())
                .map(|digit| choices[digit])
                .collect(),
        })
    })
}

fn all_events(workers: usize, fields: usize) -> Vec<Event> {
    let of_worker = |worker| {
        let accesses = move |kind| {
            (0..fields).map(move |field| Event {
                kind,
                worker,
                field,
            })
        };
        let crossing = Event {
            kind: Kind::Crossing,
            worker,
            field: 0,
        };
        accesses(Kind::Read)
            .chain(accesses(Kind::Write))
            .chain([crossing])
    };
    (0..workers).flat_map(of_worker).collect()
}

fn digits(number: usize, length: usize, base: usize) -> impl Iterator<Item = usize> {
    (0..length as u32).map(move |digit| number / base.pow(digit) % base)
}

/// Where the parts of a well-formed file lie.
struct Layout {
    workers: usize,
    fields: usize,
    events: usize,
}

impl Layout {
    fn field_count(&self) -> usize {
        2 + 2 * self.workers
    }

    fn event_count(&self) -> usize {
        self.field_count() + 2 + 2 * self.fields
    }

    fn event(&self, n: usize) -> usize {
        self.event_count() + 2 + EVENT_BYTES * n
    }
}

/// The file of a recording with one to three faults, so that the order of tests decides; some faults do no harm.
pub fn damaged(recording: &Recording, random: &mut Random) -> Vec<u8> {
    let mut file = file::write(recording);
    let layout = Layout {
        workers: recording.workers.len(),
        fields: recording.fields.len(),
        events: recording.events.len(),
    };
    for _ in 0..random.one_of(&[1, 1, 1, 2, 2, 3]) {
        damage(&mut file, &layout, random);
    }
    file
}

fn damage(file: &mut Vec<u8>, layout: &Layout, random: &mut Random) {
    match random.below(14) {
        0 => bend_count(file, 0, MOST_WORKERS, random),
        1 => bend_count(file, layout.field_count(), MOST_FIELDS, random),
        2 => bend_count(file, layout.event_count(), MOST_EVENTS, random),
        3 | 4 => bend_label(file, 2, layout.workers, random),
        5 | 6 => bend_label(file, layout.field_count() + 2, layout.fields, random),
        7..=11 => bend_event(file, layout, random),
        12 => cut(file, layout, random),
        _ => extend(file, random),
    }
}

/// Puts a two-byte number; an earlier cut may have taken the place away.
fn put(file: &mut [u8], place: usize, number: usize) {
    for (byte, value) in file
        .iter_mut()
        .skip(place)
        .zip((number as u16).to_le_bytes())
    {
        *byte = value;
    }
}

fn two_bytes(file: &[u8], place: usize) -> usize {
    let byte = |place: usize| file.get(place).map_or(0, |&byte| usize::from(byte));
    byte(place) + 256 * byte(place + 1)
}

fn bend_count(file: &mut [u8], place: usize, most: usize, random: &mut Random) {
    let count = two_bytes(file, place);
    let near = [count.saturating_sub(1), count + 1, count + 256];
    let bent = [0, 1, most, most + 1, 256, 65_535, random.one_of(&near)];
    put(file, place, random.one_of(&bent));
}

/// Makes a label equal to the one before or lower.
fn bend_label(file: &mut [u8], first: usize, count: usize, random: &mut Random) {
    if count < 2 {
        return;
    }
    let place = first + 2 * random.from_to(1, count - 1);
    let before = two_bytes(file, place - 2);
    put(
        file,
        place,
        random.one_of(&[
            before,
            before.saturating_sub(1),
            before.saturating_sub(256),
            0,
        ]),
    );
}

fn bend_event(file: &mut [u8], layout: &Layout, random: &mut Random) {
    if layout.events == 0 {
        return;
    }
    let place = layout.event(random.below(layout.events));
    let mut put_byte = |place: usize, byte: usize| {
        if let Some(old) = file.get_mut(place) {
            *old = byte as u8;
        }
    };
    match random.below(5) {
        0 => put_byte(place, random.one_of(&[0, 4, 5, 6, 255])),
        1 => put_byte(
            place + 1,
            random.one_of(&[layout.workers, layout.workers + 1, 16, 17, 128, 255]),
        ),
        2 => put(
            file,
            place + 2,
            random.one_of(&[layout.fields, layout.fields + 1, 512, 32_768, 65_535]),
        ),
        3 => put_byte(place + 3, random.from_to(1, 255)),
        _ => {
            put_byte(place, 3);
            put(
                file,
                place + 2,
                random.one_of(&[0, 1, 256, layout.fields - 1]),
            );
        }
    }
}

/// Cuts at a border of the file's parts, next to one, or anywhere.
fn cut(file: &mut Vec<u8>, layout: &Layout, random: &mut Random) {
    let borders = [
        2,
        layout.field_count(),
        layout.field_count() + 2,
        layout.event_count(),
        layout.event(0),
    ];
    let event_border = layout.event(random.below(layout.events + 1));
    let length = match random.below(4) {
        0 => random.one_of(&borders),
        1 => random.one_of(&borders) - 1,
        2 => event_border - random.below(EVENT_BYTES),
        _ => random.below(file.len() + 1),
    };
    file.truncate(length);
}

fn extend(file: &mut Vec<u8>, random: &mut Random) {
    let extra = random.one_of(&[1, 2, 3, 4, 8, 300]);
    file.extend((0..extra).map(|_| random.below(4) as u8));
}

#[cfg(test)]
mod tests {
    use super::*;

    fn shapes(count: usize) -> Vec<Shape> {
        let mut random = Random::new(11);
        (0..count).map(|_| Shape::random(&mut random)).collect()
    }

    #[test]
    fn more_than_half_of_the_shapes_have_no_flag_and_few_have_nothing_else() {
        let shapes = shapes(4000);
        let share = |of: fn(&Shape) -> bool| {
            let count = shapes.iter().filter(|shape| of(shape)).count();
            100 * count / shapes.len()
        };
        let none = share(|shape| shape.flags == 0);
        let only = share(|shape| shape.flags == shape.fields);
        assert!((50..=65).contains(&none), "{none} in a hundred have none");
        assert!((3..=8).contains(&only), "{only} in a hundred have no other");
    }

    #[test]
    fn labels_make_flags_of_as_many_fields_as_the_shape_says() {
        let mut random = Random::new(12);
        let mut seen = BTreeSet::new();
        for shape in shapes(2000) {
            let events = shape.events.min(10);
            let recording = recording(&Shape { events, ..shape }, &mut random);
            let flags = recording.fields.iter().filter(|&&label| label >= 32_768);
            assert_eq!(flags.count(), shape.flags);
            assert_eq!(recording.fields.len(), shape.fields);
            assert!(recording.fields.windows(2).all(|pair| pair[0] < pair[1]));
            seen.extend(recording.fields);
        }
        for label in [0, 32_767, 32_768, 65_535] {
            assert!(seen.contains(&label), "{label} never came up");
        }
    }
}
