//! The requests to the writer that a subject is compared on: rows of labels and events, each with two buffers.

use crate::cases;
use crate::file::{self, MOST_EVENTS, MOST_FIELDS, MOST_WORKERS};
use crate::generate::{self, Shape};
use crate::random::Random;
use crate::stream::{Origin, Plan};
use crate::wire::{number_bytes, Part};
use crate::writing::{self, Rows, Written};

/// Stands where a request to the finders has the file length, and no file has it.
const WRITING: u32 = u32::MAX - 1;
/// Lent byte i holds (noise + i) % 251 beforehand; the second buffer's noise is another at every place.
const NOISE_PERIOD: usize = 251;
const SECOND_NOISE: usize = 125;

pub struct Request {
    pub origin: Origin,
    pub name: String,
    pub rows: Rows,
    pub noise: usize,
    /// The length of the buffer that the rows are written into.
    pub buffer: usize,
    /// The length of the buffer that the rows read back are written into.
    pub second: usize,
    /// The file, where it is known in another way than from the rows: from a case or from the encoder.
    pub file: Option<Vec<u8>>,
}

/// What a subject must answer to a request.
pub struct Response {
    pub answer: Written,
    buffer: Vec<u8>,
    back: Option<Back>,
}

/// What is read back, and what the writer makes of it.
struct Back {
    rows: Rows,
    answer: Written,
    buffer: Vec<u8>,
}

impl Request {
    /// Nine numbers, then the rows: the mark, the noise, the lengths of the five rows and of the two buffers.
    pub fn bytes(&self) -> Vec<u8> {
        let Rows {
            worker_labels,
            field_labels,
            kinds,
            workers,
            fields,
        } = &self.rows;
        let rows = [worker_labels, field_labels, kinds, workers, fields];
        let mut numbers = vec![WRITING, self.noise as u32];
        numbers.extend(rows.map(|row| row.len() as u32));
        numbers.extend([self.buffer as u32, self.second as u32]);
        numbers.extend(rows.into_iter().flatten());
        number_bytes(&numbers)
    }

    /// Where the rows are written, the rows read back are those given.
    pub fn expected(&self) -> Response {
        let mut buffer = noisy(self.buffer, self.noise);
        let answer = writing::write(&self.rows, &mut buffer);
        self.assert_file(answer, &buffer);
        let back = match answer {
            Written::Refused(_) => None,
            Written::Bytes(_) => Some(self.back()),
        };
        Response {
            answer,
            buffer,
            back,
        }
    }

    /// A file that is known in another way than from the rows is written, unless the buffer is too short.
    fn assert_file(&self, answer: Written, buffer: &[u8]) {
        match &self.file {
            Some(file) if buffer.len() < file.len() => {
                assert!(matches!(answer, Written::Refused(refused) if refused.number == 12));
            }
            Some(file) => {
                assert_eq!(answer, Written::Bytes(file.len()));
                assert_eq!(file, &buffer[..file.len()]);
            }
            None => {}
        }
    }

    fn back(&self) -> Back {
        let mut buffer = noisy(self.second, self.noise + SECOND_NOISE);
        Back {
            rows: self.rows.clone(),
            answer: writing::write(&self.rows, &mut buffer),
            buffer,
        }
    }

    /// The rows, those with many entries by their first ones.
    pub fn describe(&self) -> String {
        let row = |entries: &[u32]| match entries.get(..100) {
            Some(first) => format!("{} entries {first:?}..", entries.len()),
            None => format!("{entries:?}"),
        };
        let rows = &self.rows;
        format!(
            "worker labels {}\nfield labels {}\nkinds {}\nworkers {}\nfields {}\nbuffers {} and {}\nnoise {}",
            row(&rows.worker_labels),
            row(&rows.field_labels),
            row(&rows.kinds),
            row(&rows.workers),
            row(&rows.fields),
            self.buffer,
            self.second,
            self.noise
        )
    }
}

fn noisy(length: usize, noise: usize) -> Vec<u8> {
    (0..length)
        .map(|i| ((noise + i) % NOISE_PERIOD) as u8)
        .collect()
}

impl Response {
    pub fn parts(&self) -> Vec<Part> {
        let mut parts = Vec::from(written_parts("writer", self.answer, &self.buffer));
        if let Some(back) = &self.back {
            parts.extend(row_parts(&back.rows));
            parts.extend(written_parts("second writer", back.answer, &back.buffer));
        }
        parts
    }
}

/// Three numbers and the buffer.
fn written_parts(who: &str, answer: Written, buffer: &[u8]) -> [Part; 2] {
    let numbers = match answer {
        Written::Refused(refused) => [0, refused.number, refused.place as u32],
        Written::Bytes(bytes) => [1, bytes as u32, 0],
    };
    [
        Part::numbers(&format!("{who}'s answer"), &numbers),
        Part::bytes(&format!("{who}'s buffer"), buffer.to_vec()),
    ]
}

/// The counts that the check of the written file gives, and the rows.
fn row_parts(rows: &Rows) -> [Part; 6] {
    let counts = [
        1,
        rows.worker_labels.len() as u32,
        rows.field_labels.len() as u32,
        rows.events() as u32,
    ];
    [
        Part::numbers("check of the written file", &counts),
        Part::numbers("worker labels read back", &rows.worker_labels),
        Part::numbers("field labels read back", &rows.field_labels),
        Part::numbers("kinds read back", &rows.kinds),
        Part::numbers("workers read back", &rows.workers),
        Part::numbers("fields read back", &rows.fields),
    ]
}

/// The named edges, then the recordings of the cases, then random and damaged rows.
pub fn requests(plan: Plan) -> Result<impl Iterator<Item = Request>, String> {
    let edges = cases::writings()?.into_iter().enumerate();
    let edges = edges.map(|(noise, edge)| Request {
        origin: Origin::Case,
        name: format!("'{}'", edge.name),
        second: edge.rows.file_length().min(70_000),
        rows: edge.rows,
        noise,
        buffer: edge.buffer,
        file: edge.file,
    });
    let cases = cases::all()?.into_iter().flat_map(case_requests);
    Ok(edges.chain(cases).chain(random_requests(plan)))
}

/// Each recording into a buffer that is exact, longer, short by one byte or empty.
fn case_requests(case: cases::Case) -> Vec<Request> {
    let recording = match file::read(&case.file) {
        Ok(recording) => recording,
        Err(_) => return Vec::new(),
    };
    let exact = case.file.len();
    let lengths = [exact, exact + 1, exact + 300, exact - 1, 0];
    let request = |(noise, buffer)| Request {
        origin: Origin::Case,
        name: format!("of case {} into {buffer} bytes", case.name),
        rows: Rows::of(&recording),
        noise,
        buffer,
        second: exact + noise,
        file: Some(case.file.clone()),
    };
    lengths.into_iter().enumerate().map(request).collect()
}

fn random_requests(plan: Plan) -> impl Iterator<Item = Request> {
    let mut random = Random::new(plan.seed.rotate_left(32));
    (0..plan.count).map(move |n| random_request(n, &mut random))
}

fn random_request(n: usize, random: &mut Random) -> Request {
    let recording = generate::recording(&Shape::random(random), random);
    let good = Rows::of(&recording);
    let (origin, rows, file) = match random.percent(50) {
        true => (Origin::Damaged, damaged(&good, random), None),
        false => (Origin::Random, good, Some(file::write(&recording))),
    };
    let exact = rows.file_length().min(69_000);
    let longer = exact + random.one_of(&[0, 1, 2, 5, 300]);
    let shorter = random.one_of(&[0, 1, exact / 2, exact - 1, exact - 1]);
    Request {
        origin,
        name: format!("{n} of the random ones"),
        rows,
        noise: random.below(65_536),
        buffer: if random.percent(20) { shorter } else { longer },
        second: exact + random.one_of(&[0, 1, 40]),
        file,
    }
}

/// Rows with one to three faults, so that the order of tests decides; some faults do no harm.
pub fn damaged(rows: &Rows, random: &mut Random) -> Rows {
    let mut rows = rows.clone();
    for _ in 0..random.one_of(&[1, 1, 1, 2, 2, 3]) {
        damage(&mut rows, random);
    }
    rows
}

fn damage(rows: &mut Rows, random: &mut Random) {
    match random.below(12) {
        0 => resize_labels(&mut rows.worker_labels, MOST_WORKERS, random),
        1 => resize_labels(&mut rows.field_labels, MOST_FIELDS, random),
        2 | 3 => bend_label(&mut rows.worker_labels, random),
        4 | 5 => bend_label(&mut rows.field_labels, random),
        6 => resize_event_row(rows, random),
        // Seldom, since these rows are long.
        7 if random.percent(5) => too_many_events(rows, random),
        _ => bend_event(rows, random),
    }
}

fn resize_labels(labels: &mut Vec<u32>, most: usize, random: &mut Random) {
    let count = match random.below(4) {
        0 | 1 => 0,
        2 => most + 1,
        _ => labels.len() + 1,
    };
    let mut next = labels.last().map_or(0, |&label| label.saturating_add(1));
    while labels.len() < count {
        labels.push(next);
        next = next.saturating_add(1);
    }
    labels.truncate(count);
}

/// A label equal to the one before, lower, or without two bytes; also one that would be right in its low bytes.
fn bend_label(labels: &mut [u32], random: &mut Random) {
    if labels.is_empty() {
        return;
    }
    let last = labels.len() - 1;
    let any = random.below(labels.len());
    let i = random.one_of(&[0, last, any]);
    let before = if i > 0 { labels[i - 1] } else { labels[i] };
    labels[i] = random.one_of(&[
        before,
        before,
        before.saturating_sub(1),
        0,
        65_536,
        70_000,
        labels[i].saturating_add(65_536),
        u32::MAX,
    ]);
}

/// One of the events' rows becomes shorter or longer than the others.
fn resize_event_row(rows: &mut Rows, random: &mut Random) {
    let row = match random.below(3) {
        0 => &mut rows.kinds,
        1 => &mut rows.workers,
        _ => &mut rows.fields,
    };
    match random.below(6) {
        0 => row.clear(),
        1 => row.truncate(row.len() / 2),
        2 => row.push(0),
        3 => row.extend([1, 2, 3]),
        _ => row.truncate(row.len().saturating_sub(1)),
    }
}

/// All three rows, or one of them.
fn too_many_events(rows: &mut Rows, random: &mut Random) {
    let count = MOST_EVENTS + 1;
    match random.below(5) {
        0 => rows.kinds.resize(count, 1),
        1 => rows.workers.resize(count, 0),
        2 => rows.fields.resize(count, 0),
        _ => {
            rows.kinds.resize(count, 2);
            rows.workers.resize(count, 0);
            rows.fields.resize(count, 0);
        }
    }
}

/// A number out of range, among them such as would be right in their low bytes.
fn bend_event(rows: &mut Rows, random: &mut Random) {
    let shortest = rows
        .kinds
        .len()
        .min(rows.workers.len())
        .min(rows.fields.len());
    if shortest == 0 {
        return;
    }
    let any = random.below(shortest);
    let n = random.one_of(&[0, shortest - 1, any]);
    let workers = rows.worker_labels.len() as u32;
    let fields = rows.field_labels.len() as u32;
    match random.below(5) {
        0 => rows.kinds[n] = random.one_of(&[0, 4, 255, 256, 257, 65_536, 65_538, u32::MAX]),
        1 => {
            let high = random.one_of(&[256, 65_536]);
            let low = rows.workers[n];
            rows.workers[n] = random.one_of(&[
                workers,
                workers + 1,
                255,
                256,
                low.saturating_add(high),
                u32::MAX,
            ])
        }
        2 => {
            let low = rows.fields[n];
            rows.fields[n] = random.one_of(&[
                fields,
                fields + 1,
                512,
                65_535,
                65_536,
                low.saturating_add(65_536),
                u32::MAX,
            ])
        }
        _ => {
            rows.kinds[n] = 3;
            rows.fields[n] = random.one_of(&[0, 1, 256, 65_536, fields.saturating_sub(1)]);
        }
    }
}

#[cfg(test)]
mod tests {
    use super::*;

    #[test]
    fn requests_stay_within_the_limits_that_subjects_may_count_on() {
        let plan = Plan {
            seed: 3,
            count: 5000,
            depth: 0,
        };
        for request in requests(plan).expect("the case files are good") {
            let words = request.bytes().len() / 4 - 9;
            assert!(words <= 66_000, "{}", request.describe());
            assert!(request.noise < 65_536);
            assert!(request.buffer <= 70_000 && request.second <= 70_000);
        }
    }

    /// What is expected there and back is what the reference reads from its own file.
    #[test]
    fn rows_given_are_the_rows_read_back() {
        let plan = Plan {
            seed: 4,
            count: 2000,
            depth: 0,
        };
        let mut written = 0;
        for request in requests(plan).expect("the case files are good") {
            let mut buffer = vec![0; request.buffer];
            if let Written::Bytes(bytes) = writing::write(&request.rows, &mut buffer) {
                let recording = file::read(&buffer[..bytes]).expect("a good file");
                assert_eq!(Rows::of(&recording), request.rows);
                assert_eq!(file::write(&recording), buffer[..bytes]);
                written += 1;
            }
        }
        assert!(written > 500, "only {written} were written");
    }
}
