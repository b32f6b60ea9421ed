//! The stream of requests that a subject is compared on: files, each with the lengths and old words of its tables.

use crate::cases;
use crate::file;
use crate::finders::{self, Answer};
use crate::generate::{self, Shape};
use crate::notation::{rising, FIRST_FIELD_LABEL};
use crate::random::Random;
use crate::tables::{Table, EARLY, LATE};
use crate::verdict::FIRST_FLAG_LABEL;
use crate::wire::{number_bytes, Part};

/// How the stream is chosen: the same plan gives the same stream.
#[derive(Clone, Copy)]
pub struct Plan {
    pub seed: u64,
    /// So many random recordings and damaged files.
    pub count: usize,
    /// All recordings of up to about so many events.
    pub depth: usize,
}

#[derive(Clone, Copy, PartialEq, Eq, PartialOrd, Ord, Debug)]
pub enum Origin {
    Case,
    Small,
    Random,
    Damaged,
}

pub struct Request {
    pub origin: Origin,
    /// Tells in a difference which request it was.
    pub name: String,
    pub file: Vec<u8>,
    /// Lent word i holds 1 + (noise + i) % 40 beforehand.
    pub noise: usize,
    /// The lengths of the early finder's three tables, then of the late finder's four.
    pub lengths: [usize; 7],
}

/// What a subject must answer to a request.
pub struct Response {
    pub early: Answer,
    pub early_tables: Vec<Vec<u32>>,
    pub late: Answer,
    pub late_tables: Vec<Vec<u32>>,
}

/// The tables in the order of their lengths in a request.
pub fn lent_tables() -> impl Iterator<Item = Table> {
    EARLY.into_iter().chain(LATE)
}

fn full_lengths() -> [usize; 7] {
    let mut lengths = [0; 7];
    for (length, table) in lengths.iter_mut().zip(lent_tables()) {
        *length = table.full_length();
    }
    lengths
}

impl Request {
    /// All numbers are 32 bits, low byte first: file length, noise, seven table lengths, then the file.
    pub fn bytes(&self) -> Vec<u8> {
        let mut numbers = vec![self.file.len() as u32, self.noise as u32];
        numbers.extend(self.lengths.map(|length| length as u32));
        let mut bytes = number_bytes(&numbers);
        bytes.extend(&self.file);
        bytes
    }

    fn lent(&self, lengths: &[usize]) -> Vec<Vec<u32>> {
        let words = |length| {
            (0..length)
                .map(|i| 1 + ((self.noise + i) % 40) as u32)
                .collect()
        };
        lengths.iter().map(|&length| words(length)).collect()
    }

    pub fn expected(&self) -> Response {
        let mut early_tables = self.lent(&self.lengths[..3]);
        let mut late_tables = self.lent(&self.lengths[3..]);
        let (early, late) =
            finders::answers(&file::read(&self.file), &mut early_tables, &mut late_tables);
        Response {
            early,
            early_tables,
            late,
            late_tables,
        }
    }
}

impl Response {
    /// For each finder the answer's six numbers, then every word of its tables.
    pub fn parts(&self) -> Vec<Part> {
        let mut parts = vec![Part::numbers("early answer", &answer_numbers(self.early))];
        parts.extend(table_parts("early", &EARLY, &self.early_tables));
        parts.push(Part::numbers("late answer", &answer_numbers(self.late)));
        parts.extend(table_parts("late", &LATE, &self.late_tables));
        parts
    }
}

fn table_parts<'a>(
    finder: &'a str,
    tables: &'a [Table],
    words: &'a [Vec<u32>],
) -> impl Iterator<Item = Part> + 'a {
    let name = move |table: &Table| format!("{finder} {table:?}").to_lowercase();
    let part = move |(table, words): (&Table, &Vec<u32>)| Part::numbers(&name(table), words);
    tables.iter().zip(words).map(part)
}

fn answer_numbers(answer: Answer) -> [u32; 6] {
    match answer {
        Answer::Refused(refused) => [0, refused.number, refused.place as u32, 0, 0, 0],
        Answer::Accepted => [1, 0, 0, 0, 0, 0],
        Answer::Reported(report) => [
            2,
            report.event as u32,
            report.sort,
            report.worker as u32,
            report.other as u32,
            report.field as u32,
        ],
    }
}

/// The cases first, then all small recordings, then the random ones, so that a mistake shows in a short recording.
pub fn requests(plan: Plan) -> Result<impl Iterator<Item = Request>, String> {
    let cases = cases::all()?.into_iter().flat_map(case_requests);
    Ok(cases
        .chain(small_requests(plan))
        .chain(random_requests(plan)))
}

/// Each case with exact tables, and with each table in turn empty, short by one or longer by one.
fn case_requests(case: cases::Case) -> impl Iterator<Item = Request> {
    let full = full_lengths();
    let bent = (0..full.len()).flat_map(move |table| {
        [0, full[table] - 1, full[table] + 1].map(|length| {
            let mut lengths = full;
            lengths[table] = length;
            lengths
        })
    });
    let request = move |(noise, lengths)| Request {
        origin: Origin::Case,
        name: format!("case {}", case.name),
        file: case.file.clone(),
        noise,
        lengths,
    };
    [full].into_iter().chain(bent).enumerate().map(request)
}

fn small_requests(plan: Plan) -> impl Iterator<Item = Request> {
    let mut random = Random::new(plan.seed);
    let one_field = rising(FIRST_FIELD_LABEL, 1);
    let two_fields = rising(FIRST_FIELD_LABEL, 2);
    let one_flag = rising(FIRST_FLAG_LABEL, 1);
    let field_and_flag = [FIRST_FIELD_LABEL, FIRST_FLAG_LABEL];
    let less_deep = plan.depth.saturating_sub(1);
    generate::all_small(2, &one_field, plan.depth + 1)
        .chain(generate::all_small(3, &one_field, plan.depth))
        .chain(generate::all_small(2, &two_fields, less_deep))
        .chain(generate::all_small(2, &field_and_flag, less_deep))
        .chain(generate::all_small(2, &one_flag, less_deep))
        .map(move |recording| Request {
            origin: Origin::Small,
            name: "of all small ones".to_string(),
            file: file::write(&recording),
            noise: random.below(65_536),
            lengths: full_lengths(),
        })
}

fn random_requests(plan: Plan) -> impl Iterator<Item = Request> {
    let mut random = Random::new(!plan.seed);
    (0..plan.count).map(move |_| random_request(&mut random))
}

fn random_request(random: &mut Random) -> Request {
    let shape = Shape::random(random);
    let recording = generate::recording(&shape, random);
    let (origin, file) = match random.percent(30) {
        true => (Origin::Damaged, generate::damaged(&recording, random)),
        false => (Origin::Random, file::write(&recording)),
    };
    let noise = random.below(65_536);
    Request {
        origin,
        name: "of the random ones".to_string(),
        file,
        noise,
        lengths: random_lengths(random),
    }
}

/// Mostly exact or longer, so that verdicts are reached; in some requests one table is short.
fn random_lengths(random: &mut Random) -> [usize; 7] {
    let mut lengths = full_lengths();
    for length in &mut lengths {
        *length += random.one_of(&[0, 0, 0, 1, 2, 7, 40]);
    }
    if random.percent(5) {
        let table = random.below(lengths.len());
        let full = full_lengths()[table];
        lengths[table] = random.one_of(&[0, 1, full / 2, full - 1, full - 1]);
    }
    lengths
}

#[cfg(test)]
mod tests {
    use super::*;

    #[test]
    fn requests_stay_within_the_limits_that_subjects_may_count_on() {
        let plan = Plan {
            seed: 3,
            count: 5000,
            depth: 2,
        };
        for request in requests(plan).expect("the case files are good") {
            assert!(request.file.len() <= 70_000);
            assert!(request.noise < 65_536);
            assert!(request.lengths.iter().all(|&length| length <= 8300));
        }
    }
}
