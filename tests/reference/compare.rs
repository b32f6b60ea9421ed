//! Runs a subject over a stream of requests and compares its answers, places and every word and byte that it was lent.

use std::collections::BTreeMap;
use std::io::{BufReader, Read, Write};
use std::process::{Child, ChildStdin, Command, Stdio};
use std::sync::mpsc::{sync_channel, Receiver, SyncSender};
use std::thread;

use crate::file::{self, Event, Kind};
use crate::finders::Answer;
use crate::notation;
use crate::stream::{self, Origin, Plan};
use crate::verdict::{Report, NOT_RECORDED};
use crate::wire::Part;
use crate::writing::Written;
use crate::writings;

/// A file length that no file has ends the stream.
const END_OF_STREAM: u32 = u32::MAX;
/// So many requests may be under way.
const UNDER_WAY: usize = 64;
const EARLY: &str = "early";
const LATE: &str = "late";
const WRITER: &str = "writer";
const ACCEPTED: &str = "accepted";
const AT_A_CROSSING: &str = "at a crossing";
const AT_A_FLAG_ACCESS: &str = "at a flag access";
const AT_THE_END: &str = "at the end";
const WRITTEN: &str = "written";

/// What a subject is asked: the finders on a file, or the writer on rows.
pub enum Request {
    Finders(stream::Request),
    Writer(writings::Request),
}

/// What it must answer, and which outcome that is of whom.
pub struct Expected {
    parts: Vec<Part>,
    outcomes: Vec<(&'static str, String)>,
}

/// The writings first: they are the quicker ones.
pub fn requests(plan: Plan) -> Result<impl Iterator<Item = Request>, String> {
    let writings = writings::requests(plan)?.map(Request::Writer);
    Ok(writings.chain(stream::requests(plan)?.map(Request::Finders)))
}

impl Request {
    fn origin(&self) -> Origin {
        match self {
            Request::Finders(request) => request.origin,
            Request::Writer(request) => request.origin,
        }
    }

    fn bytes(&self) -> Vec<u8> {
        match self {
            Request::Finders(request) => request.bytes(),
            Request::Writer(request) => request.bytes(),
        }
    }

    pub fn expected(&self) -> Expected {
        match self {
            Request::Finders(request) => {
                let response = request.expected();
                let recording = file::read(&request.file);
                let events = recording.map_or(Vec::new(), |recording| recording.events);
                Expected {
                    parts: response.parts(),
                    outcomes: vec![
                        (EARLY, outcome(response.early, &events)),
                        (LATE, outcome(response.late, &events)),
                    ],
                }
            }
            Request::Writer(request) => {
                let response = request.expected();
                let outcome = match response.answer {
                    Written::Refused(refused) => refused_with(refused.number),
                    Written::Bytes(_) => WRITTEN.to_string(),
                };
                Expected {
                    parts: response.parts(),
                    outcomes: vec![(WRITER, outcome)],
                }
            }
        }
    }
}

/// Compares the subject on the whole plan; the error tells the first difference.
pub fn compare(plan: Plan, command: &[String]) -> Result<Tally, String> {
    let requests = requests(plan)?;
    let mut subject = start(command)?;
    let input = subject.stdin.take().ok_or("the subject has no input")?;
    let output = subject.stdout.take().ok_or("the subject has no output")?;
    let (sender, receiver) = sync_channel(UNDER_WAY);
    let feeder = thread::spawn(move || feed(requests, input, sender));
    let compared = compare_all(receiver, BufReader::with_capacity(1 << 17, output));
    if compared.is_err() {
        // It may still wait for input; nothing it could say matters any more.
        let _ = subject.kill();
    }
    let status = subject
        .wait()
        .map_err(|error| format!("the subject cannot be waited for: {error}"))?;
    let _ = feeder.join();
    let tally = compared?;
    if !status.success() {
        return Err(format!(
            "the subject answered everything, but ended with {status}"
        ));
    }
    tally.every_outcome()?;
    Ok(tally)
}

fn start(command: &[String]) -> Result<Child, String> {
    let (program, arguments) = command.split_first().ok_or("no program is named")?;
    let mut command = Command::new(program);
    command
        .args(arguments)
        .stdin(Stdio::piped())
        .stdout(Stdio::piped());
    command
        .spawn()
        .map_err(|error| format!("{program} cannot be started: {error}"))
}

/// Announces each request before it is written, so that its response is awaited while the subject works.
fn feed(
    requests: impl Iterator<Item = Request>,
    mut input: ChildStdin,
    sender: SyncSender<Request>,
) {
    for request in requests {
        let bytes = request.bytes();
        // A subject or a comparison that has ended is told of on the reading side.
        if sender.send(request).is_err() || input.write_all(&bytes).is_err() {
            return;
        }
    }
    let _ = input.write_all(&END_OF_STREAM.to_le_bytes());
}

fn compare_all(requests: Receiver<Request>, mut output: impl Read) -> Result<Tally, String> {
    let mut tally = Tally::default();
    for request in requests {
        let expected = request.expected();
        if let Err(trouble) = compare_one(&expected.parts, &mut output) {
            return Err(match &request {
                Request::Finders(request) => {
                    format!(
                        "request {}, {}: {trouble}\n{}",
                        tally.files,
                        request.name,
                        describe(request)
                    )
                }
                Request::Writer(request) => {
                    format!(
                        "writing {}: {trouble}\n{}",
                        request.name,
                        request.describe()
                    )
                }
            });
        }
        tally.count(&request, &expected);
    }
    match output.read(&mut [0]) {
        Ok(0) => Ok(tally),
        _ => Err("the subject says more after the last response".to_string()),
    }
}

fn compare_one(expected: &[Part], output: &mut impl Read) -> Result<(), String> {
    for part in expected {
        let mut received = vec![0; part.bytes.len()];
        let read = output.read_exact(&mut received);
        read.map_err(|error| format!("{} cannot be read: {error}", part.name))?;
        if let Some(difference) = part.difference(&received) {
            return Err(difference);
        }
    }
    Ok(())
}

fn describe(request: &stream::Request) -> String {
    let what = match file::read(&request.file) {
        Ok(recording) => notation::text(&recording),
        Err(refused) => {
            let hexadecimal: Vec<String> = request
                .file
                .iter()
                .map(|byte| format!("{byte:02X}"))
                .collect();
            format!(
                "bytes {}\nrefused {} {}\n",
                hexadecimal.join(" "),
                refused.number,
                refused.place
            )
        }
    };
    format!(
        "{what}table lengths {:?}\nnoise {}",
        request.lengths, request.noise
    )
}

/// How many requests were compared, and how often each outcome was expected.
#[derive(Default)]
pub struct Tally {
    pub files: usize,
    pub writings: usize,
    outcomes: BTreeMap<(Origin, &'static str), BTreeMap<String, usize>>,
}

impl Tally {
    pub fn count(&mut self, request: &Request, expected: &Expected) {
        match request {
            Request::Finders(_) => self.files += 1,
            Request::Writer(_) => self.writings += 1,
        }
        for (who, outcome) in &expected.outcomes {
            let outcomes = self.outcomes.entry((request.origin(), who)).or_default();
            *outcomes.entry(outcome.clone()).or_default() += 1;
        }
    }

    /// So often was this outcome expected of this one.
    fn times(&self, whose: &str, outcome: &str) -> usize {
        let of_one = self.outcomes.iter().filter(|((_, who), _)| *who == whose);
        of_one
            .filter_map(|(_, outcomes)| outcomes.get(outcome))
            .sum()
    }

    /// What was written was read back and written again.
    pub fn there_and_back(&self) -> usize {
        self.times(WRITER, WRITTEN)
    }

    /// A comparison that left out an outcome would say nothing of it.
    fn every_outcome(&self) -> Result<(), String> {
        let mut outcomes = verdicts().chain(other_outcomes());
        match outcomes.find(|(who, outcome)| self.times(who, outcome) == 0) {
            None => Ok(()),
            Some((who, missing)) => Err(format!("{who}: '{missing}' never came up")),
        }
    }
}

/// Everything that the finders say of well-formed files.
fn verdicts() -> impl Iterator<Item = (&'static str, String)> {
    let at_accesses = [(EARLY, 1), (EARLY, 2), (EARLY, 3), (LATE, 1), (LATE, 3)];
    let others = [
        (EARLY, ACCEPTED),
        (LATE, ACCEPTED),
        (LATE, AT_A_CROSSING),
        (LATE, AT_A_FLAG_ACCESS),
        (LATE, AT_THE_END),
    ];
    at_accesses
        .map(|(who, sort)| (who, at_an_access(sort)))
        .into_iter()
        .chain(others.map(|(who, verdict)| (who, verdict.to_string())))
}

/// The refusals of all three, and that something was written.
fn other_outcomes() -> impl Iterator<Item = (&'static str, String)> {
    let of_finders = (1..=11).flat_map(|number| [(EARLY, number), (LATE, number)]);
    let of_writer = (1..=9).chain([12]).map(|number| (WRITER, number));
    of_finders
        .chain(of_writer)
        .map(|(who, number)| (who, refused_with(number)))
        .chain([(WRITER, WRITTEN.to_string())])
}

fn refused_with(number: u32) -> String {
    format!("refused {number:02}")
}

fn at_an_access(sort: u32) -> String {
    format!("at an access, sort {sort}")
}

fn outcome(answer: Answer, events: &[Event]) -> String {
    match answer {
        Answer::Refused(refused) => refused_with(refused.number),
        Answer::Accepted => ACCEPTED.to_string(),
        Answer::Reported(Report {
            event,
            other: NOT_RECORDED,
            ..
        }) => when_closing(events.get(event)).to_string(),
        Answer::Reported(Report { sort, .. }) => at_an_access(sort),
    }
}

/// Where a stretch's reads were checked: at the event that closes it, or after the last event.
fn when_closing(event: Option<&Event>) -> &'static str {
    match event.map(|event| event.kind) {
        Some(Kind::Crossing) => AT_A_CROSSING,
        Some(Kind::Read | Kind::Write) => AT_A_FLAG_ACCESS,
        None => AT_THE_END,
    }
}

impl std::fmt::Display for Tally {
    fn fmt(&self, f: &mut std::fmt::Formatter) -> std::fmt::Result {
        for ((origin, who), outcomes) in &self.outcomes {
            let all: usize = outcomes.values().sum();
            let what = if *who == WRITER { "writings" } else { "files" };
            writeln!(f, "{origin:?}, {who}, {all} {what}")?;
            for (outcome, &count) in outcomes {
                writeln!(
                    f,
                    "  {outcome:<24} {count:>8} {:>5.1} %",
                    100.0 * count as f64 / all as f64
                )?;
            }
        }
        Ok(())
    }
}

#[cfg(test)]
mod tests {
    use super::*;

    /// Of the requests with this origin.
    fn tally(origin: Origin, count: usize) -> Tally {
        let plan = Plan {
            seed: 1,
            count,
            depth: 0,
        };
        let requests = requests(plan).expect("the case files are good");
        let mut tally = Tally::default();
        for request in requests.filter(|request| request.origin() == origin) {
            tally.count(&request, &request.expected());
        }
        tally
    }

    #[test]
    fn the_cases_alone_bring_up_every_outcome() {
        let mut tally = tally(Origin::Case, 0);
        assert_eq!(tally.every_outcome(), Ok(()));
        assert!(tally.there_and_back() > 0 && tally.there_and_back() < tally.writings);
        for (who, missing) in [(WRITER, "refused 12"), (LATE, AT_A_FLAG_ACCESS)] {
            for outcomes in tally.outcomes.values_mut() {
                outcomes.remove(missing);
            }
            let told = format!("{who}: '{missing}' never came up");
            assert_eq!(tally.every_outcome(), Err(told));
        }
    }

    /// However the flags are strewn among them.
    #[test]
    fn the_random_recordings_bring_up_every_verdict_many_times() {
        let tally = tally(Origin::Random, 4000);
        for (who, verdict) in verdicts() {
            let times = tally.times(who, &verdict);
            assert!(times >= 40, "{who}: '{verdict}' came up {times} times");
        }
    }

    #[test]
    fn a_response_that_differs_is_told_by_its_part() {
        let parts = [
            Part::numbers("answer", &[1, 2]),
            Part::bytes("buffer", vec![3]),
        ];
        let same: &[u8] = &[1, 0, 0, 0, 2, 0, 0, 0, 3];
        assert_eq!(compare_one(&parts, &mut { same }), Ok(()));
        let other: &[u8] = &[1, 0, 0, 0, 2, 0, 0, 0, 4];
        let told = compare_one(&parts, &mut { other }).expect_err("the buffer differs");
        assert_eq!(told, "buffer, number 0, is 4 but should be 3");
        // The second part is not awaited where the first differs.
        let refused: &[u8] = &[0, 0, 0, 0, 7, 0, 0, 0];
        let told = compare_one(&parts, &mut { refused }).expect_err("the answer differs");
        assert_eq!(told, "answer, number 0, is 0 but should be 1");
    }
}
