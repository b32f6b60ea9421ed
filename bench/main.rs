//! Times the finders on the inputs, in nanoseconds for each event, and says on which machine and input.

use std::io::Write;
use std::process::ExitCode;
use std::time::Instant;

mod baseline;
mod inputs;
mod proved;

use baseline::Answer;
use inputs::Input;

const USAGE: &str =
    "usage: bench [REPETITIONS]          times every finder on every input (2000 repetitions)
       bench --input NUMBER > file  writes the file of an input, counted from 0";

/// Answers on a file with tables of its own, so that a repetition finds them as the one before left them.
type Find = Box<dyn FnMut(&[u8]) -> Answer>;

/// A proved finder and the baseline it is held against.
struct Pair {
    name: &'static str,
    proved: Find,
    baseline: Find,
}

type Early = fn(&[u8], &mut [u32], &mut [u32], &mut [u32]) -> Answer;
type Late = fn(&[u8], &mut [u32], &mut [u32], &mut [u32], &mut [u32]) -> Answer;

fn pairs() -> [Pair; 2] {
    [
        Pair {
            name: "early",
            proved: with_early_tables(proved::early),
            baseline: with_early_tables(baseline::early),
        },
        Pair {
            name: "late",
            proved: with_late_tables(proved::late),
            baseline: with_late_tables(baseline::late),
        },
    ]
}

fn with_early_tables(find: Early) -> Find {
    let (mut stretch, mut writer, mut readers) = (vec![0; 16], vec![0; 512], vec![0; 8192]);
    Box::new(move |file| find(file, &mut stretch, &mut writer, &mut readers))
}

fn with_late_tables(find: Late) -> Find {
    let (mut stretch, mut writer) = (vec![0; 16], vec![0; 512]);
    let (mut version, mut log) = (vec![0; 512], vec![0; 8192]);
    Box::new(move |file| find(file, &mut stretch, &mut writer, &mut version, &mut log))
}

/// The fastest time of each, in nanoseconds for each event. The two take turns, so that both meet the same moments of the machine.
struct Times {
    proved: f64,
    baseline: f64,
}

/// One call, which must accept: every input is a recording with no clash.
fn call(find: &mut Find, input: &Input) -> Result<f64, String> {
    let start = Instant::now();
    let answer = find(&input.file);
    let time = start.elapsed().as_nanos() as f64 / input.recording.events.len() as f64;
    if answer == Answer::Accepted {
        Ok(time)
    } else {
        Err(format!("{} is not accepted: {answer:?}", input.name))
    }
}

fn time(pair: &mut Pair, input: &Input, repetitions: usize) -> Result<Times, String> {
    let mut times = Times {
        proved: f64::INFINITY,
        baseline: f64::INFINITY,
    };
    for _ in 0..repetitions {
        times.proved = times.proved.min(call(&mut pair.proved, input)?);
        times.baseline = times.baseline.min(call(&mut pair.baseline, input)?);
    }
    Ok(times)
}

fn machine() -> String {
    let information = std::fs::read_to_string("/proc/cpuinfo").unwrap_or_default();
    let model = information
        .lines()
        .find(|line| line.starts_with("model name"))
        .and_then(|line| line.split(": ").nth(1));
    format!(
        "{}, {}",
        std::env::consts::ARCH,
        model.unwrap_or("model not known")
    )
}

fn time_all(repetitions: usize) -> Result<(), String> {
    println!("machine: {}", machine());
    println!("fastest of {repetitions} calls, in nanoseconds for each event; a call checks the file, clears the tables and searches");
    for input in inputs::all() {
        println!("{}", input.describe());
        for mut pair in pairs() {
            let Times { proved, baseline } = time(&mut pair, &input, repetitions)?;
            let ratio = proved / baseline;
            println!(
                "  {:<6} proved {proved:>7.2}   Rust baseline {baseline:>7.2}   ratio {ratio:.2}",
                pair.name
            );
        }
    }
    Ok(())
}

fn write_input(number: &str) -> Result<(), String> {
    let inputs = inputs::all();
    let input = number
        .parse()
        .ok()
        .and_then(|number: usize| inputs.get(number))
        .ok_or(USAGE)?;
    std::io::stdout()
        .write_all(&input.file)
        .map_err(|error| format!("the file cannot be written: {error}"))
}

fn command(arguments: &[&str]) -> Result<(), String> {
    match arguments {
        [] => time_all(2000),
        ["--input", number] => write_input(number),
        [repetitions] => time_all(
            repetitions
                .parse()
                .ok()
                .filter(|&repetitions| repetitions > 0)
                .ok_or(USAGE)?,
        ),
        _ => Err(USAGE.to_string()),
    }
}

fn main() -> ExitCode {
    let arguments: Vec<String> = std::env::args().skip(1).collect();
    let arguments: Vec<&str> = arguments.iter().map(String::as_str).collect();
    match command(&arguments) {
        Ok(()) => ExitCode::SUCCESS,
        Err(problem) => {
            eprintln!("{problem}");
            ExitCode::FAILURE
        }
    }
}

#[cfg(test)]
mod tests {
    use super::*;
    use reference::finders::Answer as Expected;
    use reference::stream::{self, Plan};
    use reference::{file, writing, writings};

    fn of_reference(answer: Expected) -> Answer {
        match answer {
            Expected::Refused(refused) => Answer::Refused {
                number: refused.number,
                place: refused.place,
            },
            Expected::Accepted => Answer::Accepted,
            Expected::Reported(report) => Answer::Reported {
                event: report.event,
                sort: report.sort,
                worker: report.worker,
                other: report.other,
                field: report.field,
            },
        }
    }

    #[test]
    fn the_baselines_answer_as_the_reference() {
        answers_as_the_reference(baseline::early, baseline::late);
    }

    #[test]
    fn the_linked_finders_answer_as_the_reference() {
        answers_as_the_reference(proved::early, proved::late);
    }

    fn answers_as_the_reference(find_early: Early, find_late: Late) {
        let plan = Plan {
            seed: 1,
            count: 3000,
            depth: 3,
        };
        for request in stream::requests(plan).expect("the case files are good") {
            let mut tables = request.lengths.map(|length| vec![5; length]);
            let [stretch, writer, readers, late_stretch, late_writer, version, log] = &mut tables;
            let early = find_early(&request.file, stretch, writer, readers);
            let late = find_late(&request.file, late_stretch, late_writer, version, log);
            let expected = request.expected();
            assert_eq!(early, of_reference(expected.early));
            assert_eq!(late, of_reference(expected.late));
            compare_tables(&request, &tables);
        }
    }

    /// Tables that were refused keep their words; else the full length is the reference's.
    fn compare_tables(request: &stream::Request, tables: &[Vec<u32>]) {
        let expected = request.expected();
        let answers = [expected.early; 3].into_iter().chain([expected.late; 4]);
        let shown = expected.early_tables.iter().chain(&expected.late_tables);
        for (((table, words), answer), shown) in
            stream::lent_tables().zip(tables).zip(answers).zip(shown)
        {
            let full = if matches!(answer, Expected::Refused(_)) {
                0
            } else {
                table.full_length()
            };
            assert_eq!(words[..full], shown[..full]);
            assert!(words[full..].iter().all(|&word| word == 5));
        }
    }

    #[test]
    fn the_linked_writer_answers_as_the_reference() {
        let plan = Plan {
            seed: 1,
            count: 3000,
            depth: 0,
        };
        for request in writings::requests(plan).expect("the case files are good") {
            let mut buffer = vec![5; request.buffer];
            let mut expected = buffer.clone();
            assert_eq!(
                proved::write(&request.rows, &mut buffer),
                writing::write(&request.rows, &mut expected)
            );
            assert_eq!(buffer, expected);
        }
    }

    #[test]
    fn inputs_have_flags_as_named() {
        for input in inputs::all() {
            let flags = if input.name.ends_with("flags") {
                256
            } else {
                0
            };
            assert_eq!(input.flags(), flags, "{}", input.name);
        }
    }

    #[test]
    fn both_verdicts_accept_every_input() {
        for input in inputs::all() {
            assert_eq!(input.file, file::write(&input.recording));
            assert_eq!(input.recording.events.len(), 16_000);
            for mut pair in pairs() {
                assert_eq!((pair.proved)(&input.file), Answer::Accepted);
                assert_eq!((pair.baseline)(&input.file), Answer::Accepted);
            }
        }
    }
}
