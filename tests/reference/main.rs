//! The reference's commands: encode, decode and answer recordings, and hold a program beside the reference.

use std::io::{Read, Write};
use std::process::ExitCode;

use reference::compare::{self, Tally};
use reference::stream::{self, Plan};
use reference::{file, notation, printed, run};

const USAGE: &str = "usage:
  reference encode [--workers 10,11] [--fields 7] 'R0.0 W1.0 B1 B0' > file
  reference decode < file
  reference answer < file
  reference cases --run PROGRAM [ARGUMENT...]
  reference sample [--seed S] [--count N] --run PROGRAM [ARGUMENT...]
  reference compare [--seed S] [--count N] [--depth D] --run SUBJECT [ARGUMENT...]
  reference shares [--seed S] [--count N] [--depth D]
  reference pick K [--seed S] [--count N] [--depth D] > file

encode   writes the file of the events; worker i has label 10 + i and field i has label 7 + i if none are given
decode   prints a file's labels and events
answer   prints what the program must print
cases    runs the program on the cases of tests/cases
sample   runs the program on N random and damaged files (200 if not given)
compare  holds a subject beside the reference: the cases, all recordings of up to about D events (5 if not given),
         N random and damaged files (20000 if not given), and as many random and damaged writings
shares   tells how often each outcome comes up in what compare would run
pick     writes file K of what compare would run";

fn main() -> ExitCode {
    let arguments: Vec<String> = std::env::args().skip(1).collect();
    match command(&arguments) {
        Ok(()) => ExitCode::SUCCESS,
        Err(problem) => {
            eprintln!("{problem}");
            ExitCode::FAILURE
        }
    }
}

fn command(arguments: &[String]) -> Result<(), String> {
    let (command, rest) = arguments.split_first().ok_or(USAGE)?;
    let options = Options::of(rest)?;
    match command.as_str() {
        "encode" => encode(&options),
        "decode" => decode(),
        "answer" => write_out(printed::printed(&file::read(&input()?)).as_bytes()),
        "cases" => passed(run::cases(&options.run)?),
        "sample" => sample(&options),
        "compare" => compare(&options),
        "shares" => shares(&options),
        "pick" => pick(&options),
        _ => Err(USAGE.to_string()),
    }
}

/// What may follow a command; everything after --run is the program and its arguments.
#[derive(Default)]
struct Options {
    workers: Option<Vec<u16>>,
    fields: Option<Vec<u16>>,
    seed: Option<u64>,
    count: Option<usize>,
    depth: Option<usize>,
    plain: Vec<String>,
    run: Vec<String>,
}

impl Options {
    fn of(arguments: &[String]) -> Result<Options, String> {
        let mut options = Options::default();
        let mut rest = arguments.iter();
        while let Some(argument) = rest.next() {
            if argument == "--run" {
                options.run = rest.cloned().collect();
                return Ok(options);
            }
            if !argument.starts_with("--") {
                options.plain.push(argument.clone());
                continue;
            }
            let value = rest
                .next()
                .ok_or(format!("{argument} needs a value\n{USAGE}"))?;
            options.set(argument, value)?;
        }
        Ok(options)
    }

    fn set(&mut self, name: &str, value: &str) -> Result<(), String> {
        match name {
            "--workers" => self.workers = Some(notation::labels(value)?),
            "--fields" => self.fields = Some(notation::labels(value)?),
            "--seed" => self.seed = Some(number(value)?),
            "--count" => self.count = Some(number(value)?),
            "--depth" => self.depth = Some(number(value)?),
            _ => return Err(format!("{name} is no option\n{USAGE}")),
        }
        Ok(())
    }

    fn plan(&self) -> Plan {
        Plan {
            seed: self.seed.unwrap_or(1),
            count: self.count.unwrap_or(20_000),
            depth: self.depth.unwrap_or(5),
        }
    }
}

fn number<T: std::str::FromStr>(text: &str) -> Result<T, String> {
    text.parse().map_err(|_| format!("'{text}' is no number"))
}

fn input() -> Result<Vec<u8>, String> {
    let mut bytes = Vec::new();
    std::io::stdin()
        .read_to_end(&mut bytes)
        .map_err(|error| format!("the input cannot be read: {error}"))?;
    Ok(bytes)
}

fn write_out(bytes: &[u8]) -> Result<(), String> {
    std::io::stdout()
        .write_all(bytes)
        .map_err(|error| format!("the output cannot be written: {error}"))
}

fn encode(options: &Options) -> Result<(), String> {
    let events = options.plain.join(" ");
    let recording = notation::recording(&events, options.workers.clone(), options.fields.clone())?;
    write_out(&file::write(&recording))
}

fn decode() -> Result<(), String> {
    match file::read(&input()?) {
        Ok(recording) => write_out(notation::text(&recording).as_bytes()),
        Err(refused) => Err(format!("refused {} {}", refused.number, refused.place)),
    }
}

fn passed(runs: usize) -> Result<(), String> {
    write_out(format!("{runs} runs, all as expected\n").as_bytes())
}

/// Before the first run, so that a run that never ends can be repeated.
fn tell_seed(plan: Plan) -> Result<(), String> {
    write_out(format!("seed {}\n", plan.seed).as_bytes())
}

fn sample(options: &Options) -> Result<(), String> {
    let plan = Plan {
        count: options.count.unwrap_or(200),
        ..options.plan()
    };
    tell_seed(plan)?;
    passed(run::sample(plan, &options.run)?)
}

fn compare(options: &Options) -> Result<(), String> {
    let plan = options.plan();
    tell_seed(plan)?;
    let tally = compare::compare(plan, &options.run)?;
    let summary = format!(
        "{tally}{} files compared, all equal\n{} writings compared, {} of them there and back, all equal\n",
        tally.files,
        tally.writings,
        tally.there_and_back()
    );
    write_out(summary.as_bytes())
}

fn shares(options: &Options) -> Result<(), String> {
    let mut tally = Tally::default();
    for request in compare::requests(options.plan())? {
        tally.count(&request, &request.expected());
    }
    write_out(tally.to_string().as_bytes())
}

fn pick(options: &Options) -> Result<(), String> {
    let wanted = options.plain.first().ok_or(USAGE)?;
    let wanted: usize = number(wanted)?;
    let request = stream::requests(options.plan())?
        .nth(wanted)
        .ok_or(format!("there is no file {wanted}"))?;
    write_out(&request.file)
}
