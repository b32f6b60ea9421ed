//! Runs the printing program on single files, given at once or a few bytes at a time, and checks what it prints.

use std::io::{Read, Write};
use std::process::{ChildStdin, Command, Stdio};
use std::thread;
use std::time::Duration;

use crate::cases;
use crate::file;
use crate::printed::printed;
use crate::stream::{self, Origin, Plan};

/// A pipe is a slow one for files up to this length: more would take too long.
const MOST_BYTES_SLOWLY: usize = 100;
const BYTES_AT_A_TIME: usize = 3;

#[derive(Clone, Copy, Debug)]
enum Pipe {
    Fast,
    Slow,
}

/// Runs the program on every case; tells how many runs were right.
pub fn cases(command: &[String]) -> Result<usize, String> {
    let mut passed = 0;
    for case in cases::all()? {
        let reference = printed(&file::read(&case.file));
        if reference != case.expected {
            return Err(wrong(
                &case.name,
                "the reference",
                &case.expected,
                &reference,
            ));
        }
        passed += check(command, &case.name, &case.file, &case.expected)?;
    }
    Ok(passed)
}

/// Runs the program on random and damaged files and compares with what the reference prints.
pub fn sample(plan: Plan, command: &[String]) -> Result<usize, String> {
    let mut passed = 0;
    let requests = stream::requests(Plan { depth: 0, ..plan })?;
    for request in
        requests.filter(|request| matches!(request.origin, Origin::Random | Origin::Damaged))
    {
        let expected = printed(&file::read(&request.file));
        passed += check(command, "of the sample", &request.file, &expected)?;
    }
    Ok(passed)
}

/// One run, and for a short file another one that gets a few bytes at a time.
fn check(command: &[String], name: &str, file: &[u8], expected: &str) -> Result<usize, String> {
    let slowly = file.len() <= MOST_BYTES_SLOWLY;
    let pipes: &[Pipe] = if slowly {
        &[Pipe::Fast, Pipe::Slow]
    } else {
        &[Pipe::Fast]
    };
    for &pipe in pipes {
        let got = output(command, file, pipe)?;
        if got != expected {
            let hexadecimal: String = file.iter().map(|byte| format!(" {byte:02X}")).collect();
            return Err(wrong(name, "the program", expected, &got) + "\nbytes" + &hexadecimal);
        }
    }
    Ok(pipes.len())
}

fn wrong(name: &str, who: &str, expected: &str, got: &str) -> String {
    format!("case {name}: {who} should print\n{expected}but printed\n{got}")
}

fn output(command: &[String], file: &[u8], pipe: Pipe) -> Result<String, String> {
    let (program, arguments) = command.split_first().ok_or("no program is named")?;
    let mut child = Command::new(program)
        .args(arguments)
        .stdin(Stdio::piped())
        .stdout(Stdio::piped())
        .spawn()
        .map_err(|error| format!("{program} cannot be started: {error}"))?;
    let input = child.stdin.take().ok_or("the program has no input")?;
    let file = file.to_vec();
    let feeder = thread::spawn(move || feed(input, &file, pipe));
    let mut bytes = Vec::new();
    let read = child
        .stdout
        .take()
        .map_or(Ok(0), |mut output| output.read_to_end(&mut bytes));
    read.map_err(|error| format!("the program's output cannot be read: {error}"))?;
    let status = child
        .wait()
        .map_err(|error| format!("the program cannot be waited for: {error}"))?;
    let _ = feeder.join();
    if status.code().is_none() {
        return Err(format!("the program ended with {status}"));
    }
    Ok(String::from_utf8_lossy(&bytes).into_owned())
}

/// The program may leave input past its limit unread, so a closed pipe is no fault.
fn feed(mut input: ChildStdin, file: &[u8], pipe: Pipe) {
    let _ = match pipe {
        Pipe::Fast => input.write_all(file),
        Pipe::Slow => file.chunks(BYTES_AT_A_TIME).try_for_each(|piece| {
            thread::sleep(Duration::from_millis(1));
            input.write_all(piece)
        }),
    };
}
