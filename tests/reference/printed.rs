//! What the program must print for a recording.

use crate::file::{Recording, Refused};
use crate::verdict::{History, Report, NOT_RECORDED};

/// Every line ends with a line end, the last too.
pub fn printed(file: &Result<Recording, Refused>) -> String {
    match file {
        Err(refused) => format!("refused {} {}\n", refused.number, refused.place),
        Ok(recording) => verdicts(recording),
    }
}

fn verdicts(recording: &Recording) -> String {
    let history = History::of(recording);
    let Recording {
        workers,
        fields,
        events,
    } = recording;
    format!(
        "trace {} {} {}\nearly {}\nlate {}\n",
        workers.len(),
        fields.len(),
        events.len(),
        verdict(recording, history.early()),
        verdict(recording, history.late())
    )
}

fn verdict(recording: &Recording, report: Option<Report>) -> String {
    report.map_or("ok".to_string(), |report| reported(recording, report))
}

fn reported(recording: &Recording, report: Report) -> String {
    let worker = recording.workers[report.worker];
    let other = match report.other {
        NOT_RECORDED => "-".to_string(),
        other => recording.workers[other].to_string(),
    };
    let field = recording.fields[report.field];
    format!("{} {} {worker} {other} {field}", report.event, report.sort)
}
