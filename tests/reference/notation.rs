//! The document's notation for events (`R0.3`, `W1.0`, `B0`), to a recording and back.

use crate::file::{self, Event, Kind, Recording, MOST_EVENTS};

/// Labels where none are given: worker i has 10 + i and field i has 7 + i, as in the document's example.
pub const FIRST_WORKER_LABEL: u16 = 10;
pub const FIRST_FIELD_LABEL: u16 = 7;

/// The recording of the events, separated by spaces. Without labels there are as many workers and fields as
/// the highest number used plus one, at least 1.
pub fn recording(
    events: &str,
    workers: Option<Vec<u16>>,
    fields: Option<Vec<u16>>,
) -> Result<Recording, String> {
    let events: Vec<Event> = events
        .split_whitespace()
        .map(event)
        .collect::<Result<_, _>>()?;
    if events.len() > MOST_EVENTS {
        return Err(format!(
            "{} events are more than {MOST_EVENTS}",
            events.len()
        ));
    }
    let highest_worker = events.iter().map(|event| event.worker).max().unwrap_or(0);
    let highest_field = events.iter().map(|event| event.field).max().unwrap_or(0);
    let recording = Recording {
        workers: workers.unwrap_or_else(|| rising(FIRST_WORKER_LABEL, highest_worker + 1)),
        fields: fields.unwrap_or_else(|| rising(FIRST_FIELD_LABEL, highest_field + 1)),
        events,
    };
    // The file's own tests say whether counts, labels and numbers fit together.
    file::read(&file::write(&recording)).map_err(|refused| {
        format!(
            "the file would be refused: {} at {}",
            refused.number, refused.place
        )
    })
}

/// So many labels that rise by one; the numbers a notation can hold stay below 65,536.
pub fn rising(first: u16, count: usize) -> Vec<u16> {
    (0..count).map(|i| first.saturating_add(i as u16)).collect()
}

/// Labels separated by commas or spaces.
pub fn labels(text: &str) -> Result<Vec<u16>, String> {
    text.split([',', ' '])
        .map(|label| number(label).ok_or(format!("'{label}' is no label from 0 to 65535")))
        .collect()
}

fn event(text: &str) -> Result<Event, String> {
    event_of(text).ok_or(format!(
        "'{text}' is no event; a read is R0.3, a write is W1.0, a crossing is B0"
    ))
}

fn event_of(text: &str) -> Option<Event> {
    let numbers = text.get(1..)?;
    let kind = match text.get(..1)? {
        "R" => Kind::Read,
        "W" => Kind::Write,
        "B" => {
            return Some(Event {
                kind: Kind::Crossing,
                worker: worker(numbers)?,
                field: 0,
            })
        }
        _ => return None,
    };
    let (before_dot, after_dot) = numbers.split_once('.')?;
    Some(Event {
        kind,
        worker: worker(before_dot)?,
        field: number(after_dot)?.into(),
    })
}

/// A worker number has one byte in the file.
fn worker(text: &str) -> Option<usize> {
    number(text).filter(|&worker| worker < 256).map(usize::from)
}

fn number(text: &str) -> Option<u16> {
    text.bytes()
        .all(|byte| byte.is_ascii_digit())
        .then(|| text.parse().ok())?
}

/// Labels and events on a line each, as the case files hold them.
pub fn text(recording: &Recording) -> String {
    let events: String = recording
        .events
        .iter()
        .map(|event| format!(" {}", event_text(event)))
        .collect();
    format!(
        "workers{}\nfields{}\nevents{events}\n",
        labels_text(&recording.workers),
        labels_text(&recording.fields)
    )
}

fn labels_text(labels: &[u16]) -> String {
    labels.iter().map(|label| format!(" {label}")).collect()
}

fn event_text(event: &Event) -> String {
    let Event {
        kind,
        worker,
        field,
    } = event;
    match kind {
        Kind::Read => format!("R{worker}.{field}"),
        Kind::Write => format!("W{worker}.{field}"),
        Kind::Crossing => format!("B{worker}"),
    }
}

#[cfg(test)]
mod tests {
    use super::*;

    #[test]
    fn there_and_back() {
        let recording = recording("R0.3 W1.0 B0 R15.511", None, None).expect("good notation");
        assert_eq!((recording.workers.len(), recording.fields.len()), (16, 512));
        let back = file::read(&file::write(&recording)).expect("a good file");
        let text = text(&back);
        assert!(text.starts_with("workers 10 11 12 "));
        assert!(text.contains("\nfields 7 8 9 "));
        assert!(text.ends_with("\nevents R0.3 W1.0 B0 R15.511\n"));
    }

    #[test]
    fn the_printed_example_has_the_document_s_bytes() {
        let recording = recording("R0.0 W1.0 B1 B0", None, None).expect("good notation");
        let bytes: Vec<String> = file::write(&recording)
            .iter()
            .map(|byte| format!("{byte:02X}"))
            .collect();
        let document =
            "02 00 0A 00 0B 00 01 00 07 00 04 00 01 00 00 00 02 01 00 00 03 01 00 00 03 00 00 00";
        assert_eq!(bytes.join(" "), document);
    }

    #[test]
    fn no_events_have_one_worker_and_one_field() {
        let recording = recording("", None, None).expect("good notation");
        assert_eq!((recording.workers, recording.fields), (vec![10], vec![7]));
    }

    #[test]
    fn given_labels_are_kept() {
        let recording =
            recording("W0.0", labels("0,65535").ok(), labels("3").ok()).expect("good notation");
        assert_eq!(
            (recording.workers, recording.fields),
            (vec![0, 65_535], vec![3])
        );
    }

    #[test]
    fn bad_notation_is_told() {
        for events in [
            "R0", "X0.0", "R0.", "R.0", "B0.0", "B", "R0.0.0", "R+1.0", "R256.0", "W16.0",
            "R0.512", "ä",
        ] {
            assert!(
                recording(events, None, None).is_err(),
                "{events} should be bad"
            );
        }
        assert!(recording("R1.0", Some(vec![4]), None).is_err());
        assert!(recording("", Some(vec![4, 4]), None).is_err());
        for text in ["", "1,", "65536", "-1"] {
            assert!(labels(text).is_err(), "{text} should be bad");
        }
    }
}
