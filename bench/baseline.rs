//! A straightforward early and late finder in safe Rust over the document's tables, to time the proved ones against.

#[derive(Clone, Copy, PartialEq, Eq, Debug)]
pub enum Answer {
    Refused {
        number: u32,
        place: usize,
    },
    Accepted,
    Reported {
        event: usize,
        sort: u32,
        worker: usize,
        other: usize,
        field: usize,
    },
}

const READ: u8 = 1;
const WRITE: u8 = 2;
const CROSSING: u8 = 3;
/// A field with this label or a higher one is a flag.
const FIRST_FLAG_LABEL: usize = 32_768;

/// The counts of a well-formed file and where its events start.
struct Counts {
    workers: usize,
    /// The number of the first field that is a flag, or the field count: labels rise, so all later ones are flags too.
    first_flag: usize,
    events: usize,
    first_event: usize,
}

fn two_bytes(file: &[u8], place: usize) -> usize {
    usize::from(u16::from_le_bytes([file[place], file[place + 1]]))
}

/// A count in its range, with so many bytes for each of its items present.
fn count(
    file: &[u8],
    place: usize,
    least: usize,
    most: usize,
    number: u32,
    item: usize,
) -> Result<usize, Answer> {
    let ends = Answer::Refused {
        number: 1,
        place: file.len(),
    };
    if file.len() < place + 2 {
        return Err(ends);
    }
    let count = two_bytes(file, place);
    if count < least || count > most {
        return Err(Answer::Refused { number, place });
    }
    if file.len() < place + 2 + item * count {
        return Err(ends);
    }
    Ok(count)
}

fn labels_rise(file: &[u8], first: usize, count: usize, number: u32) -> Result<(), Answer> {
    for place in (first + 2..first + 2 * count).step_by(2) {
        if two_bytes(file, place) <= two_bytes(file, place - 2) {
            return Err(Answer::Refused { number, place });
        }
    }
    Ok(())
}

/// How many of the rising labels are below that of a flag.
fn first_flag(file: &[u8], first: usize, count: usize) -> usize {
    (0..count)
        .find(|&field| two_bytes(file, first + 2 * field) >= FIRST_FLAG_LABEL)
        .unwrap_or(count)
}

fn check(file: &[u8]) -> Result<Counts, Answer> {
    let workers = count(file, 0, 1, 16, 2, 2)?;
    labels_rise(file, 2, workers, 3)?;
    let place = 2 + 2 * workers;
    let fields = count(file, place, 1, 512, 4, 2)?;
    labels_rise(file, place + 2, fields, 5)?;
    let first_flag = first_flag(file, place + 2, fields);
    let place = place + 2 + 2 * fields;
    let events = count(file, place, 0, 16_000, 6, 4)?;
    let first_event = place + 2;
    let end = first_event + 4 * events;
    for (n, event) in file[first_event..end].chunks_exact(4).enumerate() {
        let place = first_event + 4 * n;
        let field = two_bytes(event, 2);
        if event[0] < READ || event[0] > CROSSING {
            return Err(Answer::Refused { number: 7, place });
        }
        if usize::from(event[1]) >= workers {
            return Err(Answer::Refused {
                number: 8,
                place: place + 1,
            });
        }
        if field >= fields || (event[0] == CROSSING && field != 0) {
            return Err(Answer::Refused {
                number: 9,
                place: place + 2,
            });
        }
    }
    if file.len() > end {
        return Err(Answer::Refused {
            number: 10,
            place: end,
        });
    }
    Ok(Counts {
        workers,
        first_flag,
        events,
        first_event,
    })
}

fn start_stretches(stretch: &mut [u32], workers: usize) {
    stretch[..16].fill(0);
    stretch[..workers].fill(1);
}

/// By how much the event raises its worker's stretch number, if it closes the stretch: a flag access is a stretch by
/// itself and opens another.
fn closing(kind: u8, field: usize, first_flag: usize) -> Option<u32> {
    match kind {
        CROSSING => Some(1),
        _ if field >= first_flag => Some(2),
        _ => None,
    }
}

/// The other worker whose open stretch wrote the field last.
fn open_writer(stretch: &[u32], writer: &[u32], worker: usize, field: usize) -> Option<usize> {
    let other = (writer[field] % 16) as usize;
    let number = writer[field] / 16;
    (number > 0 && other != worker && number == stretch[other]).then_some(other)
}

pub fn early(file: &[u8], stretch: &mut [u32], writer: &mut [u32], readers: &mut [u32]) -> Answer {
    if stretch.len() < 16 || writer.len() < 512 || readers.len() < 8192 {
        return Answer::Refused {
            number: 11,
            place: 0,
        };
    }
    let counts = match check(file) {
        Ok(counts) => counts,
        Err(refused) => return refused,
    };
    start_stretches(stretch, counts.workers);
    writer[..512].fill(0);
    readers[..8192].fill(0);
    let events = &file[counts.first_event..counts.first_event + 4 * counts.events];
    for (event, bytes) in events.chunks_exact(4).enumerate() {
        let (kind, worker, field) = (bytes[0], usize::from(bytes[1]), two_bytes(bytes, 2));
        if let Some(rise) = closing(kind, field, counts.first_flag) {
            stretch[worker] += rise;
            continue;
        }
        if let Some(other) = open_writer(stretch, writer, worker, field) {
            let sort = if kind == WRITE { 1 } else { 3 };
            return Answer::Reported {
                event,
                sort,
                worker,
                other,
                field,
            };
        }
        if kind == READ {
            readers[16 * field + worker] = stretch[worker];
            continue;
        }
        for other in 0..counts.workers {
            if other != worker && readers[16 * field + other] == stretch[other] {
                return Answer::Reported {
                    event,
                    sort: 2,
                    worker,
                    other,
                    field,
                };
            }
        }
        writer[field] = 16 * stretch[worker] + worker as u32;
    }
    Answer::Accepted
}

/// The lowest field that another worker has written since the worker's open stretch read it. No flag is ever logged.
fn stale(
    writer: &[u32],
    version: &[u32],
    log: &[u32],
    worker: usize,
    first_flag: usize,
) -> Option<usize> {
    (0..first_flag).find(|&field| {
        let logged = log[16 * field + worker];
        let other_wrote_last = (writer[field] % 16) as usize != worker;
        logged > 0 && (version[field] > logged || (version[field] == logged && other_wrote_last))
    })
}

pub fn late(
    file: &[u8],
    stretch: &mut [u32],
    writer: &mut [u32],
    version: &mut [u32],
    log: &mut [u32],
) -> Answer {
    if stretch.len() < 16 || writer.len() < 512 || version.len() < 512 || log.len() < 8192 {
        return Answer::Refused {
            number: 11,
            place: 0,
        };
    }
    let counts = match check(file) {
        Ok(counts) => counts,
        Err(refused) => return refused,
    };
    start_stretches(stretch, counts.workers);
    writer[..512].fill(0);
    version[..512].fill(0);
    log[..8192].fill(0);
    let events = &file[counts.first_event..counts.first_event + 4 * counts.events];
    for (event, bytes) in events.chunks_exact(4).enumerate() {
        let (kind, worker, field) = (bytes[0], usize::from(bytes[1]), two_bytes(bytes, 2));
        if let Some(rise) = closing(kind, field, counts.first_flag) {
            if let Some(field) = stale(writer, version, log, worker, counts.first_flag) {
                return Answer::Reported {
                    event,
                    sort: 2,
                    worker,
                    other: 16,
                    field,
                };
            }
            for field in 0..counts.first_flag {
                log[16 * field + worker] = 0;
            }
            stretch[worker] += rise;
            continue;
        }
        if let Some(other) = open_writer(stretch, writer, worker, field) {
            let sort = if kind == WRITE { 1 } else { 3 };
            return Answer::Reported {
                event,
                sort,
                worker,
                other,
                field,
            };
        }
        let own = 16 * stretch[worker] + worker as u32;
        if writer[field] == own {
            continue;
        }
        if kind == WRITE {
            writer[field] = own;
            version[field] += 1;
        } else if log[16 * field + worker] == 0 {
            log[16 * field + worker] = 1 + version[field];
        }
    }
    for worker in 0..counts.workers {
        if let Some(field) = stale(writer, version, log, worker, counts.first_flag) {
            return Answer::Reported {
                event: counts.events,
                sort: 2,
                worker,
                other: 16,
                field,
            };
        }
    }
    Answer::Accepted
}
