//! The proved finders and the proved writer, linked from the static library that the crate `linked_c` makes.

use crate::baseline::Answer;
use reference::file::Refused;
use reference::writing::{Rows, Written};

// A slice passes as a pointer and a length, the row as a pointer. Nothing checks these lines against the library's source:
// crates/linked_c/src/lib.rt has the signatures.
extern "C" {
    fn bankmurmur_early(
        file: *const u8,
        file_length: usize,
        stretch: *mut u32,
        stretch_length: usize,
        writer: *mut u32,
        writer_length: usize,
        readers: *mut u32,
        readers_length: usize,
        row: *mut [u64; 6],
    );
    fn bankmurmur_late(
        file: *const u8,
        file_length: usize,
        stretch: *mut u32,
        stretch_length: usize,
        writer: *mut u32,
        writer_length: usize,
        version: *mut u32,
        version_length: usize,
        log: *mut u32,
        log_length: usize,
        row: *mut [u64; 6],
    );
    fn bankmurmur_write(
        worker_labels: *const u32,
        worker_labels_length: usize,
        field_labels: *const u32,
        field_labels_length: usize,
        kinds: *const u32,
        kinds_length: usize,
        workers: *const u32,
        workers_length: usize,
        fields: *const u32,
        fields_length: usize,
        buffer: *mut u8,
        buffer_length: usize,
        row: *mut [u64; 6],
    );
}

fn of_row(row: [u64; 6]) -> Answer {
    match row[0] {
        0 => Answer::Refused {
            number: row[1] as u32,
            place: row[2] as usize,
        },
        1 => Answer::Accepted,
        _ => Answer::Reported {
            event: row[1] as usize,
            sort: row[2] as u32,
            worker: row[3] as usize,
            other: row[4] as usize,
            field: row[5] as usize,
        },
    }
}

pub fn early(file: &[u8], stretch: &mut [u32], writer: &mut [u32], readers: &mut [u32]) -> Answer {
    let mut row = [0; 6];
    // The slices are borrowed for the call, and the library asks nothing of their lengths.
    unsafe {
        bankmurmur_early(
            file.as_ptr(),
            file.len(),
            stretch.as_mut_ptr(),
            stretch.len(),
            writer.as_mut_ptr(),
            writer.len(),
            readers.as_mut_ptr(),
            readers.len(),
            &mut row,
        );
    }
    of_row(row)
}

pub fn late(
    file: &[u8],
    stretch: &mut [u32],
    writer: &mut [u32],
    version: &mut [u32],
    log: &mut [u32],
) -> Answer {
    let mut row = [0; 6];
    // As above.
    unsafe {
        bankmurmur_late(
            file.as_ptr(),
            file.len(),
            stretch.as_mut_ptr(),
            stretch.len(),
            writer.as_mut_ptr(),
            writer.len(),
            version.as_mut_ptr(),
            version.len(),
            log.as_mut_ptr(),
            log.len(),
            &mut row,
        );
    }
    of_row(row)
}

pub fn write(rows: &Rows, buffer: &mut [u8]) -> Written {
    let mut row = [0; 6];
    // As above.
    unsafe {
        bankmurmur_write(
            rows.worker_labels.as_ptr(),
            rows.worker_labels.len(),
            rows.field_labels.as_ptr(),
            rows.field_labels.len(),
            rows.kinds.as_ptr(),
            rows.kinds.len(),
            rows.workers.as_ptr(),
            rows.workers.len(),
            rows.fields.as_ptr(),
            rows.fields.len(),
            buffer.as_mut_ptr(),
            buffer.len(),
            &mut row,
        );
    }
    match row[0] {
        0 => Written::Refused(Refused {
            number: row[1] as u32,
            place: row[2] as usize,
        }),
        _ => Written::Bytes(row[1] as usize),
    }
}
