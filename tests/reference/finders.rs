//! What each finder must answer, and what it must leave in the tables lent to it.

use crate::file::{Recording, Refused};
use crate::tables::{Table, EARLY, LATE};
use crate::verdict::{History, Report};

#[derive(Clone, Copy, PartialEq, Eq, Debug)]
pub enum Answer {
    Refused(Refused),
    Accepted,
    Reported(Report),
}

/// Both finders' answers; the tables lent to them are changed as the finders must change them.
pub fn answers(
    file: &Result<Recording, Refused>,
    early_tables: &mut [Vec<u32>],
    late_tables: &mut [Vec<u32>],
) -> (Answer, Answer) {
    // Test 11 comes before the file is looked at, for each finder by its own tables.
    let early_short = too_short(&EARLY, early_tables);
    let late_short = too_short(&LATE, late_tables);
    let history = file.as_ref().map(History::of);
    let early = match &history {
        _ if early_short => refused_for_a_short_table(),
        Err(refused) => Answer::Refused(**refused),
        Ok(history) => found(history, history.early(), &EARLY, early_tables),
    };
    let late = match &history {
        _ if late_short => refused_for_a_short_table(),
        Err(refused) => Answer::Refused(**refused),
        Ok(history) => found(history, history.late(), &LATE, late_tables),
    };
    (early, late)
}

fn too_short(tables: &[Table], lent: &[Vec<u32>]) -> bool {
    tables
        .iter()
        .zip(lent)
        .any(|(table, words)| words.len() < table.full_length())
}

fn refused_for_a_short_table() -> Answer {
    Answer::Refused(Refused {
        number: 11,
        place: 0,
    })
}

/// The tables show the events before the reported one, or all of them; words past the full length stay.
fn found(
    history: &History,
    report: Option<Report>,
    tables: &[Table],
    lent: &mut [Vec<u32>],
) -> Answer {
    let shown = report.map_or(history.events().len(), |report| report.event);
    for (table, words) in tables.iter().zip(lent) {
        words[..table.full_length()].copy_from_slice(&table.words(history, shown));
    }
    report.map_or(Answer::Accepted, Answer::Reported)
}

#[cfg(test)]
mod tests {
    use super::*;
    use crate::file;
    use crate::notation;

    fn lent(tables: &[Table], extra: usize) -> Vec<Vec<u32>> {
        tables
            .iter()
            .map(|table| vec![99; table.full_length() + extra])
            .collect()
    }

    /// The early and the late finder's tables afterwards; every field is plain.
    fn after(events: &str) -> (Vec<Vec<u32>>, Vec<Vec<u32>>) {
        after_with(None, events)
    }

    /// Fields with these labels.
    fn after_with(fields: Option<Vec<u16>>, events: &str) -> (Vec<Vec<u32>>, Vec<Vec<u32>>) {
        let recording = notation::recording(events, None, fields).expect("the notation is good");
        let (mut early, mut late) = (lent(&EARLY, 1), lent(&LATE, 1));
        answers(&Ok(recording), &mut early, &mut late);
        (early, late)
    }

    /// The words that are not 0, with their places.
    fn used(words: &[u32]) -> Vec<(usize, u32)> {
        let full = words.len() - 1;
        assert_eq!(words[full], 99, "a word past the full length changed");
        words[..full]
            .iter()
            .copied()
            .enumerate()
            .filter(|&(_, word)| word != 0)
            .collect()
    }

    #[test]
    fn tables_of_an_accepted_recording() {
        let (early, late) = after("R0.0 W0.0 R0.0 B0 R1.0 R1.1 W0.2 B0 W0.2");
        assert_eq!(used(&early[0]), [(0, 3), (1, 1)]);
        assert_eq!(used(&early[1]), [(0, 16), (2, 48)]);
        assert_eq!(used(&early[2]), [(0, 1), (1, 1), (17, 1)]);
        assert_eq!(used(&late[0]), [(0, 3), (1, 1)]);
        assert_eq!(used(&late[1]), [(0, 16), (2, 48)]);
        assert_eq!(used(&late[2]), [(0, 1), (2, 2)]);
        assert_eq!(used(&late[3]), [(1, 2), (17, 1)]);
    }

    #[test]
    fn a_read_after_the_own_write_is_not_logged() {
        let (_, late) = after("W0.0 R0.0");
        assert_eq!(used(&late[3]), []);
    }

    #[test]
    fn the_reported_event_is_not_entered() {
        let (early, late) = after("R0.0 W1.0 B1 B0");
        assert_eq!(used(&early[0]), [(0, 1), (1, 1)]);
        assert_eq!(used(&early[1]), []);
        assert_eq!(used(&early[2]), [(0, 1)]);
        assert_eq!(used(&late[0]), [(0, 1), (1, 2)]);
        assert_eq!(used(&late[1]), [(0, 17)]);
        assert_eq!(used(&late[2]), [(0, 1)]);
        assert_eq!(used(&late[3]), [(0, 1)]);
    }

    /// Field 0 is plain and field 1 is a flag.
    fn after_with_flag(events: &str) -> (Vec<Vec<u32>>, Vec<Vec<u32>>) {
        after_with(Some(vec![7, 32_768]), events)
    }

    #[test]
    fn a_flag_access_raises_the_stretch_word_by_two_and_enters_no_other_table() {
        for events in ["R0.1 W1.1 R0.1", "W0.1 R1.1 W0.1"] {
            let (early, late) = after_with_flag(events);
            assert_eq!(used(&early[0]), [(0, 5), (1, 3)]);
            assert_eq!(used(&early[1]), []);
            assert_eq!(used(&early[2]), []);
            assert_eq!(used(&late[0]), [(0, 5), (1, 3)]);
            assert_eq!(used(&late[1]), []);
            assert_eq!(used(&late[2]), []);
            assert_eq!(used(&late[3]), []);
        }
    }

    #[test]
    fn plain_accesses_after_a_flag_bear_the_risen_number() {
        let (early, late) = after_with_flag("R0.0 W0.0 R0.1 R1.0 W1.1 R0.0 W0.0");
        assert_eq!(used(&early[0]), [(0, 3), (1, 3)]);
        assert_eq!(used(&early[1]), [(0, 48)]);
        assert_eq!(used(&early[2]), [(0, 3), (1, 1)]);
        assert_eq!(used(&late[0]), [(0, 3), (1, 3)]);
        assert_eq!(used(&late[1]), [(0, 48)]);
        assert_eq!(used(&late[2]), [(0, 2)]);
        assert_eq!(used(&late[3]), [(0, 2)]);
    }

    #[test]
    fn a_flag_access_clears_the_log_words_of_its_worker_alone() {
        for events in ["R0.0 R1.0 R0.1", "R0.0 R1.0 W0.1"] {
            let (early, late) = after_with_flag(events);
            assert_eq!(used(&early[0]), [(0, 3), (1, 1)]);
            assert_eq!(used(&early[2]), [(0, 1), (1, 1)]);
            assert_eq!(used(&late[3]), [(1, 1)]);
        }
    }

    #[test]
    fn the_version_counts_stretches_that_flags_part() {
        let (_, late) = after_with_flag("W0.0 W0.0 R0.1 W0.1 W0.0");
        assert_eq!(used(&late[0]), [(0, 5)]);
        assert_eq!(used(&late[1]), [(0, 80)]);
        assert_eq!(used(&late[2]), [(0, 2)]);
    }

    #[test]
    fn a_reported_flag_access_is_not_entered() {
        let (early, late) = after_with_flag("W1.1 R0.0 W1.0 R0.1 W1.1");
        assert_eq!(used(&early[0]), [(0, 1), (1, 3)]);
        assert_eq!(used(&early[1]), []);
        assert_eq!(used(&early[2]), [(0, 1)]);
        assert_eq!(used(&late[0]), [(0, 1), (1, 3)]);
        assert_eq!(used(&late[1]), [(0, 49)]);
        assert_eq!(used(&late[2]), [(0, 1)]);
        assert_eq!(used(&late[3]), [(0, 1)]);
    }

    #[test]
    fn the_highest_plain_label_enters_every_table() {
        let (early, late) = after_with(Some(vec![32_767]), "R0.0 W0.0");
        assert_eq!(used(&early[0]), [(0, 1)]);
        assert_eq!(used(&early[1]), [(0, 16)]);
        assert_eq!(used(&early[2]), [(0, 1)]);
        assert_eq!(used(&late[2]), [(0, 1)]);
        assert_eq!(used(&late[3]), [(0, 1)]);
    }

    #[test]
    fn short_tables_come_before_a_bad_file_and_change_nothing() {
        for short in 0..LATE.len() {
            let (mut early, mut late) = (lent(&EARLY, 0), lent(&LATE, 0));
            late[short].pop();
            let before = late.clone();
            let (early_answer, late_answer) = answers(&file::read(&[]), &mut early, &mut late);
            assert_eq!(
                early_answer,
                Answer::Refused(Refused {
                    number: 1,
                    place: 0
                })
            );
            assert_eq!(
                late_answer,
                Answer::Refused(Refused {
                    number: 11,
                    place: 0
                })
            );
            assert_eq!((early, late), (lent(&EARLY, 0), before));
        }
    }
}
