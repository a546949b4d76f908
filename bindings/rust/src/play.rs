//! Whole step files.

use crate::numbers::Numbers;
use crate::raw::Memories;

/// Plays a step file on memories for the largest run and answers the report, as the rehearsal program writes it. Openings
/// and hears may be written in either kind of record, 0 and 4 with one byte for the slots or the slot, 8 and 9 with two.
///
/// # Panics
///
/// As [`Rack::open`](crate::Rack::open): if the library has another layout.
pub fn play(file: &[u8]) -> String {
    play_within(Numbers::LARGEST, file)
}

/// As `play`, on memories for at most these numbers; larger openings get refusal 2. `most.f` is not looked at.
pub fn play_within(most: Numbers, file: &[u8]) -> String {
    let mut report = vec![0; report_length(file.len(), most.of_memories())];
    let written = Memories::for_runs_of(most).play(most, file, &mut report);
    report.truncate(written);
    String::from_utf8(report).expect("a report is ASCII")
}

/// As `RUSHHOPPER_REPORT_LENGTH` of the header, which says why no report is as long.
fn report_length(file_length: usize, most: Numbers) -> usize {
    let records = file_length / 2 + 1;
    let line = match records {
        0..10_000 => 16,
        10_000..100_000_000 => 20,
        _ => 32,
    };
    records * line + 24 + most.n * (19 + 21 * most.slots)
}
