//! Step files and their reports.

use rushhopper::{play, play_within, Numbers};

/// Document 01's input and report, as the rehearsal program has them.
const WORKED: &[u8] = include_bytes!("../../../crates/rehearse/stdin");
const WORKED_REPORT: &str = include_str!("../../../examples/worked_session.report");

#[test]
fn worked_session() {
    assert_eq!(play(WORKED), WORKED_REPORT);
    assert_eq!(play_within(Numbers::REHEARSAL, WORKED), WORKED_REPORT);
}

#[test]
fn nothing_and_what_is_no_record() {
    assert_eq!(play(&[]), "");
    assert_eq!(play(&[10]), "refused 1 19\n");
    assert_eq!(play(&[8, 1, 0, 1, 0, 1, 1, 0, 0]), "refused 1 20\n");
    assert_eq!(play(&[9, 0, 0, 4, 0, 0]), "refused 1 20\n");
    assert_eq!(play(&[3, 0, 1, 0]), "refused 1 21\nrefused 2 20\n");
}

/// A replica asks for its own notice of a slot that it has not closed; then with a phase, and for a sort behind it.
#[test]
fn notices_have_phase_0() {
    let opening = [0, 1, 0, 1, 1, 1, 0, 0, 0];
    let file = [&opening[..], &[4, 0, 0, 4, 0, 0], &[4, 0, 0, 4, 0, 1], &[4, 0, 0, 5, 0, 1]].concat();
    let refused = "refused 2 17\nrefused 3 16\nrefused 4 16\n";
    assert_eq!(play(&file), format!("controllers 1 spare 0\n{refused}bench 0 lit 0\n"));
}

/// 17 slots of one phase would fit the memories of the rehearsal program, but it has 16.
#[test]
fn larger_openings() {
    let opening = [0, 1, 0, 17, 1, 4, 0, 0, 0];
    assert_eq!(play_within(Numbers::REHEARSAL, &opening), "refused 1 2\n");
    assert_eq!(play(&opening), "controllers 1 spare 0\nbench 0 lit 0\n");
    let beyond = Numbers { n: usize::MAX, f: 0, slots: usize::MAX, phases: usize::MAX, room: usize::MAX };
    assert_eq!(play_within(beyond, &opening), play(&opening));
}

/// An opening of one replica and one phase, in the old form or the new one.
fn opening_of(slots: u16, room: u16, wide: bool) -> Vec<u8> {
    let [low, high] = slots.to_le_bytes();
    let start: &[u8] = if wide { &[8, 1, 0, low, high, 1] } else { &[0, 1, 0, low, 1] };
    [start, &room.to_le_bytes(), &[0, 0]].concat()
}

/// Every opening gets this from players with memories for the rehearsal program's numbers and for the largest; in the new
/// form, and in the old one where the slots fit it.
fn expect_of_openings(openings: &[(u16, u16)], of_rehearsal: &str, of_largest: &str) {
    for &(slots, room) in openings {
        for wide in [slots > 255, true] {
            let opening = opening_of(slots, room, wide);
            assert_eq!(play_within(Numbers::REHEARSAL, &opening), of_rehearsal, "{slots} slots, room {room}");
            assert_eq!(play(&opening), of_largest, "{slots} slots, room {room}");
        }
    }
}

#[test]
fn larger_bands() {
    let opened = "controllers 1 spare 0\nbench 0 lit 0\n";
    expect_of_openings(&[(1, 1), (16, 64)], opened, opened);
    let larger = [(17, 64), (65, 64), (255, 64), (256, 64), (1024, 64), (16, 65), (16, 1024), (1024, 1024)];
    expect_of_openings(&larger, "refused 1 2\n", opened);
    let beyond = [(0, 64), (1025, 64), (65535, 64), (16, 0), (16, 1025), (16, 65535)];
    expect_of_openings(&beyond, "refused 1 1\n", "refused 1 1\n");
}

/// A replica alone closes its next slot with this tag.
fn closing(tag: u64) -> Vec<u8> {
    [&[1, 0][..], &tag.to_le_bytes(), &[3, 0, 7, 0]].concat()
}

/// The replica asks for its own notice of a slot, which is heard once it is sent. Slot 43 has the lower byte of slot 299.
#[test]
fn hears_past_slot_255() {
    let mut file = opening_of(300, 300, true);
    (1..=257).for_each(|tag| file.extend(closing(tag)));
    let log: String = (1..=257).map(|tag| format!(" {tag}")).collect();
    let rows = [([0, 43, 255, 256], 18), ([257, 258, 298, 299], 17), ([300, 555, 1024, 65535], 16)];
    for (slots, refusal) in rows {
        for slot in slots {
            let [low, high] = u16::to_le_bytes(slot);
            let asked = [&file[..], &[9, 0, 0, 4, low, high, 0]].concat();
            let expected = format!("controllers 1 spare 0\nrefused 773 {refusal}\nbench 0 lit 257{log}\n");
            assert_eq!(play(&asked), expected);
        }
    }
}

/// The records of a file, all of them in old forms.
fn records(mut file: &[u8]) -> Vec<&[u8]> {
    const LENGTHS: [usize; 8] = [9, 10, 10, 2, 6, 2, 2, 2];
    let mut records = Vec::new();
    while let [kind, ..] = *file {
        let (record, rest) = file.split_at(LENGTHS[usize::from(kind)]);
        records.push(record);
        file = rest;
    }
    records
}

/// An opening or hear in its new form: with a second byte behind the slots or the slot.
fn widened(record: &[u8]) -> Vec<u8> {
    let (kind, place) = match record[0] {
        0 => (8, 4),
        4 => (9, 5),
        _ => return record.to_vec(),
    };
    [&[kind][..], &record[1..place], &[0], &record[place..]].concat()
}

/// With each record alone in its new form, and then with all.
#[test]
fn worked_session_in_new_forms() {
    let old = records(WORKED);
    for (place, record) in old.iter().enumerate() {
        let file = [old[..place].concat(), widened(record), old[place + 1..].concat()].concat();
        assert_eq!(play(&file), WORKED_REPORT);
    }
    let wide: Vec<u8> = old.into_iter().flat_map(widened).collect();
    assert_eq!((wide.len(), play(&wide)), (WORKED.len() + 8, WORKED_REPORT.to_string()));
}

/// By the rehearsal program's numbers; a phase limit of 0 stands for 16 before it is compared with them.
#[test]
fn more_than_16_phases() {
    let opening = |phases| [0, 3, 1, 2, phases, 4, 0, 0, 0];
    let opened = "controllers 3 spare 1\nbench 0 lit 0\nbench 1 lit 0\nbench 2 lit 0\n";
    for phases in [0, 16] {
        assert_eq!(play_within(Numbers::REHEARSAL, &opening(phases)), opened);
    }
    assert_eq!(play_within(Numbers::REHEARSAL, &opening(17)), "refused 1 2\n");
    assert_eq!(play_within(Numbers::REHEARSAL, &opening(33)), "refused 1 1\n");
    assert_eq!(play(&opening(17)), opened);
    let fewer = Numbers { phases: 15, ..Numbers::REHEARSAL };
    assert_eq!(play_within(fewer, &opening(0)), "refused 1 2\n");
}

#[test]
fn a_spare_number_is_not_looked_at() {
    let most = Numbers { f: 0, ..Numbers::REHEARSAL };
    assert_eq!(play_within(most, WORKED), WORKED_REPORT);
}

/// The shortest records, all refused: the most lines that a file can have. The last is cut after one byte.
#[test]
fn no_report_of_many_lines_is_cut() {
    for whole in [0, 9, 999, 9_998, 9_999, 100_000] {
        let lines = (1..=whole).map(|record| format!("refused {record} 21\n"));
        let cut = format!("refused {} 20\n", whole + 1);
        let file = [[3, 0].repeat(whole), vec![3]].concat();
        assert_eq!(play_within(Numbers::default(), &file), lines.chain([cut]).collect::<String>());
    }
}

#[test]
fn no_report_of_a_short_file_is_cut() {
    let benches: String = (0..15).map(|replica| format!("bench {replica} lit 0\n")).collect();
    assert_eq!(play(&[8, 15, 7, 0, 4, 32, 0, 4, 0, 0]), format!("controllers 15 spare 7\n{benches}"));
}

/// The longest line: 1,024 slots with tags of 20 digits.
#[test]
fn no_report_of_long_lines_is_cut() {
    let mut file = vec![8, 1, 0, 0, 4, 1, 0, 4, 0, 0];
    let mut expected = "controllers 1 spare 0\nbench 0 lit 1024".to_string();
    for tag in u64::MAX - 1023..=u64::MAX {
        file.extend(closing(tag));
        expected += &format!(" {tag}");
    }
    assert_eq!(play(&file), expected + "\n");
}
