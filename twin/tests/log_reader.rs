//! The reader and the writer of event records, and how a run ends at a bad one.

mod common;

use common::{call, counted_copy, extent, tick, worked_case, worked_events, write};
use twin::core::event::{CopyRequest, Event};
use twin::core::flaw::Flaw;
use twin::generate::random::Random;
use twin::log::read::{event_body_length, read_record, Record};
use twin::log::write::log_of;
use twin::run::text::{run_text, Detail};

fn printed(image: &[u8], log: &[u8]) -> String {
    String::from_utf8(run_text(image, log, Detail::Lines, Flaw::None)).expect("ascii")
}

/// A Copy with a number of its own in each field, and its 102 bytes (E13).
fn whole_copy() -> (Event, Vec<u8>) {
    let mut request = CopyRequest { count: 9, next: 0x0403_0201, ..CopyRequest::default() };
    let mut bytes = vec![0x1a, 9, 1, 2, 3, 4];
    for (index, place) in (0..).zip(&mut request.extents) {
        *place = extent(0x1000_0000 + index, 0x2000_0100 + index, 0x3002_0000 + index);
        let low = index as u8;
        bytes.extend([low, 0, 0, 0x10, low, 1, 0, 0x20, low, 0, 2, 0x30]);
    }
    assert_eq!(bytes.len(), 102);
    (Event::Copy(request), bytes)
}

/// E1 to E10, E13, L2, L4: each kind of record, whole and cut at each place.
#[test]
fn every_kind_has_its_bytes() {
    let (copied, copy_bytes) = whole_copy();
    let records: [(Event, &[u8]); 10] = [
        (Event::Start, &[0x10]),
        (tick(0x0403_0201), &[0x11, 1, 2, 3, 4]),
        (Event::Stop { vm: 7 }, &[0x12, 7]),
        (Event::Shutdown { vm: 8 }, &[0x13, 8]),
        (Event::Restart { vm: 9 }, &[0x14, 9]),
        (Event::Extra { vm: 255 }, &[0x15, 255]),
        (call(4, 0x0403_0201, 0x0807_0605), &[0x16, 4, 1, 2, 3, 4, 5, 6, 7, 8]),
        (write(36, 0xffff_fffe), &[0x17, 36, 0xfe, 0xff, 0xff, 0xff]),
        (Event::Fault { code: 5, data: 0x1_0000 }, &[0x18, 5, 0, 0, 1, 0]),
        (copied, &copy_bytes),
    ];
    for (event, bytes) in records {
        assert_eq!(log_of(&[event]), bytes);
        assert_eq!(read_record(bytes, 0), Record::Event(event, bytes.len()));
        for length in 1..bytes.len() {
            assert_eq!(read_record(&bytes[..length], 0), Record::Unreadable(0));
        }
    }
}

/// L3: the end of a log and places past it.
#[test]
fn a_place_at_the_end_or_past_it_is_the_end() {
    let log = log_of(&[Event::Start, tick(0)]);
    assert_eq!(read_record(&log, 6), Record::End);
    assert_eq!(read_record(&log, 7), Record::End);
    assert_eq!(read_record(&log, usize::MAX), Record::End);
    assert_eq!(read_record(&[], 0), Record::End);
}

/// E12, L2, L4, L5: random bodies are read whatever they hold, and no bit is lost.
#[test]
fn any_bytes_read_as_records_are_written_again_the_same() {
    let mut random = Random::of_case(3, 3);
    let mut events = 0;
    for _ in 0..20_000 {
        let mut bytes = random.bytes(102);
        bytes[0] = 0x0e + bytes[0] % 14;
        let known = event_body_length(bytes[0]).is_some();
        match read_record(&bytes, 0) {
            Record::Event(event, next) => {
                events += 1;
                assert_eq!(log_of(&[event]), bytes[..next]);
            }
            other => assert!(!known && other == Record::Unreadable(0)),
        }
    }
    assert!(events > 10_000);
}

/// L1, L2, L4: record after record from its own place on; one that cannot be read is told by its place.
#[test]
fn a_log_is_read_record_by_record() {
    let log = log_of(&worked_events());
    let mut at = 0;
    for event in worked_events() {
        let next = at + log_of(&[event]).len();
        assert_eq!(read_record(&log, at), Record::Event(event, next));
        let unknown = [&log[..at], &[0x19], &log[at..]].concat();
        assert_eq!(read_record(&unknown, at), Record::Unreadable(at));
        at = next;
    }
    assert_eq!((read_record(&log, at), at), (Record::End, log.len()));
}

/// E13, L4: of all kinds 0x10 to 0x18 and 0x1A are read, and no other: there is no kind 0x19.
#[test]
fn ten_kinds_are_known() {
    for kind in 0..=255 {
        let mut bytes = [0; 102];
        bytes[0] = kind;
        let known = matches!(read_record(&bytes, 0), Record::Event(..));
        assert_eq!(known, (0x10..=0x18).contains(&kind) || kind == 0x1a, "kind {kind}");
    }
    assert_eq!(read_record(&[0x19; 102], 0), Record::Unreadable(0));
}

/// E13, L4, N7: a Copy cut at each of its lengths, alone and behind other records; the next record begins
/// behind 102 bytes, whatever the count is.
#[test]
fn the_record_of_a_copy_has_102_bytes() {
    for count in [0, 1, 8, 9, 255] {
        let bytes = log_of(&[counted_copy(count, &[extent(1, 2, 3)])]);
        assert_eq!(bytes.len(), 102);
        assert_eq!(event_body_length(0x1a), Some(101));
        let log = [&[0x10][..], &bytes, &[0x10]].concat();
        assert_eq!(
            read_record(&log, 1),
            Record::Event(counted_copy(count, &[extent(1, 2, 3)]), 103),
            "count {count}"
        );
        assert_eq!(read_record(&log, 103), Record::Event(Event::Start, 104));
        for length in 1..102 {
            assert_eq!(read_record(&bytes[..length], 0), Record::Unreadable(0), "length {length}");
            let log = [&[0x10][..], &bytes[..length]].concat();
            assert_eq!(read_record(&log, 1), Record::Unreadable(1), "length {length}");
            assert_eq!(printed(&worked_case().image, &log), "1 0 - - - 0 0 0\ncut 2\n");
        }
    }
}

/// E12, L5: every number of 8 bits is read as it stands, beside numbers with all 32 bits set.
#[test]
fn no_number_is_judged_or_shortened() {
    for byte in 0..=255 {
        let (vm, code, most) = (byte, byte, u32::MAX);
        let masters =
            [Event::Stop { vm }, Event::Shutdown { vm }, Event::Restart { vm }, Event::Extra { vm }];
        let guests = [call(byte, most, most), write(byte, most), Event::Fault { code, data: most }];
        let copied =
            Event::Copy(CopyRequest { count: byte, next: most, extents: [extent(most, most, most); 8] });
        for event in masters.into_iter().chain(guests).chain([copied]) {
            let log = log_of(&[event]);
            assert_eq!(log[1], byte);
            assert!(log[2..].iter().all(|part| *part == 255));
            assert_eq!(read_record(&log, 0), Record::Event(event, log.len()));
        }
    }
}

/// L4, N7: a record that cannot be read, first and after other records.
#[test]
fn cut_names_the_number_that_the_line_would_have_had() {
    let image = worked_case().image;
    assert_eq!(printed(&image, &[0x19]), "cut 1\n");
    assert_eq!(printed(&image, &[0x10, 0x11, 0, 0]), "1 0 - - - 0 0 0\ncut 2\n");
    assert_eq!(printed(&image, &[0x10, 0x10, 0x00, 0x10]), "1 0 - - - 0 0 0\n2 7 - - - 0 0 0\ncut 3\n");
}

/// L3, N2: no event, no line.
#[test]
fn an_empty_log_prints_nothing() {
    assert_eq!(printed(&worked_case().image, &[]), "");
}

/// S9, N5, N6: logs of 60,000 and 60,001 bytes, with images good and refused.
#[test]
fn the_length_is_tested_after_the_image() {
    let image = worked_case().image;
    assert_eq!(printed(&image, &[0x10; 60_001]), "long\n");
    assert_eq!(printed(&image[..33], &[0x10; 60_001]), "config 20 33\n");
    assert_eq!(printed(&image, &[0x10; 60_000]).lines().count(), 60_000);
    assert_eq!(printed(&[], &[]), "config 20 0\n");
}
