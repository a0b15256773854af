//! What a run prints, part by part of a line (N3, N4, N9, N12).

mod common;

use common::{call, core_of, tick, with_queue, worked_case, write, STATE_LINES};
use twin::core::event::Event;
use twin::core::flaw::Flaw;
use twin::edges::reports::edge_reports;
use twin::generate::case::CaseMaker;
use twin::image::write::image_bytes;
use twin::log::write::log_of;
use twin::run::text::{many_text, run_text, Detail};

/// The lines that the worked configuration prints for some events.
fn lines(events: &[Event], detail: Detail) -> Vec<String> {
    let text = run_text(&worked_case().image, &log_of(events), detail, Flaw::None);
    String::from_utf8(text).expect("ascii").lines().map(String::from).collect()
}

/// A3, N4: a delivered 0 prints 0, and VM 0 prints 0; none of either prints a dash.
#[test]
fn a_dash_means_none_and_0_is_a_number() {
    let events = [Event::Start, tick(0), write(8, 1), write(12, 1), call(0, 0, 0x1024)];
    let lines = lines(&events, Detail::Lines);
    assert_eq!(
        [0, 3, 4].map(|at: usize| lines[at].as_str()),
        ["1 0 - - - 0 0 0", "4 0 0 00001000 - 0 0 0", "5 0 0 00001004 0 0 0 0"]
    );
}

/// N3: the address has eight digits, letters small; the other numbers are decimal.
#[test]
fn only_the_address_is_hexadecimal() {
    let mut events = vec![Event::Start, tick(0), write(8, u32::MAX), call(2, 31, 0), call(0, 0, 0x00ab_cdef)];
    events.extend([call(0, 0, 0xfedc_ba98), call(0, 0, 0), call(0, 0, u32::MAX), Event::Extra { vm: 77 }]);
    events.push(Event::Start);
    assert_eq!(
        lines(&events, Detail::Lines)[3..],
        [
            "4 0 0 00001004 31 0 0 0",
            "5 0 0 00abcdef - 0 0 0",
            "6 0 0 fedcba98 - 0 0 0",
            "7 0 0 00000000 - 0 0 0",
            "8 0 0 ffffffff - 0 0 0",
            "9 3 0 ffffffff - 0 0 0",
            "10 7 0 ffffffff - 0 0 0",
        ]
    );
}

/// T3, N9: the numbers of the standings, from none to in error.
#[test]
fn each_standing_has_its_number() {
    let events = [Event::Start, tick(0), call(3, 0, 0), tick(0), tick(0), Event::Stop { vm: 1 }];
    let more = [Event::Restart { vm: 0 }, tick(0), tick(0), Event::Fault { code: 3, data: 0 }];
    let lines = lines(&[&events[..], &more].concat(), Detail::States);
    let standing =
        |event: usize, vm: usize| lines[STATE_LINES * event + 5 + vm].split(' ').nth(2).expect("a number");
    assert_eq!([standing(0, 2), standing(0, 7)], ["0", "0"], "never started");
    assert_eq!([standing(0, 0), standing(2, 1), standing(6, 0)], ["1", "1", "1"], "ready");
    assert_eq!([standing(5, 1), standing(9, 1)], ["2", "2"], "stopped");
    assert_eq!([standing(2, 0), standing(5, 0)], ["3", "3"], "shut down");
    assert_eq!(standing(9, 0), "4", "in error");
}

/// T10, N9: the notice, the queue and its counts in whole states, in decimal.
#[test]
fn the_lines_of_a_state_show_the_notice_and_the_queue() {
    let config = with_queue(3);
    let events = [Event::Start, tick(0), Event::Extra { vm: 1 }, Event::Extra { vm: 1 }, call(4, 0, 0)];
    assert_eq!(core_of(config.clone(), &events).state.queue.entries(), [1, 1, 0]);
    let image = image_bytes(&config, Flaw::None);
    let log = log_of(&[&events[..], &[Event::Fault { code: 3, data: u32::MAX }]].concat());
    let text = String::from_utf8(run_text(&image, &log, Detail::States, Flaw::None)).expect("ascii");
    let lines: Vec<&str> = text.lines().collect();
    assert_eq!(
        lines[4 * STATE_LINES..][..5],
        ["5 0 0 00000000 - 0 0 0", "notice 0 0 0", "core 1 1 0 2 0", "queue 1 1 0", "counts 1 2 0 0 0 0 0 0"]
    );
    assert_eq!(
        lines[5 * STATE_LINES..][..5],
        ["6 0 - - - 3 0 1", "notice 0 3 4294967295", "core 1 1 0 2 -", "queue 1 1", "counts 0 2 0 0 0 0 0 0"]
    );
}

/// N5 to N7, N9: what is no line of an event is the same with states.
#[test]
fn states_end_in_the_same_words() {
    let image = worked_case().image;
    let ends = [
        (&image[..33], vec![0x10], "config 20 33"),
        (&image, vec![0x10; 60_001], "long"),
        (&image, vec![0x10, 0x19], "cut 2"),
        (&image, vec![0x10, 0x12], "cut 2"),
    ];
    for (image, log, word) in ends {
        for detail in [Detail::Lines, Detail::States] {
            let text = String::from_utf8(run_text(image, &log, detail, Flaw::None)).expect("ascii");
            assert_eq!(text.lines().last(), Some(word), "{detail:?}");
        }
    }
}

/// N12: every line of every program ends in one newline, and no line is empty.
#[test]
fn every_line_ends_in_one_newline() {
    let maker = CaseMaker::new(13);
    let mut texts: Vec<Vec<u8>> =
        edge_reports(13).iter().map(|edge| edge.folder.report(Flaw::None)).collect();
    for case in (0..maker.edge_count() + 50).map(|number| maker.case(number)) {
        texts.push(run_text(&case.image, &case.log, Detail::Lines, Flaw::None));
        texts.push(many_text(&case.image, &case.log, Flaw::None));
    }
    for text in texts {
        assert!(text.is_empty() || text.ends_with(b"\n"));
        let mut lines = text.split_inclusive(|byte| *byte == b'\n');
        assert!(lines.all(|line| line.len() > 1 && line.is_ascii() && !line.contains(&b'\r')));
    }
}
