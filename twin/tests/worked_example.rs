//! The worked example of the rules: its image, its thirteen lines, and the states it points at.

mod common;

use common::{worked_case, worked_events, worked_lines, STATE_LINES};
use twin::core::event::Event;
use twin::core::flaw::Flaw;
use twin::core::state::Standing;
use twin::core::Core;
use twin::image::read::read_image;
use twin::image::write::write_image;
use twin::run::text::{run_text, Detail};

/// The core after so many events of the example.
fn core_after(count: usize) -> Core {
    let config = read_image(&worked_case().image, Flaw::None).expect("the example's image is legal");
    let mut core = Core::fresh(config, Flaw::None);
    for event in &worked_events()[..count] {
        core.apply(*event);
    }
    core
}

/// I1 to I6, I12, X1: each kind of record, its bytes and its place.
#[test]
fn image_is_the_34_bytes_and_is_written_again_as_such() {
    let image = worked_case().image;
    let bytes: [u8; 34] = [
        0x01, 0x02, 0x01, 0x02, 0x00, 0x10, 0, 0, 0x04, 0x10, 0, 0, 0x02, 0x00, 0x20, 0, 0, 0x04, 0x20, 0, 0,
        0x03, 0x00, 0x02, 0x00, 0x03, 0x01, 0x01, 0x00, 0x03, 0xff, 0x01, 0x00, 0x04,
    ];
    assert_eq!(image, bytes);
    let config = read_image(&bytes, Flaw::None).expect("legal");
    let mut buffer = [0xaa; 40];
    assert_eq!(write_image(&config, &mut buffer, Flaw::None), Ok(34));
    assert_eq!(buffer[..34], bytes);
    assert_eq!(buffer[34..], [0xaa; 6]);
}

/// N2, N3, X2: a line for each event, the refused one too.
#[test]
fn run_prints_the_13_lines() {
    let case = worked_case();
    let text = run_text(&case.image, &case.log, Detail::Lines, Flaw::None);
    assert_eq!(String::from_utf8(text).expect("ascii"), worked_lines());
}

/// D3, D8, D12, P1: the ten fields of VM 0 in its handler.
#[test]
fn p1_fields_after_event_10() {
    let core = core_after(10);
    assert_eq!(core.state.vms[0].fields, [4, 1, 0, 0, 0x1020, 7, 0x88, 0, 0x80, 3]);
}

/// D8, D9, P2: the number that is generated on each tick is delivered with the tick.
#[test]
fn p2_event_5_delivers_7_at_the_tick() {
    let mut core = core_after(4);
    let answer = core.apply(worked_events()[4]);
    assert_eq!((answer.delivered, answer.running, answer.address), (Some(7), Some(0), 0x1004));
}

/// A6, D29, P3: result 0 while there is room, then 1, and the queue stays as it is.
#[test]
fn p3_event_8_finds_the_queue_full() {
    let mut core = core_after(6);
    let answer = core.apply(worked_events()[6]);
    assert_eq!((answer.refusal, answer.result), (0, 0));
    let before = core.state.queue;
    let answer = core.apply(worked_events()[7]);
    assert_eq!((answer.refusal, answer.result), (0, 1));
    assert_eq!(core.state.queue, before);
    assert_eq!(core.state.queue.entries(), [0]);
}

/// R1 to R3, P4: refusal 3 shows the running VM, and the state stays.
#[test]
fn p4_event_11_names_no_vm_and_changes_nothing() {
    let mut core = core_after(10);
    let before = core.clone();
    let answer = core.apply(Event::Stop { vm: 2 });
    assert_eq!((answer.refusal, answer.running, answer.address), (3, Some(0), 0x1004));
    assert_eq!(core, before);
}

/// D4 to D6, P5: the table begins again, and a VM that is not ready only ages.
#[test]
fn p5_event_13_idles_in_the_slot_of_a_stopped_vm() {
    let core = core_after(13);
    assert_eq!(core.state.running, None);
    assert_eq!((core.state.slot, core.state.left), (0, 2));
    assert_eq!(core.state.vms[0].standing, Standing::Stopped);
    assert_eq!((core.state.vms[0].age, core.state.vms[1].age), (5, 5));
}

/// T10, D1, D2, N9, P1: the lines of whole states, and those of the queue and its counts at every event.
#[test]
fn states_of_the_first_and_the_tenth_event() {
    let case = worked_case();
    let text = run_text(&case.image, &case.log, Detail::States, Flaw::None);
    let text = String::from_utf8(text).expect("ascii");
    let lines: Vec<&str> = text.lines().collect();
    assert_eq!(lines.len(), 13 * STATE_LINES);
    assert_eq!(lines[..4], ["1 0 - - - 0 0 0", "notice 0 0 0", "core 1 0 0 0 -", "queue"]);
    assert_eq!(lines[4], "counts 0 0 0 0 0 0 0 0");
    let zero = "00000000";
    assert_eq!(lines[5], format!("vm 0 1 00001000 {} 0 0", [zero; 10].join(" ")));
    assert_eq!(lines[7], format!("vm 2 0 {} 0 0", [zero; 11].join(" ")));
    let tenth = &lines[9 * STATE_LINES..10 * STATE_LINES];
    assert_eq!(tenth[..4], ["10 0 0 00001004 7 0 0 0", "notice 0 0 0", "core 1 1 2 1 0", "queue"]);
    assert_eq!(tenth[4], "counts 0 0 0 0 0 0 0 0");
    let fields = "00000004 00000001 00000000 00000000 00001020 00000007 00000088 00000000 00000080 00000003";
    assert_eq!(tenth[5], format!("vm 0 1 00001004 {fields} 4 3"));
    assert_eq!(lines[11 * STATE_LINES + 1], "notice 0 0 0");
    // From its request, event 7, to the spare tick, event 10, VM 0 stands in the queue.
    let with_entry = ["queue 0", "counts 1 0 0 0 0 0 0 0"];
    for event in 1..=13 {
        let shown = &lines[STATE_LINES * (event - 1) + 3..][..2];
        assert_eq!(shown == with_entry, (7..=9).contains(&event), "event {event}: {shown:?}");
    }
}
