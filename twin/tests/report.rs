//! The tick report, rule by rule (N13 to N21), and what must hold of the figures of any folder.

mod common;

use common::{call, tick, worked_case, worked_config};
use twin::core::config::{Config, Slot, VmPlace, SPARE};
use twin::core::event::Event;
use twin::core::flaw::Flaw;
use twin::core::Core;
use twin::generate::report::generated_folder;
use twin::image::read::read_image;
use twin::image::write::image_bytes;
use twin::log::read::{read_record, Record};
use twin::log::write::log_of;
use twin::report::figures::{figures_of, report_text, table_ticks, Figures};
use twin::report::folder::ReportFolder;

const WORKED: &str = "0 2 1 1\n1 1 0 0\nidle 1\nticks 5\n";
const NOTHING: &str = "0 0 0 0\n1 0 0 0\nidle 0\nticks 0\n";

/// The report of the worked configuration and these files under the names of the logs.
fn report(logs: &[Option<Vec<u8>>]) -> String {
    text(&worked_case().image, logs)
}

fn text(image: &[u8], logs: &[Option<Vec<u8>>]) -> String {
    String::from_utf8(report_text(image, logs, Flaw::None)).expect("ascii")
}

fn log(events: &[Event]) -> Option<Vec<u8>> {
    Some(log_of(events))
}

fn worked_log() -> Option<Vec<u8>> {
    Some(worked_case().log)
}

/// Start and so many ticks.
fn ticking(ticks: usize) -> Option<Vec<u8>> {
    let mut events = vec![tick(0); ticks + 1];
    events[0] = Event::Start;
    log(&events)
}

/// A log with some bytes behind it.
fn with_tail(log: Option<Vec<u8>>, tail: &[u8]) -> Option<Vec<u8>> {
    log.map(|log| [&log[..], tail].concat())
}

/// N15 to N18, X3: one log with every kind of tick.
#[test]
fn the_worked_example_has_its_figures() {
    assert_eq!(report(&[worked_log()]), WORKED);
}

/// N13: a missing log in the first, the second and the third place.
#[test]
fn n13_the_first_log_that_does_not_open_ends_the_list() {
    let one = ticking(1);
    assert_eq!(report(&[one.clone(), None, one.clone()]), "0 1 0 0\n1 0 0 0\nidle 0\nticks 1\n");
    assert_eq!(report(&[one.clone(), one.clone(), None, one.clone()]), "0 2 0 0\n1 0 0 0\nidle 0\nticks 2\n");
    assert_eq!(report(&[None, one.clone(), one]), NOTHING);
}

/// N13: fifteen, sixteen and seventeen logs.
#[test]
fn n13_sixteen_logs_are_read_and_no_more() {
    let sixteen = "0 16 0 0\n1 0 0 0\nidle 0\nticks 16\n";
    assert_eq!(report(&vec![ticking(1); 15]), sixteen.replace("16", "15"));
    assert_eq!(report(&vec![ticking(1); 16]), sixteen);
    assert_eq!(report(&vec![ticking(1); 17]), sixteen);
}

/// N14, N15: neither the state nor the place in the table goes over to the next log.
#[test]
fn n14_each_log_runs_from_fresh_and_the_figures_are_summed() {
    assert_eq!(report(&[worked_log(), worked_log()]), "0 4 2 2\n1 2 0 0\nidle 2\nticks 10\n");
    // The first log leaves the core started, VM 1 stopped and the table at its third tick.
    let first = log(&[Event::Start, Event::Stop { vm: 1 }, tick(0), tick(0), tick(0)]);
    assert_eq!(report(&[first, ticking(3)]), "0 4 0 0\n1 1 0 1\nidle 1\nticks 6\n");
    // Without a Start of its own no log goes on where the one before it stood.
    assert_eq!(report(&[ticking(1), log(&[tick(0), tick(0)])]), "0 1 0 0\n1 0 0 0\nidle 0\nticks 1\n");
}

/// N15: ticks before Start.
#[test]
fn n15_a_refused_tick_counts_for_nothing_and_moves_no_place() {
    let late = log(&[tick(0), tick(0), tick(0), Event::Start, tick(0), tick(0), tick(0)]);
    assert_eq!(report(&[late]), "0 2 0 0\n1 1 0 0\nidle 0\nticks 3\n");
    assert_eq!(report(&[log(&[tick(0), tick(0)])]), NOTHING);
}

/// N15: three times through a table with a slot of two ticks.
#[test]
fn n15_the_table_begins_again_after_the_sum_of_all_durations() {
    assert_eq!(table_ticks(&worked_config()), [0, 0, 1, SPARE]);
    assert_eq!(report(&[ticking(4)]), "0 2 0 0\n1 1 0 0\nidle 1\nticks 4\n");
    assert_eq!(report(&[ticking(11)]), "0 6 0 0\n1 3 0 0\nidle 2\nticks 11\n");
}

/// N16: a VM that has a tick of each kind.
#[test]
fn n16_a_tick_of_the_table_and_a_spare_tick_stand_apart() {
    let extra = Event::Extra { vm: 1 };
    let events = [Event::Start, extra, tick(0), tick(0), tick(0), tick(0), tick(0)];
    assert_eq!(report(&[log(&events)]), "0 3 0 0\n1 1 1 0\nidle 0\nticks 5\n");
}

/// N16: VMs that end in a tick of their own and in a spare one.
#[test]
fn n16_a_vm_that_ends_within_a_tick_has_run_it() {
    let ends = [Event::Stop { vm: 0 }, Event::Fault { code: 3, data: 0 }, call(3, 0, 0), call(77, 0, 0)];
    for end in ends {
        let events = [Event::Start, tick(0), end, tick(0), tick(0)];
        assert_eq!(report(&[log(&events)]), "0 1 0 1\n1 1 0 0\nidle 1\nticks 3\n", "{end:?}");
    }
    let in_spare =
        [Event::Start, Event::Extra { vm: 1 }, tick(0), tick(0), tick(0), tick(0), Event::Stop { vm: 1 }];
    assert_eq!(report(&[log(&in_spare)]), "0 2 0 0\n1 1 1 0\nidle 0\nticks 4\n");
}

/// N17: stopped VMs and an empty queue.
#[test]
fn n17_every_missed_tick_is_idle_and_an_idle_spare_tick_is_missed_by_nobody() {
    let stop = |vm| Event::Stop { vm };
    let events = [Event::Start, stop(0), stop(1), tick(0), tick(0), tick(0), tick(0)];
    assert_eq!(report(&[log(&events)]), "0 0 0 2\n1 0 0 1\nidle 4\nticks 4\n");
    let restarted = [Event::Start, stop(0), tick(0), Event::Restart { vm: 0 }, tick(0)];
    assert_eq!(report(&[log(&restarted)]), "0 1 0 1\n1 0 0 0\nidle 1\nticks 2\n");
}

/// N18: images of 1, 2, 7 and 8 VMs.
#[test]
fn n18_there_is_a_line_for_each_vm_of_the_image_and_no_other() {
    for vm_count in [1, 2, 7, 8] {
        let mut config = Config::zero();
        (config.vm_count, config.slot_count) = (vm_count, vm_count);
        for vm in 0..vm_count {
            config.vms[usize::from(vm)] = VmPlace { entry: 0x1000, handler: 0x2000 };
            config.slots[usize::from(vm)] = Slot { owner: vm, ticks: 1_000 };
        }
        let mut expected: String = (0..vm_count).map(|vm| format!("{vm} 1000 0 0\n")).collect();
        let ticks = 1_000 * usize::from(vm_count);
        expected += &format!("idle 0\nticks {ticks}\n");
        assert_eq!(text(&image_bytes(&config, Flaw::None), &[ticking(ticks)]), expected);
    }
}

/// L4, N19: unknown kinds and cut bodies, at the start of a log and behind ticks.
#[test]
fn n19_a_record_that_cannot_be_read_ends_its_own_log_alone() {
    let more = [&[0xff][..], &worked_case().log].concat();
    for tail in [&[0x00][..], &[0x19], &[0x11], &[0x11, 0, 0, 0], &[0x16, 4, 0, 0], &[0x12], &more] {
        let logs = [with_tail(worked_log(), tail), ticking(2)];
        assert_eq!(report(&logs), "0 4 1 1\n1 1 0 0\nidle 1\nticks 7\n", "{tail:?}");
    }
    assert_eq!(report(&[Some(vec![0]), worked_log()]), WORKED);
    assert_eq!(report(&[Some(more), worked_log()]), WORKED);
}

/// N20: four lengths over 60,000 bytes.
#[test]
fn n20_a_log_that_is_too_long_adds_nothing_and_ends_nothing() {
    let lengths = [60_001, 65_535, 65_536, 200_000];
    for length in lengths {
        let mut long = ticking(12_000).expect("a log");
        long.resize(length, 0x10);
        assert_eq!(report(&[worked_log(), Some(long.clone())]), WORKED);
        assert_eq!(report(&[Some(long), worked_log()]), WORKED);
    }
}

/// S9, N20: the longest log, and sixteen of them.
#[test]
fn n20_a_log_of_60_000_bytes_runs() {
    let full = with_tail(ticking(11_999), &[0x10; 4]);
    assert_eq!(full.as_ref().map(Vec::len), Some(60_000));
    assert_eq!(report(&[full]), "0 6000 0 0\n1 3000 0 0\nidle 2999\nticks 11999\n");
    assert_eq!(report(&vec![Some(vec![0x10; 60_000]); 16]), NOTHING);
}

/// N20: empty logs between others.
#[test]
fn n20_a_log_without_a_byte_is_a_log() {
    let empty = Some(Vec::new());
    assert_eq!(report(&[empty.clone(), worked_log(), empty.clone(), ticking(1)]), {
        "0 3 1 1\n1 1 0 0\nidle 1\nticks 6\n"
    });
    assert_eq!(report(&[empty]), NOTHING);
}

/// N5, N21: four faults, with no logs and with several.
#[test]
fn n21_a_refused_image_prints_its_line_alone_whatever_the_logs_are() {
    let image = worked_case().image;
    let longer = [&image[..], &[4]].concat();
    let lists = [vec![], vec![worked_log()], vec![None, worked_log()], vec![Some(vec![0x10; 60_001])]];
    for logs in lists {
        assert_eq!(text(&[], &logs), "config 20 0\n");
        assert_eq!(text(&image[..33], &logs), "config 20 33\n");
        assert_eq!(text(&[1, 9, 0], &logs), "config 22 0\n");
        assert_eq!(text(&longer, &logs), "config 28 34\n");
    }
}

/// N21: no log, and none that opens.
#[test]
fn n21_with_no_log_at_all_every_figure_is_0() {
    assert_eq!(report(&[]), NOTHING);
    assert_eq!(report(&[None]), NOTHING);
}

/// How many accepted ticks of the logs stood in a slot of each owner, as the core's own state has it.
fn ticks_by_owner(config: &Config, folder: &ReportFolder) -> [u64; 256] {
    let mut counts = [0; 256];
    for log in folder.listed() {
        let mut core = Core::fresh(config.clone(), Flaw::None);
        let mut at = 0;
        while let (Record::Event(event, next), true) = (read_record(&log, at), log.len() <= 60_000) {
            let answer = core.apply(event);
            if matches!(event, Event::Tick { .. }) && answer.refusal == 0 {
                let slot = config.slots[usize::from(core.state.slot)];
                counts[usize::from(slot.owner)] += 1;
            }
            at = next;
        }
    }
    counts
}

/// D10, N15 to N17: the figures of random folders, beside the slot in the core's own state.
#[test]
fn the_figures_of_any_folder_add_up() {
    let (mut judged, mut ticks) = (0, 0);
    for number in 0..300 {
        let folder = generated_folder(5, number);
        let Ok(config) = read_image(folder.image_bytes(), Flaw::None) else {
            continue;
        };
        let figures = figures_of(config.clone(), &folder.opened(), Flaw::None);
        let by_owner = ticks_by_owner(&config, &folder);
        let sum = |column: &[u64; 8]| column.iter().sum::<u64>();
        let Figures { table, spare, missed, idle, ticks: all } = figures;
        assert_eq!(sum(&table) + sum(&spare) + idle, all, "folder {number}");
        assert_eq!(by_owner.iter().sum::<u64>(), all, "folder {number}");
        for vm in 0..8 {
            assert_eq!(table[vm] + missed[vm], by_owner[vm], "folder {number}, VM {vm}");
        }
        let idle_in_spare = idle - sum(&missed);
        assert_eq!(sum(&spare) + idle_in_spare, by_owner[usize::from(SPARE)], "folder {number}");
        (judged, ticks) = (judged + 1, ticks + all);
    }
    assert!(judged > 250 && ticks > 500_000, "{judged} folders, {ticks} ticks");
}
