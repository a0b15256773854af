//! The queue counts: how each of them grows, falls and becomes 0, and the line that shows them (T10, P13, N9).

mod common;

use common::{
    call, core_of, counted, events_of, every_kind, p12_core, runnable, tick, with_queue, write, REMOVING,
    STATE_LINES,
};
use twin::core::config::{Config, SPARE};
use twin::core::event::{Answer, Event};
use twin::core::flaw::Flaw;
use twin::core::limits::MAX_VMS;
use twin::core::state::Queue;
use twin::core::Core;
use twin::edges::cases::small;
use twin::generate::case::CaseMaker;
use twin::image::write::image_bytes;
use twin::log::write::log_of;
use twin::report::figures::table_ticks;
use twin::run::frames::Case;
use twin::run::text::{many_text, run_text, Detail};

const NONE: [u8; MAX_VMS] = [0; MAX_VMS];

fn counts(core: &Core) -> [u8; MAX_VMS] {
    core.state.queue.vm_counts
}

/// Eight VMs, of which this one runs in its slot of one tick, with a queue of 16; the master has asked for
/// these VMs. The spare slot is the ninth.
fn crowd(running: u8, vms: &[u8]) -> Core {
    let mut events = vec![Event::Start];
    events.extend(vec![tick(0); usize::from(running) + 1]);
    events.extend(vms.iter().map(|vm| Event::Extra { vm: *vm }));
    let core = core_of(small(8, 16), &events);
    assert_eq!(core.state.running, Some(running));
    core
}

/// As before the event, but for the count of one VM.
fn with(before: [u8; MAX_VMS], vm: u8, count: u8) -> [u8; MAX_VMS] {
    let mut counts = before;
    counts[usize::from(vm)] = count;
    counts
}

/// T10, D7, D14, D18, P13, M7: there; after each event that removes 2, after Stop 1, and after three ticks.
#[test]
fn p13_the_counts_of_the_run_of_p12() {
    assert_eq!(counts(&p12_core(Flaw::None)), [2, 1, 0, 0, 0, 0, 0, 0]);
    for event in REMOVING {
        let mut core = p12_core(Flaw::None);
        assert_eq!(core.apply(event).removed, 2, "{event:?}");
        assert_eq!(counts(&core), [0, 1, 0, 0, 0, 0, 0, 0], "{event:?}");
    }
    let mut core = p12_core(Flaw::None);
    assert_eq!(core.apply(Event::Stop { vm: 1 }).removed, 1);
    assert_eq!(counts(&core), [2, 0, 0, 0, 0, 0, 0, 0]);
    let mut core = p12_core(Flaw::None);
    for (running, expected) in [(0, [2, 1]), (1, [2, 1]), (0, [1, 1])] {
        assert_eq!(core.apply(tick(0)).running, Some(running));
        assert_eq!(counts(&core), [expected[0], expected[1], 0, 0, 0, 0, 0, 0]);
    }
    assert_eq!((core.state.slot, core.state.queue.entries()), (2, &[1, 0][..]));
}

/// T5, T6, T10, D1: a fresh core has eight counts, all 0, and Start leaves them so.
#[test]
fn fresh_counts_are_0_and_stay_so_at_start() {
    for config in [small(1, 0), with_queue(1), small(8, 16)] {
        let mut core = Core::fresh(config, Flaw::None);
        assert_eq!(counts(&core), NONE);
        assert_eq!(core.apply(Event::Start).refusal, 0);
        assert_eq!(counts(&core), NONE);
        assert_eq!(core.apply(tick(0)).running, Some(0));
        assert_eq!(counts(&core), NONE);
    }
}

/// T10, D20, E11: an Extra raises the count of the VM that it names by 1, whoever runs, from 0 up to 16.
#[test]
fn an_extra_raises_the_count_of_its_vm_alone() {
    for running in 0..8 {
        for vm in 0..8 {
            let mut core = crowd(running, &[]);
            for count in 1..=16 {
                assert_eq!(core.apply(Event::Extra { vm }).refusal, 0);
                assert_eq!(counts(&core), with(NONE, vm, count), "VM {vm} while {running} runs");
            }
        }
    }
    let mut idle = core_of(small(8, 16), &[Event::Start, Event::Extra { vm: 3 }]);
    assert_eq!((idle.state.running, counts(&idle)), (None, [0, 0, 0, 1, 0, 0, 0, 0]));
    assert_eq!(idle.apply(Event::Extra { vm: 7 }).refusal, 0);
    assert_eq!(counts(&idle), [0, 0, 0, 1, 0, 0, 0, 1]);
}

/// T10, D29: service 4 raises the count of the VM that runs by 1, beside those of the others.
#[test]
fn service_4_raises_the_count_of_the_running_vm_alone() {
    for running in 0..8 {
        let mut core = crowd(running, &[0, 1, 1, 6, 7, 7]);
        let before = counts(&core);
        for more in 1..=10 {
            assert_eq!(core.apply(call(4, 0, 0x1020)).result, 0);
            let own = before[usize::from(running)];
            assert_eq!(counts(&core), with(before, running, own + more), "VM {running}");
        }
    }
}

/// T10, A6, R1, R2, R4, D29: queues of sizes 0 to 16 that are full, with and without entries of the VM.
#[test]
fn a_request_that_a_full_queue_turns_away_is_not_counted() {
    for size in 0..=16 {
        for of_vm_1 in [0, size / 2, size] {
            let mut events = vec![Event::Start, tick(0)];
            events.extend(vec![Event::Extra { vm: 1 }; usize::from(of_vm_1)]);
            events.extend(vec![Event::Extra { vm: 0 }; usize::from(size - of_vm_1)]);
            let mut core = core_of(with_queue(size), &events);
            let expected = [size - of_vm_1, of_vm_1, 0, 0, 0, 0, 0, 0];
            assert_eq!(counts(&core), expected);
            let answer = core.apply(call(4, 0, 0x1020));
            assert_eq!((answer.refusal, answer.result, counts(&core)), (0, 1, expected));
            for vm in [0, 1] {
                assert_eq!((core.apply(Event::Extra { vm }).refusal, counts(&core)), (6, expected));
            }
        }
    }
}

/// T10, D7, M7: a spare tick lowers the count of the VM whose entry is the oldest, and no other: not that of
/// the VM that ran before, VM 7, and not that of the newest entry.
#[test]
fn a_spare_tick_lowers_the_count_of_the_vm_that_it_serves() {
    for vms in [&[3, 7, 3, 5][..], &[7, 7, 3, 0], &[0, 7, 7, 7], &[2], &[1; 16]] {
        let mut core = crowd(7, vms);
        let before = counts(&core);
        let oldest = vms[0];
        assert_eq!(core.apply(tick(0)).running, Some(oldest));
        assert_eq!(counts(&core), with(before, oldest, before[usize::from(oldest)] - 1), "{vms:?}");
    }
}

/// T10, D6, D7: sixteen entries served one after the other; every other tick leaves all counts.
#[test]
fn only_the_spare_tick_lowers_a_count() {
    let vms = [5, 0, 5, 5, 7, 1, 7, 2, 3, 3, 3, 3, 4, 6, 0, 7];
    let mut core = crowd(0, &vms);
    for served in 0..=vms.len() {
        let left = vms[served.min(vms.len())..].iter();
        let expected = left.fold(NONE, |counts, vm| with(counts, *vm, counts[usize::from(*vm)] + 1));
        // The slots of VMs 1 to 7, and later 0 to 7; then the spare one.
        for _ in 0..if served == 0 { 7 } else { 8 } {
            assert_eq!((core.apply(tick(0)).refusal, counts(&core)), (0, expected), "{served} served");
        }
        assert_eq!(core.apply(tick(0)).running, vms.get(served).copied());
        assert_eq!(core.state.slot, 8);
    }
    assert_eq!(counts(&core), NONE);
}

/// T10, D6: a tick in the slot of a VM that is not ready leaves all counts.
#[test]
fn an_idle_tick_lowers_no_count() {
    let mut core = crowd(0, &[2, 2, 3]);
    assert_eq!(core.apply(Event::Stop { vm: 1 }).refusal, 0);
    assert_eq!((core.apply(tick(0)).running, counts(&core)), (None, [0, 0, 2, 1, 0, 0, 0, 0]));
}

/// T10, A8, D14, D18, D23, D27, D28, D30: each event that removes entries, by each VM that runs, makes its
/// count 0, whatever it was, and leaves the other seven.
#[test]
fn a_removal_makes_the_count_of_its_vm_0_alone() {
    for running in 0..8 {
        for own in [0, 1, 2, 9] {
            for event in REMOVING {
                let event = match event {
                    Event::Stop { .. } => Event::Stop { vm: running },
                    Event::Restart { .. } => Event::Restart { vm: running },
                    other => other,
                };
                let mut vms: Vec<u8> = (0..8).filter(|vm| *vm != running).collect();
                vms.extend(vec![running; own]);
                let mut core = crowd(running, &vms);
                let answer = core.apply(event);
                assert_eq!((answer.refusal, usize::from(answer.removed)), (0, own), "{event:?}");
                assert_eq!(counts(&core), with([1; MAX_VMS], running, 0), "{event:?}");
            }
        }
    }
}

/// T10, D14, D18, M7: a Stop and a Restart of a VM that waits leave the count of the VM that runs.
#[test]
fn a_removal_leaves_the_count_of_the_running_vm() {
    let vms = [0, 6, 6, 0, 4, 6, 0];
    for vm in 1..8 {
        for event in [Event::Stop { vm }, Event::Restart { vm }] {
            let mut core = crowd(0, &vms);
            let before = counts(&core);
            assert_eq!(before, [3, 0, 0, 0, 1, 0, 3, 0]);
            let answer = core.apply(event);
            assert_eq!((answer.running, answer.removed), (Some(0), before[usize::from(vm)]), "{event:?}");
            assert_eq!(counts(&core), with(before, vm, 0), "{event:?}");
        }
    }
}

/// T10, D18: a VM that was stopped comes back with a count of 0, and counts again from there.
#[test]
fn a_restarted_vm_counts_from_0() {
    let mut core = crowd(2, &[2, 2, 5]);
    let steps = [
        (Event::Stop { vm: 2 }, 0),
        (Event::Restart { vm: 2 }, 0),
        (Event::Extra { vm: 2 }, 1),
        (Event::Restart { vm: 2 }, 0),
        (Event::Extra { vm: 2 }, 1),
        (Event::Extra { vm: 2 }, 2),
    ];
    for (event, count) in steps {
        assert_eq!(core.apply(event).refusal, 0, "{event:?}");
        assert_eq!(counts(&core), [0, 0, count, 0, 0, 1, 0, 0], "{event:?}");
    }
}

/// T10, D17, D21, D25 to D27: what neither joins the queue nor leaves it changes no count.
#[test]
fn other_events_change_no_count() {
    let mut events = vec![Event::Shutdown { vm: 0 }, Event::Shutdown { vm: 5 }, write(8, u32::MAX)];
    events.extend([call(0, 0, 0), call(1, 0, 0), call(2, 0, 0), call(2, 31, 0)]);
    events.extend((0..10).map(|field| write(4 * field, u32::MAX)));
    let mut core = crowd(0, &[0, 5, 0, 1]);
    for event in events {
        assert_eq!(core.apply(event).refusal, 0, "{event:?}");
        assert_eq!(counts(&core), [2, 1, 0, 0, 0, 1, 0, 0], "{event:?}");
    }
}

/// T10, R1, R2: each refusal but 1 and 2, with entries in the queue; and 2 before Start.
#[test]
fn a_refused_event_leaves_every_count() {
    let mut core = core_of(small(3, 3), &[Event::Start, tick(0), Event::Stop { vm: 2 }]);
    for vm in [0, 1, 0] {
        assert_eq!(core.apply(Event::Extra { vm }).refusal, 0);
    }
    let while_running = [
        (7, Event::Start),
        (3, Event::Stop { vm: 3 }),
        (3, Event::Restart { vm: 3 }),
        (3, Event::Extra { vm: 8 }),
        (3, Event::Shutdown { vm: 255 }),
        (4, Event::Stop { vm: 2 }),
        (4, Event::Extra { vm: 2 }),
        (6, Event::Extra { vm: 0 }),
        (8, write(37, 1)),
        (9, Event::Fault { code: 2, data: 0 }),
    ];
    for (refusal, event) in while_running {
        assert_eq!((core.apply(event).refusal, counts(&core)), (refusal, [2, 1, 0, 0, 0, 0, 0, 0]));
    }
    assert_eq!(core.apply(Event::Stop { vm: 0 }).removed, 2);
    let idle = [(4, Event::Stop { vm: 0 }), (5, call(4, 0, 0)), (5, write(8, 1)), (5, REMOVING[2])];
    for (refusal, event) in idle {
        assert_eq!((core.apply(event).refusal, counts(&core)), (refusal, [0, 1, 0, 0, 0, 0, 0, 0]));
    }
    let mut fresh = Core::fresh(small(3, 3), Flaw::None);
    for event in &every_kind()[1..] {
        assert_eq!((fresh.apply(*event).refusal, counts(&fresh)), (2, NONE));
    }
}

/// T10, D7, D14, D20: the queue keeps its counts step by step. One that was wrong before stays wrong: none of
/// them is counted anew.
#[test]
fn the_queue_keeps_its_counts_and_does_not_count_anew() {
    let mut queue = Queue::default();
    for vm in [3, 0, 3, 7, 3] {
        queue.push(vm);
    }
    assert_eq!(queue.vm_counts, [1, 0, 0, 3, 0, 0, 0, 1]);
    assert_eq!((queue.take(0), queue.vm_counts), (Some(3), [1, 0, 0, 2, 0, 0, 0, 1]));
    queue.vm_counts = [9; MAX_VMS];
    queue.push(0);
    assert_eq!((queue.entries(), queue.vm_counts), (&[0, 3, 7, 3, 0][..], [10, 9, 9, 9, 9, 9, 9, 9]));
    assert_eq!((queue.take(0), queue.vm_counts), (Some(0), [9; MAX_VMS]));
    assert_eq!((queue.remove(3), queue.vm_counts), (2, [9, 9, 9, 0, 9, 9, 9, 9]));
    assert_eq!((queue.remove(5), queue.vm_counts), (0, [9, 9, 9, 0, 9, 0, 9, 9]));
    assert_eq!(queue.entries(), [7, 0]);
}

/// The fixed cases and 600 random ones.
fn many_cases() -> Vec<Case> {
    let maker = CaseMaker::new(10);
    (0..maker.edge_count() + 600).map(|number| maker.case(number)).collect()
}

/// T10, W13, R2: after every event of many runs each of the eight counts is that of the entries; a refused
/// event leaves them.
#[test]
fn the_counts_are_those_of_the_entries_after_every_event() {
    let (mut events_seen, mut highest) = (0, NONE);
    for (number, Case { image, log }) in many_cases().into_iter().enumerate() {
        let Some(mut core) = runnable(&image, &log, Flaw::None) else {
            continue;
        };
        for event in events_of(&log) {
            let before = counts(&core);
            let refused = core.apply(event).refusal != 0;
            assert_eq!(counts(&core), counted(&core.state.queue), "case {number}, {event:?}");
            assert!(!refused || counts(&core) == before, "case {number}, {event:?}");
            assert!(core.sound(), "case {number}, {event:?}");
            events_seen += 1;
            highest.iter_mut().zip(counts(&core)).for_each(|(most, count)| *most = count.max(*most));
        }
    }
    assert!(events_seen > 50_000, "{events_seen} events");
    assert_eq!(highest, [16; MAX_VMS]);
}

/// What the counts have to be, as the events and their answers tell; the core's state is not asked.
struct Told {
    owners: Vec<u8>,
    ticks: usize,
    running: Option<u8>,
    counts: [u8; MAX_VMS],
}

impl Told {
    fn new(config: &Config) -> Told {
        Told { owners: table_ticks(config), ticks: 0, running: None, counts: NONE }
    }

    fn count(&mut self, vm: Option<u8>) -> &mut u8 {
        &mut self.counts[usize::from(vm.expect("an event of some VM"))]
    }

    fn take(&mut self, event: Event, answer: &Answer) {
        let before = std::mem::replace(&mut self.running, answer.running);
        match (event, answer.refusal) {
            (Event::Extra { vm }, 0) => *self.count(Some(vm)) += 1,
            (Event::Call { service: 4, .. }, 0) => *self.count(before) += 1 - answer.result,
            (Event::Stop { vm } | Event::Restart { vm }, 0) => *self.count(Some(vm)) = 0,
            (Event::Fault { .. }, 0) => *self.count(before) = 0,
            // Of the Calls it is those that end their VM that remove.
            (Event::Call { .. }, 0) if answer.notice.number > 0 => *self.count(before) = 0,
            (Event::Copy(_), 0) if answer.notice.number > 0 => *self.count(before) = 0,
            (Event::Tick { .. }, 0) => self.take_tick(answer.running),
            _ => {}
        }
    }

    fn take_tick(&mut self, running: Option<u8>) {
        let owner = self.owners[self.ticks % self.owners.len()];
        self.ticks += 1;
        if owner == SPARE && running.is_some() {
            *self.count(running) -= 1;
        }
    }
}

/// T10: each change of each count in many runs, told from the events and answers alone; no other changes.
#[test]
fn the_counts_are_what_the_events_and_answers_tell() {
    for (number, Case { image, log }) in many_cases().into_iter().enumerate() {
        let Some(mut core) = runnable(&image, &log, Flaw::None) else {
            continue;
        };
        let mut told = Told::new(&core.config);
        for event in events_of(&log) {
            told.take(event, &core.apply(event));
            assert_eq!(counts(&core), told.counts, "case {number}, {event:?}");
        }
    }
}

/// T10, D7, D14, D18, P13, M7: what the wrong twins count at the moments of P13.
#[test]
fn m7_the_wrong_counts_are_those_of_their_mistakes() {
    let pair = |core: &Core| [counts(core)[0], counts(core)[1]];
    let served = |flaw| {
        let mut core = p12_core(flaw);
        (0..3).for_each(|_| assert_eq!(core.apply(tick(0)).refusal, 0));
        pair(&core)
    };
    assert_eq!(served(Flaw::None), [1, 1]);
    assert_eq!(served(Flaw::ServedKeepsCount), [2, 1]);
    assert_eq!(served(Flaw::ServedLowersFormer), [2, 0], "VM 1 ran before");
    assert_eq!(served(Flaw::ServedClearsCount), [0, 1]);
    assert_eq!(served(Flaw::ServedLowersAll), [1, 0]);
    let removed = |flaw| {
        REMOVING.map(|event| {
            let mut core = p12_core(flaw);
            core.apply(event);
            pair(&core)
        })
    };
    let (right, kept) = ([0, 1], [2, 1]);
    let kept_at = |place: usize| (0..7).map(|at| if at == place { kept } else { right }).collect::<Vec<_>>();
    assert_eq!(removed(Flaw::None), [right; 7]);
    let keeping = [
        Flaw::StopKeepsCount,
        Flaw::RestartKeepsCount,
        Flaw::FaultKeepsCount,
        Flaw::ServiceThreeKeepsCount,
        Flaw::BadInjectKeepsCount,
        Flaw::UnknownServiceKeepsCount,
        Flaw::CopyKeepsCount,
    ];
    for (place, flaw) in keeping.into_iter().enumerate() {
        assert_eq!(removed(flaw).to_vec(), kept_at(place), "{flaw:?}");
    }
    assert_eq!(removed(Flaw::RunningRestartKeepsCount).to_vec(), kept_at(1));
    assert_eq!(removed(Flaw::RemovalLowersByOne), [[1, 1]; 7]);
    assert_eq!(removed(Flaw::RemovalClearsAll), [[0, 0]; 7]);
    assert_eq!(removed(Flaw::RemovalClearsLaterVms), [[0, 0]; 7]);
    let mut core = p12_core(Flaw::RemovalClearsRunning);
    core.apply(Event::Stop { vm: 1 });
    assert_eq!((pair(&core), core.state.queue.entries()), ([0, 1], &[0, 0][..]));
}

/// A wrong twin, a queue size, events behind Start and a tick, and what it then counts for VMs 0 and 1; last
/// what the right twin does.
type Moment<'a> = (Flaw, u8, &'a [Event], [u8; 2], [u8; 2]);

/// T6, T10, R2, D1, D6, D7, D17, D20, D29: what the other wrong twins count, beside the right one.
#[test]
fn the_wrong_counts_of_requests_are_those_of_their_mistakes() {
    let (zero, one, own) = (Event::Extra { vm: 0 }, Event::Extra { vm: 1 }, call(4, 0, 0x1010));
    let (next, shutdown) = (tick(0), Event::Shutdown { vm: 0 });
    let moments: [Moment; 12] = [
        (Flaw::ExtraCountsNone, 1, &[one], [0, 0], [0, 1]),
        (Flaw::ExtraCountsRunning, 1, &[one], [1, 0], [0, 1]),
        (Flaw::ExtraCountsOldest, 2, &[own, one], [2, 0], [1, 1]),
        (Flaw::ServiceFourCountsNone, 1, &[own], [0, 0], [1, 0]),
        (Flaw::FullCallCounts, 1, &[own, own], [2, 0], [1, 0]),
        (Flaw::RefusedExtraCounts, 1, &[own, one], [1, 1], [1, 0]),
        (Flaw::CountIsFlag, 2, &[zero, own], [1, 0], [2, 0]),
        (Flaw::CountGoesRound, 16, &[one; 16], [0, 0], [0, 16]),
        (Flaw::ServedLowersNewest, 2, &[zero, one, next, next, next], [1, 0], [0, 1]),
        (Flaw::NamedTickLowers, 2, &[zero, one, next], [0, 1], [1, 1]),
        (Flaw::ShutdownClearsCount, 2, &[zero, one, shutdown], [0, 1], [1, 1]),
        (Flaw::StartCountsOne, 2, &[], [1, 1], [0, 0]),
    ];
    for (flaw, size, events, wrong, right) in moments {
        for (twin, expected) in [(flaw, wrong), (Flaw::None, right)] {
            let mut core = Core::fresh(with_queue(size), twin);
            for event in [Event::Start, tick(0)].iter().chain(events) {
                core.apply(*event);
            }
            assert_eq!([counts(&core)[0], counts(&core)[1]], expected, "{twin:?} for {flaw:?}");
            assert_eq!(core.sound(), twin == Flaw::None, "{flaw:?}");
        }
    }
}

/// T10, W13: a wrong count makes the state not sound, so a wrong twin refuses what comes next.
#[test]
fn a_wrong_count_is_noticed_by_the_next_event() {
    let mut core = p12_core(Flaw::StopKeepsCount);
    assert_eq!(core.apply(Event::Stop { vm: 1 }).refusal, 0);
    assert!(!core.sound());
    assert_eq!(core.apply(tick(0)), Answer { refusal: 1, ..Answer::default() });
}

fn text_lines(text: Vec<u8>) -> Vec<String> {
    String::from_utf8(text).expect("ascii").lines().map(String::from).collect()
}

/// The `queue` line and the one behind it, for each event, in what is printed for the states.
fn queue_lines(lines: &[String]) -> Vec<[&str; 2]> {
    let behind = lines.iter().enumerate().filter(|(_, line)| line.starts_with("queue"));
    behind.map(|(at, line)| [line.as_str(), lines[at + 1].as_str()]).collect()
}

/// T10, N9: eight numbers in decimal with single spaces, behind the queue and before the VM records.
#[test]
fn n9_the_line_of_the_counts_of_eight_vms() {
    let mut events = vec![Event::Start, tick(0), Event::Extra { vm: 7 }];
    events.extend([Event::Extra { vm: 3 }; 12]);
    events.extend([call(4, 0, 0), call(4, 0, 0), Event::Restart { vm: 3 }]);
    let image = image_bytes(&small(8, 16), Flaw::None);
    let lines = text_lines(run_text(&image, &log_of(&events), Detail::States, Flaw::None));
    assert_eq!(lines.len(), events.len() * STATE_LINES);
    let line = |event: usize| lines[STATE_LINES * (event - 1) + 4].as_str();
    assert_eq!(line(1), "counts 0 0 0 0 0 0 0 0");
    assert_eq!(line(3), "counts 0 0 0 0 0 0 0 1");
    assert_eq!(line(12), "counts 0 0 0 9 0 0 0 1");
    assert_eq!(line(13), "counts 0 0 0 10 0 0 0 1");
    assert_eq!(line(17), "counts 2 0 0 12 0 0 0 1");
    assert_eq!(line(18), "counts 2 0 0 0 0 0 0 1");
    for event in events.iter().zip(lines.chunks(STATE_LINES)).map(|(_, lines)| lines) {
        assert!(event[3].starts_with("queue") && event[4].starts_with("counts "), "{event:?}");
        assert!(event[2].starts_with("core ") && event[5].starts_with("vm 0 "), "{event:?}");
    }
}

/// T10, N9, N10: in the texts of many runs the counts are those of the queue line before them.
#[test]
fn n9_the_counts_of_every_state_are_those_of_its_queue() {
    let mut seen = 0;
    for Case { image, log } in many_cases() {
        let states = text_lines(run_text(&image, &log, Detail::States, Flaw::None));
        let many = text_lines(many_text(&image, &log, Flaw::None));
        assert_eq!(queue_lines(&states), queue_lines(&many));
        for [queue, counts] in queue_lines(&many) {
            let entries: Vec<&str> = queue.split(' ').skip(1).collect();
            let of = |vm: usize| entries.iter().filter(|entry| **entry == vm.to_string()).count();
            let words: Vec<String> = (0..MAX_VMS).map(|vm| of(vm).to_string()).collect();
            assert_eq!(counts, format!("counts {}", words.join(" ")));
            seen += 1;
        }
        let events = many.iter().filter(|line| line.as_bytes()[0].is_ascii_digit()).count();
        assert_eq!(many.iter().filter(|line| line.starts_with("counts ")).count(), events);
    }
    assert!(seen > 50_000, "{seen} states");
}

/// N9: what the wrong twins of the text print for ten entries.
#[test]
fn n9_the_wrong_lines_are_those_of_their_mistakes() {
    let mut events = vec![Event::Start, tick(0)];
    events.extend([Event::Extra { vm: 1 }; 10]);
    let image = image_bytes(&with_queue(10), Flaw::None);
    let last = |flaw| {
        let lines = text_lines(run_text(&image, &log_of(&events), Detail::States, flaw));
        let at = (events.len() - 1) * STATE_LINES;
        lines[at + 3..].iter().filter(|line| !line.starts_with("vm ")).cloned().collect::<Vec<_>>()
    };
    let queue = format!("queue{}", " 1".repeat(10));
    let right = "counts 0 10 0 0 0 0 0 0";
    assert_eq!(last(Flaw::None), [queue.as_str(), right]);
    assert_eq!(last(Flaw::TextLeavesLastCountOut), [&queue, "counts 0 10 0 0 0 0 0"]);
    assert_eq!(last(Flaw::TextCountsVmsOfImage), [&queue, "counts 0 10"]);
    assert_eq!(last(Flaw::TextCountsInHex), [&queue, "counts 0 a 0 0 0 0 0 0"]);
    assert_eq!(last(Flaw::TextCountsBeforeQueue), [right, &queue]);
    assert_eq!(last(Flaw::TextCountsBehindVms), [&queue, right]);
}
