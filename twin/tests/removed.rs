//! How many entries an event removes from the queue (A8, P12), and what becomes of every request (C9).

mod common;

use common::{call, core_of, events_of, p12_core, runnable, tick, with_queue, write, REMOVING};
use twin::core::config::{Config, SPARE};
use twin::core::event::{Answer, Event, Notice};
use twin::core::flaw::Flaw;
use twin::core::limits::MAX_VMS;
use twin::core::state::Queue;
use twin::core::Core;
use twin::edges::cases::small;
use twin::generate::case::CaseMaker;
use twin::report::figures::table_ticks;
use twin::run::frames::Case;
use twin::run::text::{many_text, run_text, Detail};

/// The wrong twins whose mistake is in the number removed.
const WRONG_COUNTS: [Flaw; 5] = [
    Flaw::RemovedIsWholeQueue,
    Flaw::RemovedIsWhatIsLeft,
    Flaw::RestartTellsNone,
    Flaw::ServedIsRemoved,
    Flaw::UnknownServiceTellsNone,
];

/// VM 0 runs in the first of its two ticks, and the master has asked for these VMs.
fn queued(size: u8, vms: &[u8]) -> Core {
    let mut events = vec![Event::Start, tick(0)];
    events.extend(vms.iter().map(|vm| Event::Extra { vm: *vm }));
    core_of(with_queue(size), &events)
}

/// A4, A8, D14, D18, P12, M6: each kind of event that removes entries, beside one of another VM.
#[test]
fn p12_each_of_the_seven_removes_the_two_of_vm_0() {
    for (event, notice) in REMOVING.into_iter().zip([1, 0, 3, 2, 3, 3, 3]) {
        let mut core = p12_core(Flaw::None);
        let answer = core.apply(event);
        assert_eq!((answer.refusal, answer.notice.number, answer.removed), (0, notice, 2), "{event:?}");
        assert_eq!(core.state.queue.entries(), [1], "{event:?}");
        assert_eq!(core.state.queue.places, [1, 0, 0, 0, 0, 0, 0, 0, 0, 0, 0, 0, 0, 0, 0, 0], "{event:?}");
    }
}

/// A2, A8, D14, P12: a Stop of a VM that waits; the running VM goes on.
#[test]
fn p12_stop_removes_the_one_of_vm_1() {
    let mut core = p12_core(Flaw::None);
    let notice = Notice { number: 1, vm: 1, code: 0, data: 0 };
    let expected = Answer { running: Some(0), address: 0x1010, notice, removed: 1, ..Answer::default() };
    assert_eq!(core.apply(Event::Stop { vm: 1 }), expected);
    assert_eq!(core.state.queue.entries(), [0, 0]);
    let answer = core.apply(Event::Stop { vm: 0 });
    assert_eq!((answer.removed, core.state.queue.count), (2, 0));
}

/// A8, D18, D19: a Restart of a VM that waits; the running VM goes on.
#[test]
fn restart_of_a_vm_that_waits_removes_its_entries() {
    let mut core = p12_core(Flaw::None);
    let expected = Answer { running: Some(0), address: 0x1010, removed: 1, ..Answer::default() };
    assert_eq!(core.apply(Event::Restart { vm: 1 }), expected);
    assert_eq!(core.state.queue.entries(), [0, 0]);
    assert_eq!(core.apply(Event::Restart { vm: 1 }).removed, 0, "it has none left");
}

/// T5, A8: each number of entries in a full queue of sixteen.
#[test]
fn any_number_from_0_to_16_is_removed() {
    for own in 0..=16 {
        // So many of sixteen places, scattered among the others.
        let vms: Vec<u8> = (0..16).map(|place| u8::from(place * 7 % 16 >= own)).collect();
        for event in REMOVING {
            let mut core = queued(16, &vms);
            assert_eq!(core.apply(event).removed, own, "{event:?}");
            assert_eq!(core.state.queue.entries(), vec![1; usize::from(16 - own)], "{event:?}");
        }
    }
}

/// E12, A8, D27, D28, D30: all services that there are not, and arguments over 31.
#[test]
fn every_service_and_argument_that_ends_its_vm_tells_the_number() {
    for service in (5..=255).chain([3]) {
        let answer = queued(4, &[1, 0, 0, 0]).apply(call(service, 7, 0x1020));
        assert_eq!((answer.running, answer.removed), (None, 3), "service {service}");
    }
    for argument in [32, 33, 64, 0x1_0003, u32::MAX] {
        let answer = queued(4, &[1, 0, 0, 0]).apply(call(2, argument, 0x1020));
        assert_eq!((answer.running, answer.removed), (None, 3), "argument {argument}");
    }
    for code in [3, 4, 5] {
        let answer = queued(4, &[1, 0, 0, 0]).apply(Event::Fault { code, data: 0 });
        assert_eq!((answer.running, answer.removed), (None, 3), "code {code}");
    }
}

/// A8: other VMs' entries do not count, and stay.
#[test]
fn an_ending_without_entries_answers_0() {
    for event in REMOVING {
        let mut core = queued(4, &[1, 1]);
        let answer = core.apply(event);
        assert_eq!((answer.refusal, answer.removed), (0, 0), "{event:?}");
        assert_eq!(core.state.queue.entries(), [1, 1]);
    }
}

/// A8: every kind of event that leaves the entries in the queue.
#[test]
fn events_that_end_nobody_answer_0() {
    let mut events =
        vec![tick(0x1010), write(8, u32::MAX), Event::Shutdown { vm: 0 }, Event::Extra { vm: 0 }];
    events.extend([call(0, 0, 0), call(1, 0, 0), call(2, 0, 0), call(2, 31, 0), call(4, 0, 0)]);
    for event in events {
        let mut core = queued(4, &[0, 1, 0]);
        let answer = core.apply(event);
        assert_eq!((answer.refusal, answer.removed), (0, 0), "{event:?}");
        assert_eq!(core.state.queue.entries()[..3], [0, 1, 0], "{event:?}");
    }
}

/// A8, R1, R3: six refusals while a VM runs.
#[test]
fn a_refusal_answers_0_whatever_stands_in_the_queue() {
    let refused = [
        (7, Event::Start),
        (3, Event::Stop { vm: 2 }),
        (3, Event::Restart { vm: 255 }),
        (6, Event::Extra { vm: 0 }),
        (8, write(37, 1)),
        (9, Event::Fault { code: 2, data: 0 }),
        (9, Event::Fault { code: 6, data: 0 }),
    ];
    for (refusal, event) in refused {
        let mut core = queued(3, &[0, 1, 0]);
        let expected = Answer { refusal, running: Some(0), address: 0x1000, ..Answer::default() };
        assert_eq!(core.apply(event), expected, "{event:?}");
        assert_eq!(core.state.queue.entries(), [0, 1, 0], "{event:?}");
    }
}

/// A8, R1, R3, R5: refusals 1, 4 and 5; a Restart of a stopped VM is none.
#[test]
fn a_refusal_while_nobody_runs_or_the_state_is_not_sound_answers_0() {
    let mut core = queued(3, &[0, 1, 1]);
    assert_eq!(core.apply(Event::Stop { vm: 0 }).removed, 1);
    // Restart alone is not refused, and finds no entry of VM 0.
    for (refusal, event) in [4, 0, 5, 5, 5, 5, 5].into_iter().zip(REMOVING) {
        let expected = Answer { refusal, ..Answer::default() };
        assert_eq!(core.apply(event), expected, "{event:?}");
    }
    let mut unsound = queued(3, &[0, 1, 0]);
    unsound.config.queue_size = 2;
    for event in REMOVING {
        assert_eq!(unsound.apply(event), Answer { refusal: 1, ..Answer::default() }, "{event:?}");
    }
    assert_eq!(unsound.state.queue.entries(), [0, 1, 0]);
}

/// A6, A8, D29: full queues of sizes 0 to 16, with and without entries of the VM.
#[test]
fn service_4_with_a_full_queue_answers_0() {
    for vms in [&[][..], &[0], &[1, 0, 0], &[0; 16]] {
        let mut core = queued(vms.len() as u8, vms);
        let expected = Answer { running: Some(0), address: 0x1020, result: 1, ..Answer::default() };
        assert_eq!(core.apply(call(4, 0, 0x1020)), expected);
        assert_eq!(core.state.queue.entries(), vms);
    }
}

/// A8, D7: an entry that is served is gone, and no removal tells of it.
#[test]
fn a_spare_tick_serves_its_entry_and_removes_nothing() {
    let mut core = queued(4, &[0, 1, 1]);
    let ticks: Vec<_> = (0..7).map(|_| core.apply(tick(0))).collect();
    assert!(ticks.iter().all(|answer| answer.removed == 0));
    assert_eq!([2, 6].map(|spare: usize| ticks[spare].running), [Some(0), Some(1)]);
    assert_eq!(core.state.queue.entries(), [1]);
    assert_eq!(core.apply(Event::Stop { vm: 0 }).removed, 0, "its entry was served");
    assert_eq!(core.apply(Event::Stop { vm: 1 }).removed, 1, "one of its two was served");
}

/// A8, D14: the others keep their order.
#[test]
fn the_queue_says_how_many_entries_it_took_out() {
    let mut queue = Queue::default();
    assert_eq!(queue.remove(0), 0, "the zeros past the entries are no entries");
    for vm in [3, 0, 3, 7, 3] {
        queue.push(vm);
    }
    assert_eq!([0, 1, 3, 7].map(|vm| queue.count_of(vm)), [1, 0, 3, 1]);
    assert_eq!((queue.remove(3), queue.count_of(3), queue.entries()), (3, 0, &[0, 7][..]));
    assert_eq!((queue.remove(0), queue.entries()), (1, &[7][..]));
}

/// A8, P12, M6: the wrong counts beside the right one.
#[test]
fn the_wrong_counts_are_those_of_their_mistakes() {
    let told = |flaw| REMOVING.map(|event| p12_core(flaw).apply(event).removed);
    assert_eq!(told(Flaw::None), [2; 7]);
    assert_eq!(told(Flaw::RemovedIsWholeQueue), [3; 7]);
    assert_eq!(told(Flaw::RemovedIsWhatIsLeft), [0; 7]);
    assert_eq!(told(Flaw::RestartTellsNone), [2, 0, 2, 2, 2, 2, 2]);
    assert_eq!(told(Flaw::ServedIsRemoved), [2; 7]);
    assert_eq!(told(Flaw::UnknownServiceTellsNone), [2, 2, 2, 2, 2, 0, 2]);
    assert_eq!(told(Flaw::CopyTellsNone), [2, 2, 2, 2, 2, 2, 0]);
    let mut core = p12_core(Flaw::ServedIsRemoved);
    let ticks = [(); 5].map(|()| core.apply(tick(0)).removed);
    assert_eq!(ticks, [0, 0, 1, 0, 0]);
}

/// N3, N9: the lines of many runs, with states and without.
#[test]
fn n3_an_events_line_has_eight_parts_and_ends_in_the_number_removed() {
    let maker = CaseMaker::new(6);
    let (mut lines_seen, mut removals_seen) = (0, 0);
    for number in 0..maker.edge_count() + 100 {
        let Case { image, log } = maker.case(number);
        let text = String::from_utf8(run_text(&image, &log, Detail::Lines, Flaw::None)).expect("ascii");
        let Some(mut core) = runnable(&image, &log, Flaw::None) else {
            continue;
        };
        for (event, line) in events_of(&log).into_iter().zip(text.lines()) {
            let parts: Vec<&str> = line.split(' ').collect();
            let removed = core.apply(event).removed;
            assert_eq!((parts.len(), parts[7]), (8, removed.to_string().as_str()), "{line}");
            lines_seen += 1;
            removals_seen += usize::from(removed > 0);
        }
        let states = String::from_utf8(many_text(&image, &log, Flaw::None)).expect("ascii");
        let in_states = states.lines().filter(|line| line.as_bytes()[0].is_ascii_digit());
        assert!(text.lines().filter(|line| !line.starts_with("cut")).eq(in_states), "case {number}");
    }
    assert!(lines_seen > 20_000 && removals_seen > 200, "{lines_seen} lines, {removals_seen} removals");
}

/// What became of a VM's requests, as the events and their answers tell.
#[derive(Clone, Copy, Debug, Default, PartialEq, Eq)]
struct Requests {
    accepted: u64,
    served: u64,
    removed: u64,
}

/// The history of a run. It never looks at the core's state.
struct History {
    owners: Vec<u8>,
    ticks: usize,
    /// Who ran before the next event, as the last answer said.
    running: Option<u8>,
    requests: [Requests; MAX_VMS],
}

impl History {
    fn new(config: &Config) -> History {
        History { owners: table_ticks(config), ticks: 0, running: None, requests: Default::default() }
    }

    fn of(&mut self, vm: Option<u8>) -> &mut Requests {
        &mut self.requests[usize::from(vm.expect("an event of some VM"))]
    }

    /// Takes in one event. An event that takes no entries out must not tell of any.
    fn take(&mut self, event: Event, answer: &Answer) -> Result<(), String> {
        let before = std::mem::replace(&mut self.running, answer.running);
        let removed = u64::from(answer.removed);
        let vm = match event {
            Event::Stop { vm } | Event::Restart { vm } | Event::Extra { vm } => Some(vm),
            _ => before,
        };
        match (event, answer.refusal) {
            (Event::Extra { .. }, 0) => self.of(vm).accepted += 1,
            (Event::Call { service: 4, .. }, 0) => self.of(vm).accepted += 1 - u64::from(answer.result),
            (Event::Tick { .. }, 0) => self.take_tick(answer.running),
            (Event::Stop { .. } | Event::Restart { .. } | Event::Fault { .. } | Event::Call { .. }, 0) => {
                self.of(vm).removed += removed;
                return Ok(());
            }
            // Of the Copies it is those that end their VM that remove.
            (Event::Copy(_), 0) if answer.notice.number == 3 => {
                self.of(vm).removed += removed;
                return Ok(());
            }
            _ => {}
        }
        if removed == 0 {
            Ok(())
        } else {
            Err(format!("{event:?} removes {removed}"))
        }
    }

    fn take_tick(&mut self, running: Option<u8>) {
        let owner = self.owners[self.ticks % self.owners.len()];
        self.ticks += 1;
        if owner == SPARE && running.is_some() {
            self.of(running).served += 1;
        }
    }

    /// For each VM: accepted are those served, those removed and those that stand in the queue.
    fn balance(&self, queue: &Queue) -> Result<(), String> {
        for (vm, requests) in (0..).zip(self.requests) {
            let standing = u64::from(queue.count_of(vm));
            if requests.accepted != requests.served + requests.removed + standing {
                return Err(format!("VM {vm}: {requests:?}, {standing} standing"));
            }
        }
        Ok(())
    }
}

/// The balance of a run, asked for after each event. Answers the sums over all VMs and what stands at last.
fn balance_of(case: &Case, flaw: Flaw) -> Result<(Requests, u64), String> {
    let mut sums = Requests::default();
    let Some(mut core) = runnable(&case.image, &case.log, flaw) else {
        return Ok((sums, 0));
    };
    let mut history = History::new(&core.config);
    for event in events_of(&case.log) {
        let answer = core.apply(event);
        history.take(event, &answer)?;
        history.balance(&core.state.queue)?;
    }
    for Requests { accepted, served, removed } in history.requests {
        sums.accepted += accepted;
        sums.served += served;
        sums.removed += removed;
    }
    Ok((sums, u64::from(core.state.queue.count)))
}

/// The fixed cases and 400 random ones.
fn balanced_cases() -> Vec<Case> {
    let maker = CaseMaker::new(9);
    (0..maker.edge_count() + 400).map(|number| maker.case(number)).collect()
}

/// A8, C9: the balance after each event of many runs.
#[test]
fn c9_every_accepted_request_is_served_removed_or_still_standing() {
    let (mut all, mut standing) = (Requests::default(), 0);
    for (number, case) in balanced_cases().iter().enumerate() {
        let (sums, left) = balance_of(case, Flaw::None).unwrap_or_else(|why| panic!("case {number}: {why}"));
        all.accepted += sums.accepted;
        all.served += sums.served;
        all.removed += sums.removed;
        standing += left;
    }
    assert_eq!(all.accepted, all.served + all.removed + standing);
    let enough = all.served > 500 && all.removed > 500 && standing > 100;
    assert!(enough, "{all:?}, {standing} standing");
}

/// No rule: the balance is a check that can fail, and does for each of the five wrong counts.
#[test]
fn c9_the_balance_does_not_hold_for_the_wrong_counts() {
    let cases = balanced_cases();
    for flaw in WRONG_COUNTS {
        assert!(cases.iter().any(|case| balance_of(case, flaw).is_err()), "{flaw:?}");
    }
}

/// No rule: the balance fails for an entry that goes untold.
#[test]
fn c9_a_lost_entry_upsets_the_balance() {
    let mut core = Core::fresh(small(2, 4), Flaw::None);
    let mut history = History::new(&core.config);
    for event in [Event::Start, Event::Extra { vm: 1 }, Event::Extra { vm: 0 }, tick(0)] {
        let answer = core.apply(event);
        assert_eq!(history.take(event, &answer), Ok(()));
    }
    assert_eq!(history.balance(&core.state.queue), Ok(()));
    core.state.queue.take(0);
    let why = "VM 1: Requests { accepted: 1, served: 0, removed: 0 }, 0 standing";
    assert_eq!(history.balance(&core.state.queue), Err(String::from(why)));
}
