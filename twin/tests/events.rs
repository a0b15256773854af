//! What each event does and answers, moment by moment, and the points P9 to P11.

mod common;

use common::{call, core_of, core_with, tick, with_queue, worked_config, write};
use twin::core::event::{Answer, Event, Notice};
use twin::core::flaw::Flaw;
use twin::core::state::{
    Standing, State, Vm, ENABLED, GENERATE_ON_TICK, PENDING, PREVIOUS_ENABLED, REASON, RESTORE_REGISTER,
    RESUME_ADDRESS, TICKS_LEFT, TICKS_SINCE_START, TICKS_WHILE_RUNNING,
};
use twin::core::Core;
use twin::generate::image::legal_config;
use twin::generate::log::LogMaker;
use twin::generate::random::Random;
use twin::generate::values::any_event;
use twin::log::read::{read_record, Record};

/// The answer of an event that is done and delivers to VM 0.
fn delivered_to_vm_0(number: u8) -> Answer {
    Answer { running: Some(0), address: 0x1004, delivered: Some(number), ..Answer::default() }
}

/// Random runs, event by event: the core before it, the event, its answer, the core after it.
fn at_random(mut check: impl FnMut(&Core, Event, &Answer, &Core)) {
    let mut random = Random::of_case(12, 12);
    for _ in 0..60 {
        let config = legal_config(&mut random);
        let log = LogMaker::new(&mut random, &config).events(300);
        let (mut core, mut at) = (Core::fresh(config, Flaw::None), 0);
        while let Record::Event(event, next) = read_record(&log, at) {
            let before = core.clone();
            let answer = core.apply(event);
            check(&before, event, &answer, &core);
            at = next;
        }
    }
}

/// D12, D24, D27, P9: an enabled number is delivered by its inject, and the VM goes to its handler.
#[test]
fn p9_inject_delivers_at_once() {
    let mut core = core_with(&[Event::Start, tick(0), write(8, 0x08)]);
    assert_eq!(core.apply(call(2, 3, 0x1030)), delivered_to_vm_0(3));
    assert_eq!(core.state.vms[0].fields, [1, 2, 0, 0, 0x1030, 3, 0x08, 0, 0, 1]);
    let answer = core.apply(call(0, 0, 0x1034));
    assert_eq!((answer.delivered, answer.address), (None, 0x1034));
}

/// D11, D12, D26, D27, P9, M3: the highest number is delivered; the injected one waits for the return.
#[test]
fn p9_inject_delivers_the_highest_number_and_its_own_waits() {
    let mut core = core_with(&[Event::Start, tick(0), write(8, 0x88), write(12, 0x80)]);
    assert_eq!(core.apply(call(2, 3, 0x1030)), delivered_to_vm_0(7));
    assert_eq!(core.state.vms[0].fields, [1, 2, 0, 0x08, 0x1030, 7, 0x88, 0, 0, 1]);
    assert_eq!(core.apply(call(1, 0, 0x1034)), delivered_to_vm_0(3));
    assert_eq!(core.state.vms[0].fields, [1, 2, 0, 0, 0x1030, 3, 0x88, 0, 0, 1]);
}

/// A5, D27, P10: service 2 takes 31; 32 is an error of the VM with code 2.
#[test]
fn p10_argument_31_is_taken_and_32_is_an_error() {
    let mut core = core_with(&[Event::Start, tick(0)]);
    let answer = core.apply(call(2, 31, 0x1030));
    assert_eq!(answer, Answer { running: Some(0), address: 0x1030, ..Answer::default() });
    assert_eq!(core.state.vms[0].fields[PENDING], 0x8000_0000);
    let answer = core.apply(call(2, 32, 0x1034));
    assert_eq!(answer.notice, Notice { number: 3, vm: 0, code: 2, data: 32 });
    assert_eq!((answer.running, answer.address), (None, 0));
    assert_eq!((core.state.vms[0].standing, core.state.vms[0].address), (Standing::InError, 0x1034));
}

/// T4, D8, P11: age and ticks run go from the last number to 0, and the field shows it.
#[test]
fn p11_ticks_run_goes_round() {
    let mut core = core_with(&[Event::Start, tick(0)]);
    core.state.vms[0].ticks_run = u32::MAX;
    core.state.vms[0].age = u32::MAX;
    assert_eq!(core.apply(tick(0)).running, Some(0));
    assert_eq!((core.state.vms[0].ticks_run, core.state.vms[0].age), (0, 0));
    assert_eq!(core.state.vms[0].fields[TICKS_WHILE_RUNNING], 0);
}

/// R1 to R3: refusals 2 and 7; a refused event, a Tick too, changes nothing.
#[test]
fn before_start_everything_but_start_is_2() {
    let events = [
        tick(0),
        Event::Stop { vm: 9 },
        Event::Shutdown { vm: 0 },
        Event::Restart { vm: 0 },
        Event::Extra { vm: 0 },
        call(0, 0, 0),
        write(1, 0),
        Event::Fault { code: 0, data: 0 },
    ];
    let mut core = core_with(&[]);
    for event in events {
        assert_eq!(core.apply(event), Answer { refusal: 2, ..Answer::default() });
    }
    assert_eq!(core, core_with(&[]));
    assert_eq!(core.apply(Event::Start).refusal, 0);
    assert_eq!(core.apply(Event::Start).refusal, 7);
}

/// R1, D2: nothing runs before the first tick, and refusal 5 comes before 8 and 9.
#[test]
fn guests_cannot_act_while_nothing_runs() {
    let mut core = core_with(&[Event::Start]);
    for event in [call(0, 0, 0), write(1, 0), Event::Fault { code: 0, data: 0 }] {
        assert_eq!(core.apply(event).refusal, 5);
    }
}

/// A4, R1, D21: each offset and each code of 8 bits, taken or refused with 8 or 9.
#[test]
fn offsets_and_codes() {
    for offset in 0..=255 {
        let mut core = core_with(&[Event::Start, tick(0)]);
        let right = [0, 4, 8, 12, 16, 20, 24, 28, 32, 36].contains(&offset);
        assert_eq!(core.apply(write(offset, 77)).refusal, if right { 0 } else { 8 });
        assert_eq!(core.state.vms[0].fields.contains(&77), right);
        let code = offset;
        let answer = core.apply(Event::Fault { code, data: 5 });
        let known = [3, 4, 5].contains(&code);
        assert_eq!(answer.refusal, if known { 0 } else { 9 });
        assert_eq!(answer.notice.number, if known { 3 } else { 0 });
    }
}

/// R1: for an Extra 3 comes before 4, and 4 before 6.
#[test]
fn extra_is_refused_for_a_vm_that_rests_before_the_queue_is_looked_at() {
    let mut core = core_with(&[Event::Start, Event::Extra { vm: 0 }]);
    assert_eq!(core.apply(Event::Extra { vm: 1 }).refusal, 6);
    assert_eq!(core.apply(Event::Stop { vm: 1 }).refusal, 0);
    assert_eq!(core.apply(Event::Extra { vm: 1 }).refusal, 4);
    assert_eq!(core.apply(Event::Extra { vm: 2 }).refusal, 3);
}

/// A6, R4, D29: an Extra is refused with 6, and service 4 has result 1.
#[test]
fn a_queue_of_size_0_is_always_full() {
    let mut core = core_of(with_queue(0), &[Event::Start, tick(0)]);
    assert_eq!(core.apply(Event::Extra { vm: 0 }).refusal, 6);
    let answer = core.apply(call(4, 0, 0x1020));
    assert_eq!((answer.refusal, answer.result, answer.address), (0, 1, 0x1020));
}

/// R5, D5, D10, M2: slot and ticks left after random events, by the number of ticks alone.
#[test]
fn the_tick_number_alone_decides_the_place_in_the_table() {
    let mut random = Random::of_case(8, 8);
    for _ in 0..40 {
        let config = legal_config(&mut random);
        let places: Vec<(u8, u16)> = (0u8..)
            .zip(config.table())
            .flat_map(|(index, slot)| (1..=slot.ticks).rev().map(move |left| (index, left)))
            .collect();
        let mut core = Core::fresh(config, Flaw::None);
        core.apply(Event::Start);
        let mut ticks = 0;
        for _ in 0..400 {
            let event = any_event(&mut random);
            if matches!(event, Event::Tick { .. }) {
                ticks += 1;
            }
            core.apply(event);
            if ticks > 0 {
                assert_eq!((core.state.slot, core.state.left), places[(ticks - 1) % places.len()]);
            }
            assert!(core.sound());
        }
    }
}

/// T4, D8, M1: a tick shows the core's own counts, whatever was written over them.
#[test]
fn a_write_does_not_bend_the_clock() {
    let mut core = core_with(&[Event::Start, tick(0), write(36, 500), write(0, 9), write(4, 9)]);
    core.apply(tick(0));
    assert_eq!(core.state.vms[0].fields, [2, 1, 0, 0, 0, 0, 0, 0, 0, 2]);
}

/// T5, D7, D20, M2: spare ticks serve the requests in their order, beside the table's ticks.
#[test]
fn a_spare_tick_takes_the_oldest_entry_and_is_not_charged() {
    let events = [Event::Start, Event::Extra { vm: 1 }, Event::Extra { vm: 0 }, Event::Extra { vm: 0 }];
    let mut core = core_of(with_queue(3), &events);
    let runs: Vec<_> = (0..9).map(|_| core.apply(tick(0)).running).collect();
    let (zero, one) = (Some(0), Some(1));
    assert_eq!(runs, [zero, zero, one, one, zero, zero, one, zero, zero]);
    assert_eq!(core.state.queue.entries(), [0]);
    assert_eq!(core.state.left, 2);
}

/// A4, R1, D14, D15, M4: a Stop of the running VM, with entries of two VMs in the queue.
#[test]
fn stop_removes_entries_and_lets_the_table_stand() {
    let events = [Event::Start, tick(0)];
    let mut core = core_of(with_queue(4), &events);
    for vm in [0, 1, 0, 1] {
        core.apply(Event::Extra { vm });
    }
    let answer = core.apply(Event::Stop { vm: 0 });
    assert_eq!(answer.notice, Notice { number: 1, vm: 0, code: 0, data: 0 });
    assert_eq!((answer.running, answer.address), (None, 0));
    assert_eq!(core.state.queue.entries(), [1, 1]);
    assert_eq!(core.state.queue.places[2..], [0; 14]);
    assert_eq!((core.state.slot, core.state.left), (0, 2));
    assert_eq!(core.apply(Event::Stop { vm: 0 }).refusal, 4);
    assert_eq!(core.apply(Event::Shutdown { vm: 0 }).refusal, 4);
}

/// D13, D17, D25, M5: a Shutdown sets bit 11, and the VM's next sync delivers it.
#[test]
fn shutdown_waits_for_the_vms_next_moment() {
    let mut core = core_with(&[Event::Start, tick(0), write(8, 0x800)]);
    let answer = core.apply(Event::Shutdown { vm: 0 });
    assert_eq!((answer.delivered, answer.address, answer.notice), (None, 0x1000, Notice::default()));
    assert_eq!(core.state.vms[0].fields[PENDING], 0x800);
    let answer = core.apply(call(0, 0, 0x1018));
    assert_eq!((answer.delivered, answer.address), (Some(11), 0x1004));
}

/// D18, D19: a Restart of the running VM, which loses its fields and its entry in the queue.
#[test]
fn restart_of_the_running_vm_goes_on_from_its_entry_in_the_same_tick() {
    let events = [Event::Start, tick(0), write(8, 0xff), call(4, 0, 0x1020)];
    let mut core = core_with(&events);
    let answer = core.apply(Event::Restart { vm: 0 });
    assert_eq!((answer.running, answer.address, answer.notice), (Some(0), 0x1000, Notice::default()));
    assert_eq!(core.state.vms[0], Vm::ready_at(0x1000));
    assert_eq!(core.state.queue.count, 0);
    assert_eq!((core.state.slot, core.state.left), (0, 2));
}

/// T4, R5, D3, D18, D19: a VM that was stopped is ready again, ages from 0 and waits for a tick.
#[test]
fn restart_of_a_stopped_vm_waits_for_a_tick() {
    let mut core = core_with(&[Event::Start, tick(0), Event::Stop { vm: 0 }]);
    assert_eq!(core.apply(Event::Restart { vm: 0 }).running, None);
    let answer = core.apply(tick(0x7777));
    assert_eq!((answer.running, answer.address), (Some(0), 0x1000));
    assert_eq!((core.state.vms[0].age, core.state.vms[1].age), (1, 2));
}

/// D11, D12, D25, D26, M3: two deliveries out of several pending numbers, at a sync and at a return.
#[test]
fn delivery_takes_the_highest_and_clears_only_that_bit() {
    let events = [Event::Start, tick(0), write(8, 0xffff_00ff), write(12, 0x0001_8181)];
    let mut core = core_with(&events);
    let answer = core.apply(call(0, 0, 0x1040));
    assert_eq!((answer.delivered, answer.address), (Some(16), 0x1004));
    let expected = [1, 2, 0, 0x8181, 0x1040, 16, 0xffff_00ff, 0, 0, 1];
    assert_eq!(core.state.vms[0].fields, expected);
    let answer = core.apply(call(1, 0, 0x9999));
    assert_eq!((answer.delivered, answer.address), (Some(7), 0x1004));
    let expected = [1, 2, 0, 0x8101, 0x1040, 7, 0xffff_00ff, 0, 0, 1];
    assert_eq!(core.state.vms[0].fields, expected);
}

/// A3, D11, D25: 0 delivered is not none delivered.
#[test]
fn number_0_can_be_delivered() {
    let mut core = core_with(&[Event::Start, tick(0), write(8, 1), write(12, 1)]);
    assert_eq!(core.apply(call(0, 0, 0x1024)).delivered, Some(0));
}

/// D11, D12, D27: each of the 32 numbers, with every field that its delivery sets.
#[test]
fn every_number_is_delivered_by_its_own_inject_once_enabled() {
    for number in 0..32 {
        let mut core = core_with(&[Event::Start, tick(0), write(8, 1 << number)]);
        assert_eq!(core.apply(call(2, number, 0x1020)), delivered_to_vm_0(number as u8));
        assert_eq!(core.state.vms[0].fields, [1, 2, 0, 0, 0x1020, number, 1 << number, 0, 0, 1]);
    }
}

/// D9, D13, D22, D25, D27: not the Write that enables it, but the next sync, inject or tick delivers.
#[test]
fn an_injected_number_that_is_not_enabled_waits_for_a_later_moment() {
    for moment in [call(0, 0, 0x1044), call(2, 3, 0x1044), tick(0x1044)] {
        let mut core = core_with(&[Event::Start, tick(0), write(8, 0x77)]);
        let answer = core.apply(call(2, 3, 0x1030));
        assert_eq!(answer, Answer { running: Some(0), address: 0x1030, ..Answer::default() });
        assert_eq!(core.state.vms[0].fields, [1, 2, 0x77, 0x08, 0, 0, 0, 0, 0, 1]);
        assert_eq!(core.apply(write(8, 0x08)).delivered, None);
        assert_eq!(core.apply(moment), delivered_to_vm_0(3), "{moment:?}");
    }
}

/// D11, D12, D27: only what is enabled can be delivered, and the other bits stay pending.
#[test]
fn an_inject_delivers_another_number_where_its_own_is_not_enabled() {
    let mut core = core_with(&[Event::Start, tick(0), write(8, 0x02), write(12, 0x42)]);
    assert_eq!(core.apply(call(2, 5, 0x1030)), delivered_to_vm_0(1));
    assert_eq!(core.state.vms[0].fields, [1, 2, 0, 0x60, 0x1030, 1, 0x02, 0, 0, 1]);
}

/// E12, A5, D24, D27: an argument over 31 is an error, whatever its low bits and whatever is due.
#[test]
fn an_inject_over_31_delivers_nothing() {
    for argument in [32, 33, 63, 0x1_0003, u32::MAX] {
        let events = [Event::Start, tick(0), write(8, u32::MAX), write(12, 0x8000_0088)];
        let mut core = core_with(&events);
        let fields = core.state.vms[0].fields;
        let notice = Notice { number: 3, vm: 0, code: 2, data: argument };
        assert_eq!(core.apply(call(2, argument, 0x1030)), Answer { notice, ..Answer::default() });
        assert_eq!(core.state.vms[0].fields, fields);
        assert_eq!((core.state.vms[0].standing, core.state.vms[0].address), (Standing::InError, 0x1030));
    }
}

/// D12, D24, D26: where the inject would have gone on, there the return goes on.
#[test]
fn the_handler_returns_to_the_next_address_of_the_inject() {
    for next in [0, 0x1030, u32::MAX] {
        let mut core = core_with(&[Event::Start, tick(0), write(8, 0x10), call(2, 4, next)]);
        assert_eq!(core.state.vms[0].fields[RESUME_ADDRESS], next);
        let answer = core.apply(call(1, 0, 0x5555));
        assert_eq!((answer.delivered, answer.address), (None, next));
        assert_eq!(core.state.vms[0].fields[ENABLED], 0x10);
    }
}

/// D27, P9: the two wrong injects beside the right one.
#[test]
fn the_wrong_injects_wait_or_deliver_their_own() {
    let delivered = |flaw, enabled| {
        let mut core = Core::fresh(worked_config(), flaw);
        for event in [Event::Start, tick(0), write(8, enabled), write(12, 0x80)] {
            assert_eq!(core.apply(event).refusal, 0, "{event:?}");
        }
        (core.apply(call(2, 3, 0x1030)).delivered, core.state.vms[0].fields[PENDING])
    };
    assert_eq!(delivered(Flaw::None, 0x88), (Some(7), 0x08));
    assert_eq!(delivered(Flaw::InjectWaits, 0x88), (None, 0x88));
    assert_eq!(delivered(Flaw::InjectItsOwn, 0x88), (Some(3), 0x80));
    assert_eq!(delivered(Flaw::InjectItsOwn, 0x80), (Some(7), 0x08));
}

/// D8, D9: psIntGenerateOnTick counts at the VM's own ticks and at no other's.
#[test]
fn generate_on_tick_is_joined_only_for_the_vm_that_runs() {
    let mut core = core_with(&[Event::Start, tick(0), write(32, 0x80), tick(0)]);
    assert_eq!(core.state.vms[0].fields[PENDING], 0x80);
    core.state.vms[0].fields[PENDING] = 0x01;
    // The next tick is VM 1's, and in the spare one after it nobody runs.
    for running in [Some(1), None] {
        assert_eq!(core.apply(tick(0)).running, running);
        assert_eq!(core.state.vms[0].fields[PENDING], 0x01);
    }
    core.apply(tick(0));
    assert_eq!((core.state.vms[0].fields[PENDING], core.state.vms[0].fields[ENABLED]), (0x81, 0));
}

/// A4, A5, R6, D23, D24, D28, D30: standing, notice and run address of a VM that ends itself.
#[test]
fn calls_that_end_their_vm_keep_its_next_address() {
    let ends = [
        (call(3, 7, 0x1050), Standing::ShutDown, Notice { number: 2, vm: 0, code: 0, data: 0 }),
        (call(5, 7, 0x1050), Standing::InError, Notice { number: 3, vm: 0, code: 1, data: 5 }),
        (call(255, 7, 0x1050), Standing::InError, Notice { number: 3, vm: 0, code: 1, data: 255 }),
        (call(2, 0x1_0003, 0x1050), Standing::InError, Notice { number: 3, vm: 0, code: 2, data: 0x1_0003 }),
    ];
    for (event, standing, notice) in ends {
        let mut core = core_with(&[Event::Start, tick(0)]);
        let answer = core.apply(event);
        assert_eq!(answer, Answer { notice, ..Answer::default() });
        assert_eq!((core.state.vms[0].standing, core.state.vms[0].address), (standing, 0x1050));
    }
    let mut core = core_with(&[Event::Start, tick(0)]);
    let answer = core.apply(Event::Fault { code: 4, data: 0x88 });
    assert_eq!(answer.notice, Notice { number: 3, vm: 0, code: 4, data: 0x88 });
    assert_eq!(core.state.vms[0].address, 0x1000);
}

/// A7, D3, D4, D6: a tick in the slot of a stopped VM.
#[test]
fn idle_ticks_age_everybody_and_nobody_else_changes() {
    let mut core = core_with(&[Event::Start, Event::Stop { vm: 0 }]);
    let answer = core.apply(tick(0x5555));
    assert_eq!(answer, Answer::default());
    assert_eq!(
        core.state.vms[0],
        Vm { standing: Standing::Stopped, address: 0x1000, age: 1, ..Vm::default() }
    );
    assert_eq!(core.state.vms[2], Vm::default());
    assert_eq!((core.state.slot, core.state.left), (0, 2));
}

/// T1, T8: what comes after depends on the configuration and the state alone, wherever they are put.
#[test]
fn a_state_goes_on_the_same_in_another_core() {
    at_random(|before, event, answer, after| {
        let mut other = Core::fresh(before.config.clone(), Flaw::None);
        other.state = before.state.clone();
        assert_eq!((&other.apply(event), &other), (answer, after), "{event:?}");
    });
}

/// E11: an event of the master is for the VM that it names, and one of a guest for the VM that runs.
#[test]
fn events_are_for_the_vm_that_they_name_or_that_runs() {
    let (stop, shutdown) = (Event::Stop { vm: 1 }, Event::Shutdown { vm: 1 });
    let masters = [stop, shutdown, Event::Restart { vm: 1 }, Event::Extra { vm: 1 }].map(|event| (1, event));
    let guests = [call(0, 0, 0x44), write(28, 5), Event::Fault { code: 3, data: 0 }].map(|event| (3, event));
    for (ticks, event) in masters.into_iter().chain(guests) {
        let mut core = core_with(&[Event::Start]);
        (0..ticks).for_each(|_| assert_eq!(core.apply(tick(0)).refusal, 0));
        let before = core.state.clone();
        assert_eq!(core.apply(event).refusal, 0);
        assert_eq!(core.state.vms[0], before.vms[0], "{event:?}");
        let of_vm_1 = |state: &State| (state.vms[1], state.queue.count_of(1));
        assert_ne!(of_vm_1(&core.state), of_vm_1(&before), "{event:?}");
    }
}

/// A1, A2, A7, R2, R3: the parts of every answer; who runs after the event, where, and no more if refused.
#[test]
fn an_answer_shows_what_is_after_the_event() {
    at_random(|before, event, answer, after| {
        let Answer { refusal, running, address, delivered, notice, result, removed } = *answer;
        let expected = after.state.running.map_or(0, |vm| after.state.vms[usize::from(vm)].address);
        assert_eq!((running, address), (after.state.running, expected), "{event:?}");
        if refusal != 0 {
            assert_eq!(after, before, "{event:?}");
            assert_eq!((delivered, result, removed), (None, 0, 0), "{event:?}");
        }
        if refusal != 0 || notice.number == 0 {
            assert_eq!(notice, Notice { number: 0, vm: 0, code: 0, data: 0 }, "{event:?}");
        }
    });
}

/// A4, A5: each notice names its VM; an error has one of five codes, and the data that goes with it.
#[test]
fn every_notice_has_its_vm_its_code_and_its_data() {
    let fault = |code| Event::Fault { code, data: 0xabcd_ef01 };
    let notices = [
        (Event::Stop { vm: 1 }, 1, 0, 0),
        (call(3, 7, 0), 2, 0, 0),
        (call(9, 7, 0), 3, 1, 9),
        (call(2, 40, 0), 3, 2, 40),
        (fault(3), 3, 3, 0xabcd_ef01),
        (fault(4), 3, 4, 0xabcd_ef01),
        (fault(5), 3, 5, 0xabcd_ef01),
    ];
    for (event, number, code, data) in notices {
        let mut core = core_with(&[Event::Start, tick(0), tick(0), tick(0)]);
        assert_eq!(core.apply(event).notice, Notice { number, vm: 1, code, data }, "{event:?}");
    }
}

/// D1, D2: Start makes every VM new, whatever its record holds, and leaves the table to the first tick.
#[test]
fn start_makes_every_vm_of_the_configuration_ready() {
    let mut core = core_with(&[]);
    let address = 0x7777;
    core.state.vms[1] = Vm { standing: Standing::InError, address, fields: [9; 10], age: 4, ticks_run: 3 };
    (core.state.slot, core.state.left) = (2, 9);
    assert_eq!(core.apply(Event::Start), Answer::default());
    let [zero, one, past @ ..] = core.state.vms;
    assert_eq!((zero, one, past), (Vm::ready_at(0x1000), Vm::ready_at(0x2000), [Vm::default(); 6]));
    let state = &core.state;
    assert_eq!(
        (state.started, state.ticked, state.slot, state.left, state.running),
        (true, false, 2, 9, None)
    );
}

/// D3: the given address goes to the VM that was running, and to nobody where none was.
#[test]
fn a_tick_stores_where_the_running_vm_was_interrupted() {
    let mut core = core_with(&[Event::Start]);
    for (given, addresses) in [
        (0x1111, [0x1000, 0x2000]),
        (0x2222, [0x2222, 0x2000]),
        (0x3333, [0x3333, 0x2000]),
        (0x4444, [0x3333, 0x4444]),
        (0x5555, [0x3333, 0x4444]),
    ] {
        core.apply(tick(given));
        assert_eq!([0, 1].map(|vm: usize| core.state.vms[vm].address), addresses);
    }
}

/// D4, D9: at a tick each VM of the configuration ages by 1, and only the one that runs has new fields.
#[test]
fn a_tick_changes_the_fields_of_the_running_vm_alone() {
    let mut waiting = 0;
    at_random(|before, event, answer, after| {
        let (Event::Tick { .. }, 0) = (event, answer.refusal) else {
            return;
        };
        for (vm, (old, new)) in (0..).zip(before.state.vms.iter().zip(after.state.vms)) {
            let grown = old.age.wrapping_add(u32::from(vm < after.config.vm_count));
            assert_eq!(new.age, grown, "VM {vm}");
            if answer.running != Some(vm) {
                assert_eq!(new.fields, old.fields, "VM {vm}");
                waiting += usize::from(old.fields[GENERATE_ON_TICK] & !old.fields[PENDING] != 0);
            }
        }
    });
    assert!(waiting > 100, "{waiting} times a VM waits that would have a new number pending");
}

/// D6, D7: in the slot of a VM that is not ready nobody takes its place, and the queue waits.
#[test]
fn an_idle_named_slot_does_not_touch_the_queue() {
    let mut core = core_with(&[Event::Start, Event::Extra { vm: 1 }, Event::Stop { vm: 0 }]);
    for (running, entries) in [(None, &[1][..]), (None, &[1]), (Some(1), &[1]), (Some(1), &[]), (None, &[])] {
        assert_eq!(core.apply(tick(0)).running, running);
        assert_eq!(core.state.queue.entries(), entries);
    }
}

/// D13: no event but a Tick and a Call for service 0, 1 or 2 delivers.
#[test]
fn nothing_is_delivered_at_another_moment() {
    let mut delivered = [0; 4];
    at_random(|_, event, answer, _| match (answer.delivered, event) {
        (None, _) => {}
        (_, Event::Call { service: service @ 0..=2, .. }) => delivered[usize::from(service)] += 1,
        (_, Event::Tick { .. }) => delivered[3] += 1,
        _ => panic!("{event:?} delivers"),
    });
    assert!(delivered.iter().all(|count| *count > 10), "{delivered:?}");
}

/// D14, D16, D23, D28: a VM that ends has a new standing; the rest stays, but for the address of a Call.
#[test]
fn a_vm_that_ends_keeps_its_record() {
    let events = [Event::Start, tick(0), write(8, 0x88), write(28, 7), write(32, 0x80), tick(0x1010)];
    let ends = [
        (Event::Stop { vm: 0 }, Standing::Stopped, 0x1004),
        (Event::Fault { code: 5, data: 1 }, Standing::InError, 0x1004),
        (call(3, 0, 0x1050), Standing::ShutDown, 0x1050),
    ];
    for (event, standing, address) in ends {
        let mut core = core_with(&events);
        let before = core.state.vms[0];
        core.apply(event);
        assert_eq!(core.state.vms[0], Vm { standing, address, ..before }, "{event:?}");
    }
}

/// D13, D17: a Shutdown sets bit 11 and does nothing else; once enabled, the VM's own tick delivers it.
#[test]
fn shutdown_of_a_vm_that_waits_sets_one_bit() {
    let mut core = core_with(&[Event::Start, tick(0), tick(0x1010), Event::Extra { vm: 1 }]);
    let mut expected = core.clone();
    expected.state.vms[1].fields[PENDING] = 0x800;
    let answer = Answer { running: Some(0), address: 0x1010, ..Answer::default() };
    assert_eq!(core.apply(Event::Shutdown { vm: 1 }), answer);
    assert_eq!(core, expected);
    // Its slot, in which it enables 11, and the spare tick that it was asked for.
    let delivered = [tick(0), write(8, 0x800), tick(0)].map(|event| core.apply(event).delivered);
    assert_eq!(delivered, [None, None, Some(11)]);
}

/// S8, T4, D21, D22, F1 to F10: each offset reaches its field and nothing else, and delivers nothing.
#[test]
fn each_of_the_ten_offsets_writes_its_field_alone() {
    let fields = [
        (0, TICKS_SINCE_START),
        (4, TICKS_LEFT),
        (8, ENABLED),
        (12, PENDING),
        (16, RESUME_ADDRESS),
        (20, REASON),
        (24, PREVIOUS_ENABLED),
        (28, RESTORE_REGISTER),
        (32, GENERATE_ON_TICK),
        (36, TICKS_WHILE_RUNNING),
    ];
    for ((offset, field), value) in fields.into_iter().flat_map(|it| [(it, 0), (it, u32::MAX)]) {
        let mut core = core_with(&[Event::Start, tick(0), write(8, 0x80), write(12, 0x80)]);
        let mut expected = core.clone();
        expected.state.vms[0].fields[field] = value;
        let answer = core.apply(write(offset, value));
        assert_eq!(answer, Answer { running: Some(0), address: 0x1000, ..Answer::default() });
        assert_eq!(core, expected, "offset {offset}");
    }
}

/// F1 to F10: each field has its part at its offset; the restore register is stored and has none.
#[test]
fn each_field_has_its_part() {
    let mut core = core_with(&[Event::Start, tick(0), write(28, 0x1c)]);
    core.state.vms[0].age = 40;
    for event in [write(8, 0x20), write(32, 0x60), tick(0x1010)] {
        core.apply(event);
    }
    assert_eq!(core.state.vms[0].fields, [41, 1, 0, 0x40, 0x1010, 5, 0x20, 0x1c, 0x60, 2]);
    for event in [write(12, 0x100), write(16, 0x1800), write(24, 0x200), call(1, 0, 0)] {
        core.apply(event);
    }
    assert_eq!(core.state.vms[0].fields, [41, 1, 0x200, 0x100, 0x1800, 5, 0x200, 0x1c, 0x60, 2]);
    assert_eq!(core.state.vms[0].address, 0x1800);
}
