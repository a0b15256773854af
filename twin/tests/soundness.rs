//! The fresh state, and states that no event leads to: each clause of soundness broken by itself gets
//! refusal 1.

mod common;

use common::{core_of, core_with, counted, every_kind, tick, worked_config};
use twin::core::config::Config;
use twin::core::event::{Answer, Event};
use twin::core::flaw::Flaw;
use twin::core::limits::MAX_VMS;
use twin::core::state::{Queue, Standing, State, Vm};
use twin::core::Core;
use twin::edges::cases::small;

/// What is broken, and how.
type Change = (&'static str, fn(&mut Core));

fn started() -> Core {
    core_with(&[Event::Start, tick(0), Event::Extra { vm: 1 }])
}

fn fresh() -> Core {
    Core::fresh(worked_config(), Flaw::None)
}

fn assert_refused(mut core: Core, what: &str) {
    assert!(!core.sound(), "{what}");
    let before = core.clone();
    for event in every_kind() {
        assert_eq!(core.apply(event), Answer { refusal: 1, ..Answer::default() }, "{what}: {event:?}");
        assert_eq!(core, before, "{what}: {event:?}");
    }
}

/// W1 to W6, W8 to W11, R1 to R3: each clause broken by itself in a core that runs; the counts stay right.
#[test]
fn broken_states_after_start() {
    let changes: [Change; 15] = [
        ("the configuration is not legal", |core| core.config.slots[0].ticks = 1_001),
        ("a record past the count is not fresh", |core| core.state.vms[2].age = 1),
        ("the last record is ready", |core| core.state.vms[7].standing = Standing::Ready),
        ("more entries than the queue size", |core| core.state.queue.push(0)),
        ("an entry names a VM that rests", |core| core.state.vms[1].standing = Standing::Stopped),
        ("an entry names no record", |core| {
            (core.state.queue.places[0], core.state.queue.vm_counts) = (200, [0; MAX_VMS]);
        }),
        ("an entry names a record past the count, and is counted there", |core| {
            (core.state.queue.places[0], core.state.queue.vm_counts) = (2, [0, 0, 1, 0, 0, 0, 0, 0]);
        }),
        ("a place behind the entries is not zero", |core| core.state.queue.places[15] = 1),
        ("it runs before the first tick", |core| core.state.ticked = false),
        ("the slot is not one of the table", |core| core.state.slot = 3),
        ("no tick is left", |core| core.state.left = 0),
        ("more ticks are left than the slot has", |core| core.state.left = 3),
        ("the running VM rests", |core| core.state.vms[0].standing = Standing::InError),
        ("the slot is another's", |core| core.state.running = Some(1)),
        ("no such VM runs", |core| core.state.running = Some(8)),
    ];
    for (what, change) in changes {
        let mut core = started();
        assert!(core.sound());
        change(&mut core);
        assert_refused(core, what);
    }
}

/// W7, R1 to R3: each part of the clause broken by itself.
#[test]
fn broken_states_before_start() {
    let changes: [Change; 4] = [
        ("a VM is ready", |core| core.state.vms[0] = Vm::ready_at(0x1000)),
        ("something is queued", |core| core.state.queue.push(0)),
        ("something runs", |core| core.state.running = Some(0)),
        ("it has ticked", |core| (core.state.ticked, core.state.left) = (true, 1)),
    ];
    for (what, change) in changes {
        let mut core = fresh();
        assert!(core.sound());
        change(&mut core);
        assert_refused(core, what);
    }
}

/// Eight VMs of which VM 0 runs, with ten entries of six of them.
fn crowded() -> Core {
    let mut events = vec![Event::Start, tick(0)];
    events.extend([3, 1, 7, 3, 0, 5, 1, 7, 3, 2].map(|vm| Event::Extra { vm }));
    core_of(small(8, 16), &events)
}

/// Sound states of eight VMs and of two, with entries and without, before Start and after it.
fn sound_cores() -> [(&'static str, Core); 8] {
    [
        ("crowded", crowded()),
        (
            "full of one VM",
            core_of(small(8, 16), &[&[Event::Start], &[Event::Extra { vm: 7 }; 16][..]].concat()),
        ),
        ("eight VMs, nothing queued", core_of(small(8, 16), &[Event::Start, tick(0)])),
        ("eight VMs before Start", Core::fresh(small(8, 16), Flaw::None)),
        ("two VMs, one entry", started()),
        ("two VMs, nothing queued", core_with(&[Event::Start])),
        ("two VMs before Start", fresh()),
        ("one VM without a queue", core_of(small(1, 0), &[Event::Start, tick(0)])),
    ]
}

/// T10, W13, R1 to R3: every value but the right one at each of the eight places, those past the VM count and
/// those before Start too.
#[test]
fn a_state_with_a_wrong_count_is_not_sound() {
    for (what, core) in sound_cores() {
        assert!(core.sound(), "{what}");
        assert_eq!(core.state.queue.vm_counts, counted(&core.state.queue), "{what}");
        for vm in 0..MAX_VMS {
            let right = core.state.queue.vm_counts[vm];
            for wrong in (0..=255).filter(|wrong| *wrong != right) {
                let mut other = core.clone();
                other.state.queue.vm_counts[vm] = wrong;
                assert!(!other.sound(), "{what}: {wrong} for VM {vm}");
                if wrong.abs_diff(right) == 1 || wrong == 0 || wrong == 255 {
                    assert_refused(other, &format!("{what}: {wrong} for VM {vm}"));
                }
            }
        }
    }
}

/// T10, W13, R1 to R3: counts whose sum is right, with one entry told for another VM, or two counts swapped.
#[test]
fn a_count_that_stands_with_another_vm_is_not_sound() {
    let core = crowded();
    let right = core.state.queue.vm_counts;
    assert_eq!(right, [1, 2, 1, 3, 0, 1, 0, 2]);
    for (one, two) in (0..MAX_VMS).flat_map(|one| (0..MAX_VMS).map(move |two| (one, two))) {
        let mut swapped = core.clone();
        swapped.state.queue.vm_counts.swap(one, two);
        assert_eq!(swapped.sound(), right[one] == right[two], "{one} and {two}");
        if right[one] != right[two] {
            assert_refused(swapped, &format!("those of {one} and {two} swapped"));
        }
        if one != two && right[one] > 0 {
            let mut moved = core.clone();
            moved.state.queue.vm_counts[one] -= 1;
            moved.state.queue.vm_counts[two] += 1;
            assert_refused(moved, &format!("one of {one} told for {two}"));
        }
    }
}

/// T10, W13, R1 to R3: all counts at once.
#[test]
fn counts_that_do_not_belong_to_the_queue_are_not_sound() {
    for (what, core) in sound_cores() {
        for other in
            [[0; MAX_VMS], [1; MAX_VMS], [16; MAX_VMS], [1, 2, 1, 3, 0, 1, 0, 2], [0, 1, 0, 0, 0, 0, 0, 0]]
        {
            let mut changed = core.clone();
            changed.state.queue.vm_counts = other;
            if other == core.state.queue.vm_counts {
                assert!(changed.sound(), "{what}: {other:?}");
            } else {
                assert_refused(changed, &format!("{what}: {other:?}"));
            }
        }
    }
}

/// T10, W13, R1 to R3: entries that change under their counts; with counts that follow, the state is sound.
#[test]
fn entries_that_the_counts_do_not_follow_are_not_sound() {
    let changes: [Change; 4] = [
        ("another VM's entry", |core| core.state.queue.places[4] = 6),
        ("one entry less", |core| (core.state.queue.count, core.state.queue.places[9]) = (9, 0)),
        ("one entry more", |core| (core.state.queue.count, core.state.queue.places[10]) = (11, 4)),
        ("no entry", |core| (core.state.queue.count, core.state.queue.places) = (0, [0; 16])),
    ];
    for (what, change) in changes {
        let mut core = crowded();
        change(&mut core);
        assert_refused(core.clone(), what);
        core.state.queue.vm_counts = counted(&core.state.queue);
        assert!(core.sound(), "{what}");
        assert_eq!(core.apply(tick(0)).refusal, 0, "{what}");
    }
    // The order of the entries is no matter of the counts.
    let mut core = crowded();
    core.state.queue.places[..10].reverse();
    assert!(core.sound());
}

/// W14, R5, D2, D5, D18: what may be before the first tick and what the first tick makes of it.
#[test]
fn states_that_look_odd_and_are_sound() {
    let changes: [fn(&mut Core); 3] = [
        |core| core.state.left = 999,
        |core| core.state.slot = 77,
        |core| core.state.vms[1].standing = Standing::Stopped,
    ];
    for change in changes {
        let mut core = fresh();
        change(&mut core);
        assert!(core.sound());
        assert_eq!(core.apply(Event::Start).refusal, 0);
        assert_eq!(core.apply(tick(0)).running, Some(0));
        assert_eq!((core.state.slot, core.state.left), (0, 2));
    }
    let mut core = core_with(&[Event::Start]);
    core.state.vms[1] = Vm::default();
    assert_eq!(core.apply(Event::Stop { vm: 1 }).refusal, 4);
    assert_eq!(core.apply(Event::Restart { vm: 1 }).refusal, 0);
    assert_eq!(core.state.vms[1], Vm::ready_at(0x2000));
}

/// W14: age, ticks run, address and fields of the configuration's VMs may be anything, at any time.
#[test]
fn the_numbers_of_a_vm_are_free() {
    for mut core in [fresh(), core_with(&[Event::Start]), started()] {
        for vm in &mut core.state.vms[..2] {
            let standing = vm.standing;
            let most = u32::MAX;
            *vm = Vm { standing, address: most, fields: [most; 10], age: 0, ticks_run: most };
        }
        assert!(core.sound());
    }
}

/// T1, T2, T5, T6, T10: all that a state holds, and what it is in a fresh core.
#[test]
fn a_fresh_state_is_sound_and_holds_zeros_only() {
    let State { started, ticked, slot, left, running, queue, vms } = fresh().state;
    assert_eq!((started, ticked, slot, left, running), (false, false, 0, 0, None));
    assert_eq!(queue, Queue { count: 0, places: [0; 16], vm_counts: [0; 8] });
    let record = Vm { standing: Standing::None, address: 0, fields: [0; 10], age: 0, ticks_run: 0 };
    assert_eq!(vms, [record; 8]);
    assert_eq!(fresh().config, worked_config());
    assert!(fresh().sound());
}

/// I10, T7, W1: the configuration of zeros is not legal, and no core of such a one does anything.
#[test]
fn a_fresh_core_that_is_not_legal_refuses_every_event() {
    let mut longer_queue = worked_config();
    longer_queue.queue_size = 17;
    for config in [Config::zero(), longer_queue] {
        assert!(!config.legal());
        let mut core = Core::fresh(config, Flaw::None);
        let before = core.clone();
        for event in every_kind() {
            assert_eq!(core.apply(event), Answer { refusal: 1, ..Answer::default() }, "{event:?}");
        }
        assert_eq!(core, before);
    }
}
