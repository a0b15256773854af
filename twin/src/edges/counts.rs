//! The fixed logs about the queue counts (T10), for a small table of eight VMs and a queue of 16.

use crate::core::event::Event;
use crate::core::limits::{MAX_QUEUE, MAX_VMS};
use crate::edges::cases::{call, TICK};

/// So many ticks come back to the same slot: one for each VM, and the spare one.
const ROUND: usize = MAX_VMS + 1;

const LAST: u8 = MAX_VMS as u8 - 1;

/// Each VM asks for itself and is asked for until the queue is full; then every entry is served, once in the
/// order of the VMs and once with all of them in turn.
pub fn counts_up_and_down() -> Vec<Event> {
    let mut events = vec![Event::Start, TICK];
    for vm in 0..=LAST {
        events.extend([call(4, 0), Event::Extra { vm }, TICK]);
    }
    events.extend([TICK; ROUND * MAX_QUEUE]);
    events.extend((0..=LAST).chain((0..=LAST).rev()).map(|vm| Event::Extra { vm }));
    // A full queue turns away the VM that runs and those that wait, whatever they have.
    events.extend([call(4, 0), Event::Extra { vm: 0 }, Event::Extra { vm: LAST }]);
    events.extend([TICK; ROUND * MAX_QUEUE]);
    events
}

/// Each VM alone fills the queue, asks in vain and loses all, and asks in vain where another has filled it;
/// then two of them fill it and are served to the end.
pub fn counts_of_one_vm() -> Vec<Event> {
    let mut events = vec![Event::Start, TICK];
    for vm in 0..=LAST {
        events.extend([Event::Extra { vm }; MAX_QUEUE - 1]);
        events.extend([call(4, 0), call(4, 0), Event::Extra { vm }, Event::Restart { vm }]);
        let other = LAST - vm;
        events.extend([Event::Extra { vm: other }; MAX_QUEUE]);
        events.extend([call(4, 0), Event::Extra { vm }, Event::Restart { vm: other }, TICK]);
    }
    for vm in [0, LAST] {
        events.extend([Event::Extra { vm }; MAX_QUEUE]);
        events.extend([TICK; ROUND * (MAX_QUEUE + 1)]);
    }
    events
}

/// What takes all entries of the VM that runs, and then of one that waits.
fn removing(running: u8, waiting: u8) -> [Event; 8] {
    [
        Event::Stop { vm: running },
        Event::Restart { vm: running },
        Event::Fault { code: 4, data: 0x4abc },
        call(3, 0),
        call(2, 32),
        call(255, 0),
        Event::Stop { vm: waiting },
        Event::Restart { vm: waiting },
    ]
}

/// Each of these events for each VM, with two entries of that VM and three of the next, and one of a third.
pub fn counts_cleared() -> Vec<Event> {
    let mut events = vec![Event::Start, TICK];
    for kind in 0..removing(0, 1).len() {
        for running in 0..=LAST {
            let (waiting, third) = ((running + 1) & LAST, (running + 5) & LAST);
            events.extend([waiting, running, third, waiting, running, waiting].map(|vm| Event::Extra { vm }));
            events.push(removing(running, waiting)[kind]);
            // Those that ended are asked for in vain, and come back without an entry.
            events.extend([running, waiting].map(|vm| Event::Extra { vm }));
            events.extend([running, waiting, third].map(|vm| Event::Restart { vm }));
            events.push(TICK);
        }
        // The spare tick finds nothing, and VM 0 has the next.
        events.push(TICK);
    }
    events.extend(counts_beside_idling());
    events
}

/// Entries while nobody runs: requests, a Stop, a Restart and a spare tick then.
fn counts_beside_idling() -> Vec<Event> {
    let asked = |vm: u8| Event::Extra { vm };
    let mut events = vec![Event::Stop { vm: 0 }, asked(1), asked(1), asked(2), Event::Stop { vm: 3 }];
    events.extend([asked(0), Event::Stop { vm: 1 }, call(4, 0), Event::Restart { vm: 1 }, asked(1)]);
    events.push(Event::Stop { vm: LAST });
    events.extend([TICK; 2 * ROUND]);
    events.extend([Event::Restart { vm: 0 }, Event::Restart { vm: LAST }, TICK]);
    events
}
