//! The fixed logs about what an event removes from the queue (A8), for VMs 0 and 1 of a small table.

use crate::core::event::Event;
use crate::edges::cases::{call, write, TICK};

/// Each event that removes entries, for VM 0, which runs; two of them for VM 1, which waits.
const REMOVING: [Event; 8] = [
    Event::Stop { vm: 0 },
    Event::Restart { vm: 0 },
    Event::Fault { code: 3, data: 0x3abc },
    Event::Call { service: 3, argument: 0, next: 0x1030 },
    Event::Call { service: 2, argument: 32, next: 0x1034 },
    Event::Call { service: 5, argument: 0, next: 0x1038 },
    Event::Stop { vm: 1 },
    Event::Restart { vm: 1 },
];

/// How many entries VM 0 and VM 1 have, up to the sixteen that the queue takes.
const ENTRIES: [(usize, usize); 12] =
    [(0, 0), (0, 1), (1, 0), (1, 2), (2, 0), (2, 1), (3, 3), (5, 9), (8, 8), (1, 15), (16, 0), (0, 16)];

/// Each of the events with each number of entries, for a queue of 16.
pub fn removals() -> Vec<Event> {
    let mut events = vec![Event::Start, TICK];
    for removing in REMOVING {
        for (of_vm_0, of_vm_1) in ENTRIES {
            events.extend(requests(of_vm_0, of_vm_1));
            events.push(removing);
            // The spare tick serves what stayed; then the queue is emptied and VM 0 runs again.
            events.extend([TICK, TICK, Event::Restart { vm: 0 }, Event::Restart { vm: 1 }, TICK]);
        }
    }
    events
}

/// Requests for VM 1 and VM 0 in turn, those of VM 0 by the master and by itself.
fn requests(of_vm_0: usize, of_vm_1: usize) -> Vec<Event> {
    let mut events = Vec::new();
    for turn in 0..of_vm_0.max(of_vm_1) {
        if turn < of_vm_1 {
            events.push(Event::Extra { vm: 1 });
        }
        if turn < of_vm_0 {
            events.push(if turn % 2 == 0 { Event::Extra { vm: 0 } } else { call(4, 0) });
        }
    }
    events
}

/// What removes nothing though entries stand in the queue: refusals, a Shutdown, services that go on, a
/// full queue of 4, spare ticks that serve, and the Restart of a VM that has none.
pub fn removals_of_none() -> Vec<Event> {
    let mut events = vec![Event::Start, TICK];
    events.extend(requests(2, 1));
    events.extend([Event::Start, Event::Stop { vm: 2 }, Event::Restart { vm: 2 }, Event::Shutdown { vm: 2 }]);
    events.extend([0, 2, 6, 255].map(|code| Event::Fault { code, data: 7 }));
    events.extend([write(37, 1), write(8, u32::MAX), Event::Shutdown { vm: 0 }, Event::Shutdown { vm: 1 }]);
    events.extend([call(0, 0), call(1, 0), call(2, 31), call(4, 0), call(4, 0), Event::Extra { vm: 0 }]);
    events.extend([TICK; 12]);
    events.extend([Event::Extra { vm: 1 }, Event::Extra { vm: 1 }, Event::Stop { vm: 0 }]);
    // Nobody runs now, and VM 1 has entries.
    events.extend([Event::Stop { vm: 0 }, call(3, 0), call(2, 32), call(5, 0), REMOVING[2]]);
    events.extend([Event::Restart { vm: 0 }, TICK, TICK]);
    events
}
