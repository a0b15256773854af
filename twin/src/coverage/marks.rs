//! The boundaries and rare moments that a comparison has to reach, and how a run shows them.

use crate::core::config::{Config, SPARE};
use crate::core::event::{Answer, Event};
use crate::core::limits::{MAX_IMAGE_BYTES, MAX_LOG_BYTES, MAX_QUEUE, MAX_SLOTS, MAX_SLOT_TICKS, MAX_VMS};
use crate::core::state::{Standing, ENABLED, PENDING, TICKS_WHILE_RUNNING};
use crate::core::Core;
use crate::image::read::{image_body_length, ImageFault, KIND_CORE, KIND_SLOT};

/// An enum of points to reach, each with the name that it is told by and the rules that it stands for.
macro_rules! marks {
    ($kind:ident: $($(#[$rules:meta])* $mark:ident = $name:expr,)*) => {
        #[derive(Clone, Copy, Debug, PartialEq, Eq)]
        pub enum $kind { $($(#[$rules])* $mark,)* }

        impl $kind {
            pub const ALL: [$kind; [$($name),*].len()] = [$($kind::$mark),*];
            pub const COUNT: usize = $kind::ALL.len();

            pub fn name(self) -> &'static str {
                match self { $($kind::$mark => $name,)* }
            }
        }
    };
}
pub(crate) use marks;

marks! {
    Mark:
    /// I8, P6
    EmptyImage = "image: empty",
    /// S9
    FullImage = "image: 1,036 bytes, accepted",
    /// I14
    LongerImage = "image: over 1,036 bytes",
    /// S1
    OneVm = "image: 1 VM",
    /// S1
    EightVms = "image: 8 VMs",
    /// S2
    QueueNone = "image: queue size 0",
    /// S2, P8
    QueueSixteen = "image: queue size 16",
    /// S3
    OneSlot = "image: 1 slot",
    /// S3
    SixtyFourSlots = "image: 64 slots",
    /// S4
    ShortestSlot = "image: duration 1",
    /// S4, P7
    LongestSlot = "image: duration 1,000",
    /// I8
    NoKind = "image: ends where a record should begin",
    /// I8
    CutBody = "image: ends inside a body",
    /// I8
    UnknownKind = "image: unknown kind",
    /// I9
    UnknownLastKind = "image: unknown kind as the last byte",
    /// I8, I13
    KindOutOfPlace = "image: known kind out of its place",
    /// I9
    OutOfPlaceAndCut = "image: known kind out of its place, body cut",
    /// I13
    SecondCore = "image: second core record",
    /// S1, I8
    NoVms = "image: VM count 0",
    /// S1, I8
    NineVms = "image: VM count 9",
    /// S2, I8, P8
    QueueSeventeen = "image: queue size 17",
    /// S4, I8
    DurationZero = "image: named duration 0",
    /// S4, I8, P7
    DurationOver = "image: named duration 1,001",
    /// S4, I8
    SpareZero = "image: spare duration 0",
    /// S4, I8
    SpareTwo = "image: spare duration 2",
    /// I9
    NobodyAndDuration = "image: slot of nobody with a bad duration",
    /// I9
    NobodyAt65 = "image: 65th slot of nobody",
    /// I13
    EndWithoutSlots = "image: end record right after the VMs",
    /// I9
    NoSlotAndMore = "image: VM without a slot, and bytes after the end",
    /// L3, N2
    EmptyLog = "log: empty",
    /// S9, N6
    FullLog = "log: 60,000 bytes",
    /// S9, N6
    LongLog = "log: 60,001 bytes",
    /// N6
    LongerLog = "log: over 60,001 bytes",
    /// L4, N7
    CutAtKind = "log: unknown kind",
    /// L4, N7
    CutInBody = "log: short body",
    /// D5, D10
    TableAgain = "run: the table begins again",
    /// S4, D5
    LongSlotThrough = "run: last tick of a slot of 1,000",
    /// T4, D4
    ManyTicks = "run: tick with a VM's age over 10,000",
    /// T4, D8
    ManyTicksRun = "run: VM with over 5,000 ticks run",
    /// D6
    IdleNamed = "run: named slot, VM not ready",
    /// D7
    IdleSpare = "run: spare slot, queue empty",
    /// D7
    SpareServed = "run: spare slot serves an entry",
    /// T10, A8, D7
    SpareServesOneOfSome = "run: spare slot serves a VM that has more entries",
    /// D9
    SpareDelivers = "run: delivery in a spare tick",
    /// S2, T5
    QueueFull = "run: queue filled to 16",
    /// T5
    TwiceQueued = "run: same VM twice in the queue",
    /// R1
    ExtraFullNotReady = "run: Extra for a VM that is not ready, queue full",
    /// A6, D29
    CallFullSixteen = "run: service 4 with 16 entries",
    /// A6, R4, D29
    CallFullNone = "run: service 4 with queue size 0",
    /// T10, A8, D29
    CallFullOwn = "run: service 4 with a full queue, entries of its own in it",
    /// D15
    StopRunning = "run: Stop of the running VM",
    /// D14
    StopWaiting = "run: Stop of a VM that does not run",
    /// A8
    SixteenRemoved = "run: 16 entries removed at once",
    /// D19
    RestartRunning = "run: Restart of the running VM",
    /// D18, D19
    RestartWaiting = "run: Restart of a ready VM that does not run",
    /// R5, D18
    RestartStopped = "run: Restart of a stopped VM",
    /// R5, D18
    RestartShutDown = "run: Restart of a VM that shut down",
    /// R5, D18
    RestartInError = "run: Restart of a VM in error",
    /// R5, D6
    NobodyReady = "run: tick with no VM ready",
    /// D17, M5
    ShutdownRunning = "run: Shutdown of the running VM, 11 enabled",
    /// T10, A8, D17
    ShutdownQueued = "run: Shutdown of a VM with entries",
    /// D17
    ShutdownDelivered = "run: 11 delivered",
    /// D12, M3
    PendingStays = "run: delivery with other bits still pending",
    /// D27, P10
    Argument31 = "run: service 2 with 31",
    /// D27, P10
    Argument32 = "run: service 2 with 32",
    /// E12, D27
    ArgumentLowBits = "run: service 2 over 31 whose low bits are small",
    /// D11, D27, P9
    InjectOutranked = "run: service 2 delivers a higher number, its own enabled too",
    /// D11, D27
    InjectPassedOver = "run: service 2 delivers another number, its own not enabled",
    /// D27
    InjectNotEnabled = "run: service 2 delivers nothing, its number not enabled",
    /// D27
    InjectErrorOnly = "run: service 2 over 31 with a number pending and enabled",
    /// D30
    ServiceFive = "run: service 5",
    /// E12, D30
    ServiceLast = "run: service 255",
    /// R1
    Offset37 = "run: Write at offset 37",
    /// R1
    Offset40 = "run: Write at offset 40",
    /// R1
    OffsetNoVm = "run: Write at a bad offset while no VM runs",
    /// R1
    CodeNoVm = "run: Fault of a bad code while no VM runs",
    /// R1
    CodeTwo = "run: Fault of code 2",
    /// R1
    CodeSix = "run: Fault of code 6",
    /// A8, R1
    CodeQueued = "run: Fault of a bad code by a VM with entries",
    /// D8, M1
    ClockBent = "run: tick after a Write to ticksWhileRunning",
    /// S1
    VmSeven = "run: VM 7 runs",
    /// R1
    VmEight = "run: master event for VM 8",
    /// R1
    VmLast = "run: master event for VM 255",
}

/// The marks of an image and of what the reader said about it.
pub fn image_marks(image: &[u8], read: &Result<Config, ImageFault>, hit: &mut impl FnMut(Mark)) {
    let length = image.len();
    test(hit, Mark::EmptyImage, length == 0);
    test(hit, Mark::LongerImage, length > MAX_IMAGE_BYTES);
    match read {
        Err(fault) => fault_marks(image, *fault, hit),
        Ok(config) => {
            let (vms, slots) = (usize::from(config.vm_count), usize::from(config.slot_count));
            test(hit, Mark::FullImage, length == MAX_IMAGE_BYTES);
            test(hit, Mark::OneVm, vms == 1);
            test(hit, Mark::EightVms, vms == MAX_VMS);
            test(hit, Mark::QueueNone, config.queue_size == 0);
            test(hit, Mark::QueueSixteen, usize::from(config.queue_size) == MAX_QUEUE);
            test(hit, Mark::OneSlot, slots == 1);
            test(hit, Mark::SixtyFourSlots, slots == MAX_SLOTS);
            let named = |ticks| config.table().iter().any(|slot| slot.owner != SPARE && slot.ticks == ticks);
            test(hit, Mark::ShortestSlot, named(1));
            test(hit, Mark::LongestSlot, named(MAX_SLOT_TICKS));
        }
    }
}

fn fault_marks(image: &[u8], fault: ImageFault, hit: &mut impl FnMut(Mark)) {
    let record = &image[fault.offset.min(image.len())..];
    let kind = record.first().copied();
    let known = kind.is_some_and(|kind| image_body_length(kind).is_some());
    match fault.number {
        20 => hit(if record.is_empty() { Mark::NoKind } else { Mark::CutBody }),
        21 => {
            hit(if known { Mark::KindOutOfPlace } else { Mark::UnknownKind });
            test(hit, Mark::UnknownLastKind, !known && record.len() == 1);
            let cut = kind.and_then(image_body_length).is_some_and(|length| record.len() <= length);
            test(hit, Mark::OutOfPlaceAndCut, cut);
            test(hit, Mark::SecondCore, kind == Some(KIND_CORE));
        }
        22 => {
            test(hit, Mark::NoVms, record[1] == 0);
            test(hit, Mark::NineVms, record[1] == 9);
            test(hit, Mark::QueueSeventeen, record[2] == 17);
        }
        23..=26 => slot_fault_marks(record, fault.number, hit),
        27 => {
            test(hit, Mark::EndWithoutSlots, fault.offset == 3 + 9 * usize::from(image[1]));
            test(hit, Mark::NoSlotAndMore, record.len() > 1);
        }
        _ => {}
    }
}

fn slot_fault_marks(record: &[u8], fault: u8, hit: &mut impl FnMut(Mark)) {
    debug_assert_eq!(record[0], KIND_SLOT);
    let ticks = u16::from_le_bytes([record[2], record[3]]);
    test(hit, Mark::NobodyAndDuration, fault == 23 && ticks == 0);
    test(hit, Mark::NobodyAt65, fault == 26 && record[1] == 200);
    test(hit, Mark::SpareZero, fault == 24 && ticks == 0);
    test(hit, Mark::SpareTwo, fault == 24 && ticks == 2);
    test(hit, Mark::DurationZero, fault == 25 && ticks == 0);
    test(hit, Mark::DurationOver, fault == 25 && ticks == 1_001);
}

/// The marks of a log's length.
pub fn log_marks(log: &[u8], hit: &mut impl FnMut(Mark)) {
    test(hit, Mark::EmptyLog, log.is_empty());
    test(hit, Mark::FullLog, log.len() == MAX_LOG_BYTES);
    test(hit, Mark::LongLog, log.len() == MAX_LOG_BYTES + 1);
    test(hit, Mark::LongerLog, log.len() > MAX_LOG_BYTES + 1);
}

/// The marks of one event, from the core before it and after it.
pub fn event_marks(before: &Core, event: Event, answer: &Answer, after: &Core, hit: &mut impl FnMut(Mark)) {
    test(hit, Mark::VmSeven, answer.running == Some(7));
    match (event, answer.refusal) {
        (Event::Tick { .. }, 0) => tick_marks(before, answer, after, hit),
        (Event::Call { service: 2, argument, .. }, 0) => inject_marks(before, argument, answer, hit),
        (Event::Call { service, .. }, 0) => call_marks(before, service, answer, hit),
        (Event::Stop { vm }, 0) => {
            let running = before.state.running == Some(vm);
            hit(if running { Mark::StopRunning } else { Mark::StopWaiting });
        }
        (Event::Restart { vm }, 0) => restart_marks(before, vm, hit),
        (Event::Shutdown { vm }, 0) => {
            let enabled = before.vm(vm).fields[ENABLED] >> 11 & 1 == 1;
            test(hit, Mark::ShutdownRunning, before.state.running == Some(vm) && enabled);
            test(hit, Mark::ShutdownQueued, has_entries(before, Some(vm)));
        }
        (_, 0) => {}
        _ => refusal_marks(before, event, answer.refusal, hit),
    }
    if let Some(number) = answer.delivered {
        test(hit, Mark::ShutdownDelivered, number == 11);
        let vm = answer.running.map(|vm| after.vm(vm));
        test(hit, Mark::PendingStays, vm.is_some_and(|vm| vm.fields[PENDING] != 0));
    }
    test(hit, Mark::SixteenRemoved, usize::from(answer.removed) == MAX_QUEUE);
    let entries = after.state.queue.entries();
    test(hit, Mark::QueueFull, entries.len() == MAX_QUEUE);
    test(hit, Mark::TwiceQueued, entries.len() > 1 && entries[1..].contains(&entries[0]));
}

fn tick_marks(before: &Core, answer: &Answer, after: &Core, hit: &mut impl FnMut(Mark)) {
    let slot = after.config.slots[usize::from(after.state.slot)];
    let (spare, idle) = (slot.owner == SPARE, answer.running.is_none());
    test(
        hit,
        Mark::TableAgain,
        before.state.ticked && after.state.slot == 0 && after.state.left == slot.ticks,
    );
    test(hit, Mark::LongSlotThrough, slot.ticks == MAX_SLOT_TICKS && after.state.left == 1);
    test(hit, Mark::IdleNamed, idle && !spare);
    test(hit, Mark::IdleSpare, idle && spare);
    test(hit, Mark::SpareServed, !idle && spare);
    test(hit, Mark::SpareServesOneOfSome, spare && has_entries(after, answer.running));
    test(hit, Mark::SpareDelivers, spare && answer.delivered.is_some());
    test(hit, Mark::NobodyReady, after.state.vms.iter().all(|vm| vm.standing != Standing::Ready));
    test(hit, Mark::ManyTicks, after.state.vms[0].age > 10_000);
    if let Some(vm) = answer.running {
        let was = before.vm(vm);
        test(hit, Mark::ManyTicksRun, was.ticks_run > 5_000);
        test(hit, Mark::ClockBent, was.fields[TICKS_WHILE_RUNNING] != was.ticks_run);
    }
}

fn call_marks(before: &Core, service: u8, answer: &Answer, hit: &mut impl FnMut(Mark)) {
    test(hit, Mark::ServiceFive, service == 5);
    test(hit, Mark::ServiceLast, service == 255);
    test(hit, Mark::CallFullSixteen, service == 4 && usize::from(before.state.queue.count) == MAX_QUEUE);
    test(hit, Mark::CallFullNone, service == 4 && before.config.queue_size == 0);
    test(hit, Mark::CallFullOwn, answer.result == 1 && has_entries(before, before.state.running));
}

fn inject_marks(before: &Core, argument: u32, answer: &Answer, hit: &mut impl FnMut(Mark)) {
    test(hit, Mark::Argument31, argument == 31);
    test(hit, Mark::Argument32, argument == 32);
    test(hit, Mark::ArgumentLowBits, argument == 0x1_0003);
    let Some(vm) = before.state.running.map(|vm| before.vm(vm)) else {
        return;
    };
    if argument > 31 {
        return test(hit, Mark::InjectErrorOnly, vm.deliverable() != 0);
    }
    let enabled = vm.fields[ENABLED] >> argument & 1 == 1;
    let another = answer.delivered.is_some_and(|number| u32::from(number) != argument);
    test(hit, Mark::InjectOutranked, another && enabled);
    test(hit, Mark::InjectPassedOver, another && !enabled);
    test(hit, Mark::InjectNotEnabled, answer.delivered.is_none() && !enabled);
}

fn restart_marks(before: &Core, vm: u8, hit: &mut impl FnMut(Mark)) {
    let running = before.state.running == Some(vm);
    match before.vm(vm).standing {
        Standing::Ready => hit(if running { Mark::RestartRunning } else { Mark::RestartWaiting }),
        Standing::Stopped => hit(Mark::RestartStopped),
        Standing::ShutDown => hit(Mark::RestartShutDown),
        Standing::InError => hit(Mark::RestartInError),
        Standing::None => {}
    }
}

/// Has this VM, if it is one, entries in the queue?
fn has_entries(core: &Core, vm: Option<u8>) -> bool {
    vm.is_some_and(|vm| core.state.queue.count_of(vm) > 0)
}

fn refusal_marks(before: &Core, event: Event, refusal: u8, hit: &mut impl FnMut(Mark)) {
    match event {
        Event::Write { offset, .. } => {
            test(hit, Mark::Offset37, refusal == 8 && offset == 37);
            test(hit, Mark::Offset40, refusal == 8 && offset == 40);
            test(hit, Mark::OffsetNoVm, refusal == 5 && offset == 37);
        }
        Event::Fault { code, .. } => {
            test(hit, Mark::CodeTwo, refusal == 9 && code == 2);
            test(hit, Mark::CodeSix, refusal == 9 && code == 6);
            test(hit, Mark::CodeQueued, refusal == 9 && has_entries(before, before.state.running));
            test(hit, Mark::CodeNoVm, refusal == 5 && !(3..=5).contains(&code));
        }
        Event::Stop { vm } | Event::Shutdown { vm } | Event::Restart { vm } | Event::Extra { vm } => {
            test(hit, Mark::VmEight, refusal == 3 && vm == 8);
            test(hit, Mark::VmLast, refusal == 3 && vm == 255);
            let extra = matches!(event, Event::Extra { .. });
            test(hit, Mark::ExtraFullNotReady, extra && refusal == 4 && before.queue_full());
        }
        _ => {}
    }
}

fn test(hit: &mut impl FnMut(Mark), mark: Mark, condition: bool) {
    if condition {
        hit(mark);
    }
}
