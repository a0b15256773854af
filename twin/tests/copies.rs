//! The Copy: what it does to the state and answers, what it does to the bytes of its window, and P14 to P22.

mod common;

use common::{
    call, copy, core_of, counted_copy, extent, p14_config, region, tick, with_queue, with_regions,
    worked_config, write,
};
use twin::core::event::{Answer, CopyRequest, Event, Extent, Notice};
use twin::core::flaw::Flaw;
use twin::core::region::Region;
use twin::core::state::Standing;
use twin::core::window::{Window, WindowPlace};
use twin::core::Core;
use twin::edges::copies::copy_cases;
use twin::generate::case::CaseMaker;
use twin::generate::random::Random;
use twin::generate::values::any_event;
use twin::run::text::many_text;

const BASE: u32 = 0x4000_0000;

/// The window of P14 to P22: 512 bytes, byte i is i modulo 251.
fn p14_window() -> Window {
    Window { base: BASE, bytes: (0..512).map(|index| (index % 251) as u8).collect() }
}

/// VM 0 runs in the configuration of P14 to P22.
fn p14_core(flaw: Flaw) -> Core {
    let mut core = Core::fresh(p14_config(), flaw);
    for event in [Event::Start, tick(0)] {
        assert_eq!(core.apply(event).refusal, 0);
    }
    core
}

/// An extent by offsets in the window.
fn at(source: u32, destination: u32, length: u32) -> Extent {
    extent(BASE + source, BASE + destination, length)
}

/// A copy there that has to be done: the window after it.
fn copied(event: Event) -> Vec<u8> {
    let (mut core, mut window) = (p14_core(Flaw::None), p14_window());
    let before = core.clone();
    let answer = core.apply_on(event, &mut window);
    assert_eq!(answer, Answer { running: Some(0), address: 0x1010, ..Answer::default() }, "{event:?}");
    let mut expected = before;
    expected.state.vms[0].address = 0x1010;
    assert_eq!(core, expected, "nothing else of the state changes");
    window.bytes
}

/// A copy there that has to fail with this code and data: no byte moves.
fn assert_fails(event: Event, code: u8, data: u32) {
    let (mut core, mut window) = (p14_core(Flaw::None), p14_window());
    let before = core.clone();
    let answer = core.apply_on(event, &mut window);
    let notice = Notice { number: 3, vm: 0, code, data };
    assert_eq!(answer, Answer { notice, ..Answer::default() }, "{event:?}");
    assert_eq!(window, p14_window(), "{event:?}");
    let mut expected = before;
    expected.state.running = None;
    expected.state.vms[0].address = 0x1010;
    expected.state.vms[0].standing = Standing::InError;
    assert_eq!(core, expected, "{event:?}");
}

/// The window of P14 to P22 with some bytes changed, each by its offset.
fn p14_bytes_but(changed: impl IntoIterator<Item = (usize, u8)>) -> Vec<u8> {
    let mut bytes = p14_window().bytes;
    changed.into_iter().for_each(|(offset, byte)| bytes[offset] = byte);
    bytes
}

/// D36, P14: an extent that overlaps itself, forwards and backwards, byte by byte.
#[test]
fn p14_an_extent_may_overlap_itself() {
    let forwards = copied(copy(&[at(0, 0x10, 0x40)]));
    assert_eq!(forwards, p14_bytes_but((0..0x40).map(|i| (0x10 + i, i as u8))));
    assert_eq!((forwards[0x0f], forwards[0x10], forwards[0x4f], forwards[0x50]), (15, 0, 63, 80));
    let backwards = copied(copy(&[at(0x10, 0, 0x40)]));
    assert_eq!(backwards, p14_bytes_but((0..0x40).map(|i| (i, 0x10 + i as u8))));
    assert_eq!((backwards[0x3f], backwards[0x40], backwards[511]), (0x4f, 0x40, 9));
}

/// D36, P15: an extent takes what the one before it wrote.
#[test]
fn p15_the_second_copies_what_the_first_wrote() {
    let bytes = copied(copy(&[at(0, 0x40, 4), at(0x40, 0x100, 4)]));
    let twice = (0..4).flat_map(|i| [(0x40 + i, i as u8), (0x100 + i, i as u8)]);
    assert_eq!(bytes, p14_bytes_but(twice));
    assert_eq!((&bytes[0x40..0x44], &bytes[0x100..0x104]), (&[0, 1, 2, 3][..], &[0, 1, 2, 3][..]));
}

/// S10, A5, D34, P16: 256 bytes are copied, 257 are code 7.
#[test]
fn p16_an_extent_has_256_bytes_at_most() {
    let bytes = copied(copy(&[at(0, 0x80, 256)]));
    assert_eq!(bytes, p14_bytes_but((0..256).map(|i| (0x80 + i, (i % 251) as u8))));
    assert_eq!((bytes[0x80], bytes[0x17f], bytes[0x180]), (0, 4, 133));
    assert_fails(copy(&[at(0, 0x80, 257)]), 7, 257);
    assert_fails(copy(&[at(0, 0x80, u32::MAX)]), 7, u32::MAX);
}

/// S10, A5, D33, D34, P17: eight extents, nine, and none.
#[test]
fn p17_a_count_goes_up_to_8() {
    let eight: Vec<Extent> = (0..8).map(|k| at(k, 0x100 + k, 1)).collect();
    assert_eq!(copied(copy(&eight))[0x100..0x109], [0, 1, 2, 3, 4, 5, 6, 7, 13]);
    assert_eq!(copied(copy(&eight)), p14_bytes_but((0..8).map(|k| (0x100 + k, k as u8))));
    for count in 9..=255 {
        assert_fails(counted_copy(count, &eight), 6, u32::from(count));
    }
    let bad = [extent(u32::MAX, 5, u32::MAX); 8];
    for extents in [&eight[..], &bad, &[]] {
        assert_eq!(copied(counted_copy(0, extents)), p14_window().bytes);
    }
}

/// D34, P18: an extent without bytes passes, and so does any one past the count.
#[test]
fn p18_what_is_not_looked_at() {
    assert_eq!(copied(copy(&[extent(u32::MAX, 0, 0)])), p14_window().bytes);
    let moved = p14_bytes_but([(0x40, 0), (0x41, 1)]);
    for bad in [extent(u32::MAX, 0, 1), at(0, 0x180, 4), at(0, 0x80, 257), at(0x1c0, 0, 1)] {
        for count in 1..8 {
            let mut extents = vec![at(0, 0x40, 2)];
            extents.resize(usize::from(count), extent(5, u32::MAX, 0));
            extents.resize(8, bad);
            assert_eq!(copied(counted_copy(count, &extents)), moved, "count {count}");
        }
    }
}

/// A5, D32, D34, P19: half of a range that may be used lies outside the window.
#[test]
fn p19_a_range_lies_in_the_window_as_a_whole() {
    assert_fails(copy(&[at(0x1fc, 0, 8)]), 3, 0x4000_01fc);
    assert_fails(copy(&[at(0, 0x1fc, 8)]), 3, 0x4000_01fc);
    assert_fails(copy(&[at(0x1fc, 0, 5)]), 3, 0x4000_01fc);
    assert_fails(copy(&[at(0x200, 0, 1)]), 3, 0x4000_0200);
    assert_eq!(copied(copy(&[at(0x1fc, 0, 4)]))[..5], [6, 7, 8, 9, 4]);
    assert_eq!(copied(copy(&[at(0, 0x1fc, 4)]))[0x1fb..], [5, 0, 1, 2, 3]);
}

/// H9, D34, P20: a range over two regions that adjoin.
#[test]
fn p20_a_range_may_reach_over_regions() {
    let bytes = copied(copy(&[at(0x70, 0x100, 0x20)]));
    assert_eq!(bytes, p14_bytes_but((0..0x20).map(|i| (0x100 + i, 0x70 + i as u8))));
    let bytes = copied(copy(&[at(0x100, 0x70, 0x20)]));
    assert_eq!(bytes, p14_bytes_but((0..0x20).map(|i| (0x70 + i, 5 + i as u8))));
}

/// H8, A5, D34, P21: what may be read and not written is a source and no destination.
#[test]
fn p21_the_source_is_read_and_the_destination_is_written() {
    assert_fails(copy(&[at(0, 0x180, 4)]), 3, 0x4000_0180);
    let bytes = copied(copy(&[at(0x180, 0, 4)]));
    assert_eq!(bytes, p14_bytes_but((0..4).map(|i| (i, 133 + i as u8))));
    assert_fails(copy(&[at(0x1c0, 0, 1)]), 3, 0x4000_01c0);
    assert_fails(copy(&[at(0, 0x1ef, 1)]), 3, 0x4000_01ef);
}

/// A5, D31, D34, D35, P22: seven good extents and a bad eighth: no byte is moved.
#[test]
fn p22_no_byte_moves_where_the_last_extent_fails() {
    let with_eighth = |eighth: Extent| {
        let mut extents: Vec<Extent> = (0..7).map(|k| at(k, 0x100 + k, 1)).collect();
        extents.push(eighth);
        copy(&extents)
    };
    assert_fails(with_eighth(at(7, 0x107, 257)), 7, 257);
    assert_fails(with_eighth(at(0x1c0, 0x107, 1)), 3, 0x4000_01c0);
    assert_fails(with_eighth(at(7, 0x180, 1)), 3, 0x4000_0180);
    for place in 0..8 {
        let mut extents: Vec<Extent> = (0..8).map(|k| at(k, 0x100 + k, 1)).collect();
        extents[place] = at(0, 0x40, 300 + place as u32);
        assert_fails(copy(&extents), 7, 300 + place as u32);
    }
}

/// D34: within an extent the length, then the source, then the destination; among extents the first failure.
#[test]
fn the_first_failure_counts() {
    let (long, from, to) = (at(0, 0x40, 999), at(0x1c0, 0, 1), at(0, 0x181, 1));
    assert_fails(copy(&[at(0x1c0, 0x180, 2)]), 3, 0x4000_01c0);
    assert_fails(copy(&[at(0x1c0, 0x180, 400)]), 7, 400);
    let told = [(long, (7, 999)), (from, (3, 0x4000_01c0)), (to, (3, 0x4000_0181))];
    for (first, (code, data)) in told {
        for (second, _) in told {
            assert_fails(copy(&[at(0, 1, 0), first, second]), code, data);
        }
    }
}

/// D32: the borders of windows anywhere, and sums that do not wrap.
#[test]
fn a_window_has_its_first_byte_and_its_last() {
    let place = WindowPlace { base: 0x100, size: 0x10 };
    let holds = |address, length| place.holds(address, length, Flaw::None);
    assert!(holds(0x100, 0x10) && holds(0x100, 1) && holds(0x10f, 1) && holds(0x110, 0));
    assert!(
        !holds(0xff, 1) && !holds(0xff, 2) && !holds(0x110, 1) && !holds(0x100, 0x11) && !holds(0x111, 0)
    );
    assert!(!holds(u32::MAX, 1) && !holds(0xffff_ff00, 0x200) && !holds(0x108, u32::MAX));
    let last = WindowPlace { base: 0xffff_ff00, size: 0x100 };
    assert!(last.holds(u32::MAX, 1, Flaw::None) && last.holds(0xffff_ff00, 0x100, Flaw::None));
    assert!(!last.holds(u32::MAX, 2, Flaw::None) && !last.holds(0, 1, Flaw::None));
    let none = WindowPlace { base: 0x100, size: 0 };
    assert!(none.holds(0x100, 0, Flaw::None) && !none.holds(0x100, 1, Flaw::None));
    assert_eq!(WindowPlace::OF_A_LOG, WindowPlace { base: 0x4000_0000, size: 16_384 });
}

/// H10, D32, M8: granted up to the end of the space and from 0 on; a sum that wraps would pass.
#[test]
fn no_sum_wraps() {
    let regions =
        [region(0, 2, 0xffff_ff00, u32::MAX), region(0, 2, 0, 0xff), region(0, 2, BASE, BASE + 0xff)];
    let ended = |flaw: Flaw, bad: Extent| {
        let mut core = Core::fresh(with_regions(&regions), flaw);
        core.apply(Event::Start);
        core.apply(tick(0));
        core.apply(copy(&[bad])).notice.data
    };
    let up_to_end = extent(0xffff_ff00, BASE, 0x100);
    let past_end = extent(BASE, 0xffff_fff0, 0x20);
    assert_eq!(ended(Flaw::None, up_to_end), 0xffff_ff00);
    assert_eq!(ended(Flaw::None, past_end), 0xffff_fff0);
    assert_eq!([Flaw::WindowWraps, Flaw::SumsWrap].map(|flaw| ended(flaw, up_to_end)), [0, 0]);
    assert_eq!(ended(Flaw::WindowWraps, past_end), 0xffff_fff0);
    assert_eq!(ended(Flaw::SumsWrap, past_end), 0);
}

/// R1 to R3, D35: before Start, while no VM runs, and in a state that is not sound; nothing changes.
#[test]
fn a_refused_copy_changes_nothing() {
    let good = copy(&[at(0, 0x10, 0x40)]);
    let mut window = p14_window();
    let mut core = Core::fresh(p14_config(), Flaw::None);
    for event in [good, counted_copy(9, &[])] {
        assert_eq!(core.apply_on(event, &mut window), Answer { refusal: 2, ..Answer::default() });
    }
    core.apply(Event::Start);
    assert_eq!(core.apply_on(good, &mut window), Answer { refusal: 5, ..Answer::default() });
    core.apply(tick(0));
    core.apply(Event::Stop { vm: 0 });
    let before = core.clone();
    for event in [good, counted_copy(9, &[]), copy(&[])] {
        assert_eq!(core.apply_on(event, &mut window), Answer { refusal: 5, ..Answer::default() });
    }
    assert_eq!(core, before);
    let mut unsound = p14_core(Flaw::None);
    unsound.config.queue_size = 17;
    assert_eq!(unsound.apply_on(good, &mut window), Answer { refusal: 1, ..Answer::default() });
    assert_eq!((unsound.state.running, window), (Some(0), p14_window()));
}

/// A8, T10, D14, D15, D34: a copy that fails removes its VM's entries and leaves the others; the table stays.
#[test]
fn a_copy_that_fails_is_as_a_fault() {
    let events =
        [Event::Start, tick(0), Event::Extra { vm: 0 }, Event::Extra { vm: 1 }, Event::Extra { vm: 0 }];
    let mut core = core_of(with_queue(4), &events);
    let mut faulted = core.clone();
    let answer = core.apply(copy(&[at(0, 0x40, 1)]));
    let notice = Notice { number: 3, vm: 0, code: 3, data: BASE };
    assert_eq!(answer, Answer { notice, removed: 2, ..Answer::default() });
    assert_eq!(
        (core.state.queue.entries(), core.state.queue.vm_counts),
        (&[1][..], [0, 1, 0, 0, 0, 0, 0, 0])
    );
    assert_eq!(faulted.apply(Event::Fault { code: 3, data: BASE }), answer);
    faulted.state.vms[0].address = 0x1010;
    assert_eq!(core, faulted, "but for the next address it is a Fault");
    assert_eq!(core.apply(Event::Restart { vm: 0 }).refusal, 0);
    assert_eq!(core.apply(tick(0)).running, Some(0));
}

/// D13, D22, D36: a copy delivers nothing, though a number is pending and enabled.
#[test]
fn a_copy_delivers_nothing() {
    let mut core = core_of(p14_config(), &[Event::Start, tick(0), write(12, 0x80), write(8, 0x80)]);
    let answer = core.apply(copy(&[at(0, 0x40, 4)]));
    assert_eq!(answer, Answer { running: Some(0), address: 0x1010, ..Answer::default() });
    assert_eq!(core.apply(call(0, 0, 0x1014)).delivered, Some(7), "it waited for a moment of D13");
}

/// D30: a Call for service 5 is an error with code 1, as any other service that there is not.
#[test]
fn service_5_is_no_copy() {
    let mut core = p14_core(Flaw::None);
    let notice = Notice { number: 3, vm: 0, code: 1, data: 5 };
    assert_eq!(core.apply(call(5, 0, 0x1010)), Answer { notice, ..Answer::default() });
}

/// H2, H9, D34: the regions of the VM that runs count, not those of another.
#[test]
fn each_vm_copies_what_is_its_own() {
    let shared = (BASE, BASE + 0xff);
    let regions = [region(0, 1, shared.0, shared.1), region(1, 2, shared.0, shared.1)];
    let mut core = core_of(with_regions(&regions), &[Event::Start, tick(0), tick(0), tick(0)]);
    assert_eq!(core.state.running, Some(1));
    assert_eq!(core.apply(copy(&[at(0, 0x40, 16)])).notice.number, 0);
    let mut core = core_of(with_regions(&regions), &[Event::Start, tick(0)]);
    let notice = Notice { number: 3, vm: 0, code: 3, data: BASE + 0x40 };
    assert_eq!(core.apply(copy(&[at(0, 0x40, 16)])).notice, notice);
    let mut core = core_of(worked_config(), &[Event::Start, tick(0)]);
    assert_eq!(core.apply(copy(&[at(0, 0x40, 0)])).notice.number, 0, "no byte, no region needed");
    assert_eq!(core.apply(copy(&[at(0, 0x40, 1)])).notice.data, BASE);
}

/// D37: no other event changes a byte, and no answer or state goes by the bytes.
#[test]
fn the_state_goes_by_the_place_of_the_window_alone() {
    let mut random = Random::of_case(7, 7);
    let (mut one, mut two) = (p14_core(Flaw::None), p14_core(Flaw::None));
    let mut full = Window::of_a_log(&[0xa5; 16_384]);
    let mut zero = Window::of_a_log(&[]);
    for _ in 0..3_000 {
        let event = any_event(&mut random);
        let before = full.clone();
        assert_eq!(one.apply_on(event, &mut full), two.apply_on(event, &mut zero), "{event:?}");
        assert_eq!(one, two);
        assert!(matches!(event, Event::Copy(_)) || before == full, "{event:?}");
    }
    assert_eq!(zero.bytes, [0; 16_384]);
}

/// What the extents make of the bytes, told in another way: each extent through a buffer of its own.
fn told(bytes: &[u8], request: &CopyRequest) -> Vec<u8> {
    let mut bytes = bytes.to_vec();
    for Extent { source, destination, length } in request.in_use() {
        if *length > 0 {
            let place = |address: &u32| (address - BASE) as usize;
            let taken: Vec<u8> = (0..*length as usize).map(|index| bytes[place(source) + index]).collect();
            for (index, byte) in taken.into_iter().enumerate() {
                bytes[place(destination) + index] = byte;
            }
        }
    }
    bytes
}

/// C11, D35, D36: over many runs a byte changes only at a copy that is done, and then as its extents say.
#[test]
fn c11_a_copy_is_seen_whole_or_not_at_all() {
    let maker = CaseMaker::new(17);
    let (mut done, mut failed) = (0, 0);
    for number in maker.edge_count()..maker.edge_count() + 400 {
        let case = maker.case(number);
        let Some(mut core) = common::runnable(&case.image, &case.log, Flaw::None) else {
            continue;
        };
        let mut window = Window::of_a_log(&Random::of_case(1, number as u64).bytes(16_384));
        for event in common::events_of(&case.log) {
            let before = window.bytes.clone();
            let answer = core.apply_on(event, &mut window);
            match event {
                Event::Copy(request) if answer.refusal == 0 && answer.notice.number == 0 => {
                    assert_eq!(window.bytes, told(&before, &request), "case {number}");
                    done += 1;
                }
                _ => assert_eq!(window.bytes, before, "case {number}, {event:?}"),
            }
            failed += usize::from(matches!(event, Event::Copy(_)) && answer.notice.number == 3);
        }
    }
    assert!(done > 500 && failed > 200, "{done} done, {failed} failed");
}

/// M8, D32 to D36: what the wrong twins make of the vectors.
#[test]
fn m8_the_wrong_copies_are_those_of_their_mistakes() {
    let bytes = |flaw: Flaw, event: Event| {
        let (mut core, mut window) = (p14_core(flaw), p14_window());
        core.apply_on(event, &mut window);
        window.bytes
    };
    let forwards = bytes(Flaw::CopiesForwards, copy(&[at(0, 0x10, 0x40)]));
    assert_eq!(forwards[0x10..0x50], (0..16).collect::<Vec<u8>>().repeat(4));
    let backwards = bytes(Flaw::CopiesBackwards, copy(&[at(0x10, 0, 0x40)]));
    assert_eq!(backwards[..0x40], (0x40..0x50).collect::<Vec<u8>>().repeat(4));
    let early = bytes(Flaw::CopiesBeforeAllChecked, copy(&[at(0, 0x40, 2), at(0, 0x80, 257)]));
    assert_eq!(early, p14_bytes_but([(0x40, 0), (0x41, 1)]));
    let old = bytes(Flaw::CopiesFromBeforeAll, copy(&[at(0, 0x40, 2), at(0x40, 0x100, 2)]));
    assert_eq!(old, p14_bytes_but([(0x40, 0), (0x41, 1), (0x100, 0x40), (0x101, 0x41)]));
    let code = |flaw: Flaw, event: Event| p14_core(flaw).apply(event).notice.code;
    let read_only = [copy(&[at(0, 0x180, 4)]), copy(&[at(0x180, 0, 4)])];
    assert_eq!(read_only.map(|event| code(Flaw::None, event)), [3, 0]);
    assert_eq!(read_only.map(|event| code(Flaw::CopyWaysSwapped, event)), [0, 3]);
    assert_eq!(read_only.map(|event| code(Flaw::CopyReadsDestination, event)), [0, 0]);
    let past_count = counted_copy(1, &[at(0, 0x40, 2), at(0, 0x80, 257)]);
    assert_eq!([Flaw::None, Flaw::CopyLooksPastCount].map(|flaw| code(flaw, past_count)), [0, 7]);
}

/// H8 to H11, D34: a wrong access query shows in the runs of copies as well.
#[test]
fn wrong_access_queries_show_in_the_fixed_copies() {
    let cases = copy_cases();
    let wrong = [
        Flaw::ReadAllowsWrite,
        Flaw::ExecuteAllowsRead,
        Flaw::WriteForbidsRead,
        Flaw::AnyHolderGrants,
        Flaw::OneRegionCovers,
        Flaw::AdjoiningIsGap,
        Flaw::FirstByteCounts,
        Flaw::EndsCount,
        Flaw::LastByteLeftOut,
        Flaw::NoRegionsGrantAll,
    ];
    for flaw in wrong {
        let apart = |flaw: Flaw| {
            cases.iter().any(|case| {
                many_text(&case.image, &case.log, flaw) != many_text(&case.image, &case.log, Flaw::None)
            })
        };
        assert!(apart(flaw), "{flaw:?}");
    }
}

/// S10, D31 to D36: a twin with one of these broken is told from the right one by the fixed copies alone.
#[test]
fn every_wrong_copy_is_found_by_the_fixed_cases() {
    let cases = copy_cases();
    let of_copies = |flaw: &Flaw| {
        let name = format!("{flaw:?}");
        ["Copy", "Window", "SumsWrap", "ServiceFive"].iter().any(|word| name.contains(word))
    };
    let wrong: Vec<Flaw> = Flaw::WRONG_RUNS.into_iter().map(|(flaw, _)| flaw).filter(of_copies).collect();
    // The one that is left out has kind 0x19, which stands among the cut logs.
    assert_eq!(wrong.len(), 46);
    for flaw in wrong.into_iter().filter(|flaw| *flaw != Flaw::KindNineteenIsCopy) {
        let apart = cases.iter().any(|case| {
            many_text(&case.image, &case.log, flaw) != many_text(&case.image, &case.log, Flaw::None)
        });
        assert!(apart, "{flaw:?}");
    }
}

/// H6: the regions of P14 to P22 are legal, and VM 0 holds four.
#[test]
fn the_configuration_of_the_vectors_is_legal() {
    let config = p14_config();
    assert!(config.legal());
    assert_eq!((config.regions_of(0), config.regions_of(1)), (4, 0));
    let ends: Vec<u64> = config.memory().iter().map(|region: &Region| region.bytes().end).collect();
    assert_eq!(ends, [0x4000_0080, 0x4000_0180, 0x4000_01c0, 0x4000_0500]);
}
