//! Copies for the cases: mostly such that are done, with overlaps and chains; some that fail, often late; and
//! wild ones.

use std::ops::Range;

use crate::access::grants::{Grants, Stretch};
use crate::core::config::Config;
use crate::core::event::{CopyRequest, Extent};
use crate::core::flaw::Flaw;
use crate::core::limits::{MAX_EXTENTS, MAX_EXTENT_BYTES, WINDOW_BASE, WINDOW_BYTES};
use crate::core::region::{WAY_READ, WAY_WRITE};
use crate::core::window::WindowPlace;
use crate::generate::random::Random;
use crate::generate::values::address;

const LENGTHS: [u64; 12] = [0, 1, 1, 2, 4, 16, 31, 32, 64, 200, 255, 256];

/// Lengths over 256, some of them with small low bytes.
const TOO_LONG: [u32; 8] = [MAX_EXTENT_BYTES + 1, 257, 258, 512, 0x1_0000, 0x1_0010, 0x8000_0000, u32::MAX];

/// What a VM may read and write of the window.
pub struct Room {
    readable: Vec<Stretch>,
    writable: Vec<Stretch>,
}

impl Room {
    pub fn of(config: &Config, vm: u8) -> Room {
        let grants = Grants::of(config, Flaw::None);
        let window = WindowPlace::OF_A_LOG.addresses();
        let within = |way: u8| {
            let cut = |stretch: &Stretch| stretch.start.max(window.start)..stretch.end.min(window.end);
            grants.stretches(vm, way).iter().map(cut).filter(|stretch| !stretch.is_empty()).collect()
        };
        Room { readable: within(WAY_READ), writable: within(WAY_WRITE) }
    }

    /// Can a byte be copied at all?
    pub fn is_there(&self) -> bool {
        !self.readable.is_empty() && !self.writable.is_empty()
    }

    fn may_read(&self, bytes: &Range<u64>) -> bool {
        self.readable.iter().any(|stretch| stretch.start <= bytes.start && bytes.end <= stretch.end)
    }
}

/// A Copy for a VM with room: mostly one that is done.
pub fn copy_request(random: &mut Random, room: &Room) -> CopyRequest {
    let count = match random.below(12) {
        0 => 0,
        1..=2 => MAX_EXTENTS,
        3..=7 => random.between(1, 3),
        _ => random.between(2, 7),
    };
    let mut named: Vec<Extent> = Vec::new();
    for _ in 0..count {
        named.push(good_extent(random, room, &named));
    }
    let mut request = CopyRequest::of(address(random), &named);
    fill_past_count(random, room, &mut request);
    if random.percent(15) {
        spoil(random, room, &mut request);
    }
    request
}

/// The extents that nobody looks at: zeros, good ones or wild ones.
fn fill_past_count(random: &mut Random, room: &Room, request: &mut CopyRequest) {
    let style = random.below(3);
    for index in usize::from(request.count)..MAX_EXTENTS {
        request.extents[index] = match style {
            0 => Extent::default(),
            1 => good_extent(random, room, &[]),
            _ => wild_extent(random),
        };
    }
}

/// An extent that passes; often it overlaps itself, or takes what an earlier one wrote.
fn good_extent(random: &mut Random, room: &Room, earlier: &[Extent]) -> Extent {
    if random.percent(4) {
        return Extent { length: 0, ..wild_extent(random) };
    }
    let (from, to) = (some_stretch(random, &room.readable), some_stretch(random, &room.writable));
    let most = (from.end - from.start).min(to.end - to.start);
    let length = random.pick(&LENGTHS).min(most);
    let destination = place(random, &to, length);
    let wish = match (random.below(10), earlier) {
        (0..=3, _) => destination.wrapping_add_signed(random.pick(&[-33, -16, -4, -1, 0, 1, 3, 16, 40])),
        (4..=6, [.., last]) => u64::from(last.destination) + random.pick(&[0, 0, 1, 8]),
        _ => place(random, &from, length),
    };
    let fits = room.may_read(&(wish..wish.saturating_add(length)));
    let source = if fits { wish } else { place(random, &from, length) };
    Extent { source: source as u32, destination: destination as u32, length: length as u32 }
}

/// A stretch, the longer ones more often.
fn some_stretch(random: &mut Random, stretches: &[Stretch]) -> Stretch {
    let (one, two) = (random.below(stretches.len()), random.below(stretches.len()));
    let length = |index: usize| stretches[index].end - stretches[index].start;
    stretches[if length(one) < length(two) { two } else { one }].clone()
}

/// Where so many bytes lie in a stretch: at its front, at its end, or anywhere.
fn place(random: &mut Random, stretch: &Stretch, length: u64) -> u64 {
    let last = stretch.end - length;
    match random.below(8) {
        0 => stretch.start,
        1 => last,
        _ => stretch.start + random.below((last - stretch.start + 1) as usize) as u64,
    }
}

/// Makes a Copy fail, mostly in a late extent; often later ones are bad as well.
fn spoil(random: &mut Random, room: &Room, request: &mut CopyRequest) {
    let count = usize::from(request.count);
    if count == 0 || random.percent(15) {
        request.count = random.pick(&[9, 9, 10, 16, 128, 255]);
        return;
    }
    let first = if random.percent(50) { count - 1 } else { random.below(count) };
    spoil_extent(random, room, &mut request.extents[first]);
    for extent in &mut request.extents[first + 1..] {
        if random.percent(30) {
            spoil_extent(random, room, extent);
        }
    }
}

fn spoil_extent(random: &mut Random, room: &Room, extent: &mut Extent) {
    match random.below(9) {
        0..=1 => extent.length = random.pick(&TOO_LONG),
        2 => extent.source = wild_address(random),
        3 => extent.destination = wild_address(random),
        4 => extent.source = extent.source.wrapping_add(random.pick(&[256, 0x4000, 0xc000_0000])),
        // What may be read: often it may not be written.
        5 => extent.destination = some_stretch(random, &room.readable).start as u32,
        6 => (extent.source, extent.length) = over_an_end(random),
        7 => (extent.destination, extent.length) = over_an_end(random),
        _ => *extent = wild_extent(random),
    }
}

/// A range over an end of the window, by one byte or more; there may be regions that reach so far.
fn over_an_end(random: &mut Random) -> (u32, u32) {
    let (inside, outside) = (random.between(1, 16) as u32, random.pick(&[1, 1, 8]));
    let end = WINDOW_BASE + WINDOW_BYTES as u32;
    let first = if random.percent(50) { WINDOW_BASE - outside } else { end - inside };
    (first, inside + outside)
}

/// Any Copy, mostly a bad one.
pub fn any_copy(random: &mut Random) -> CopyRequest {
    let count = random.pick(&[0, 1, 1, 1, 2, 3, 7, 8, 9, 10, 128, 255]);
    let mut request = CopyRequest { count, next: address(random), ..CopyRequest::default() };
    for extent in &mut request.extents {
        *extent = wild_extent(random);
    }
    request
}

fn wild_extent(random: &mut Random) -> Extent {
    let length = match random.below(10) {
        0 => random.pick(&TOO_LONG),
        1 => random.word(),
        _ => random.pick(&LENGTHS) as u32,
    };
    Extent { source: wild_address(random), destination: wild_address(random), length }
}

/// About the ends of the window, in it, about the ends of the space, anywhere.
fn wild_address(random: &mut Random) -> u32 {
    let near = random.pick(&[0, 1, 2, 15, 16, 128, 255, 256, 257]);
    let end = WINDOW_BASE + WINDOW_BYTES as u32;
    match random.below(8) {
        0 => WINDOW_BASE - near,
        1 => end - near,
        2 => end + near,
        3 => u32::MAX - near,
        4 => near,
        5..=6 => WINDOW_BASE + random.below(WINDOW_BYTES) as u32,
        _ => random.word(),
    }
}
