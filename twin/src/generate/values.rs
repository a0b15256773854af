//! Values for generated events: addresses, bit masks, arguments, offsets, and events of any kind.

use crate::core::event::Event;
use crate::generate::copies::any_copy;
use crate::generate::random::Random;

pub fn address(random: &mut Random) -> u32 {
    match random.below(10) {
        0 => random.pick(&[0, 1, u32::MAX, 0x8000_0000]),
        1..=3 => random.word(),
        _ => 0x1000 + 4 * random.below(0x2000) as u32,
    }
}

/// A field value: no bit, one bit, a few, many, all.
pub fn mask(random: &mut Random) -> u32 {
    match random.below(8) {
        0 => 0,
        1 => u32::MAX,
        2..=4 => 1 << random.below(32),
        5 => random.word() & random.word() & random.word(),
        6 => random.word() | random.word(),
        _ => random.word(),
    }
}

/// An argument of a call. Service 2 mostly gets a number that it takes.
pub fn argument(random: &mut Random, service: u8) -> u32 {
    match random.below(20) {
        0 => random.pick(&[31, 32, 33, 63, 64, 0x100, 0x1_0003, 0x8000_0000, u32::MAX]),
        1 if service != 2 => random.word(),
        _ => random.below(32) as u32,
    }
}

/// The offset of a status field, those of the interrupt fields more often.
pub fn write_offset(random: &mut Random) -> u8 {
    let index = random.weighted(&[5, 5, 30, 10, 6, 4, 12, 4, 16, 8]);
    4 * index as u8
}

/// Any event with any content, to be refused as often as not.
pub fn any_event(random: &mut Random) -> Event {
    let vm = any_vm(random);
    match random.below(10) {
        0 => Event::Start,
        1 => Event::Tick { address: address(random) },
        2 => Event::Stop { vm },
        3 => Event::Shutdown { vm },
        4 => Event::Restart { vm },
        5 => Event::Extra { vm },
        6 => {
            let service = if random.percent(70) { random.below(7) as u8 } else { random.byte() };
            Event::Call { service, argument: argument(random, service), next: address(random) }
        }
        7 => {
            let offset = if random.percent(80) { random.below(44) as u8 } else { random.byte() };
            Event::Write { offset, value: mask(random) }
        }
        8 => {
            let code = if random.percent(80) { random.below(8) as u8 } else { random.byte() };
            Event::Fault { code, data: address(random) }
        }
        _ => Event::Copy(any_copy(random)),
    }
}

fn any_vm(random: &mut Random) -> u8 {
    match random.below(10) {
        0 => random.pick(&[8, 9, 16, 128, 255]),
        _ => random.below(9) as u8,
    }
}
