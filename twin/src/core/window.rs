//! The window that a Copy works on (E14): where it lies (D32), and its bytes as the copies leave them (D36).

use std::ops::Range;

use crate::core::event::Extent;
use crate::core::flaw::Flaw;
use crate::core::limits::{WINDOW_BASE, WINDOW_BYTES};

/// Behind the last address of the 32-bit space; sums that wrap do so here.
const SPACE: u64 = 1 << 32;

/// The base and the size of a window: all that the state and the answers go by (D37).
#[derive(Clone, Copy, Debug, PartialEq, Eq)]
pub struct WindowPlace {
    pub base: u32,
    pub size: u64,
}

impl WindowPlace {
    /// What a log is run with (L6).
    pub const OF_A_LOG: WindowPlace = WindowPlace { base: WINDOW_BASE, size: WINDOW_BYTES as u64 };

    /// The addresses of the window; the end may lie past the 32-bit space.
    pub fn addresses(&self) -> Range<u64> {
        u64::from(self.base)..u64::from(self.base) + self.size
    }

    /// D32: does a range of so many bytes lie in the window? The sums do not wrap.
    pub fn holds(&self, address: u32, length: u32, flaw: Flaw) -> bool {
        let Range { start, end } = self.addresses();
        let first = u64::from(address);
        let sum = first + u64::from(length);
        match flaw {
            Flaw::WindowIgnored => true,
            Flaw::WindowBaseIgnored => sum <= end,
            Flaw::WindowByFirstByte => start <= first && first < end,
            Flaw::WindowBeginsEarly => start <= first + 1 && sum <= end,
            Flaw::WindowBeginsLate => start < first && sum <= end,
            Flaw::WindowEndsLate => start <= first && sum <= end + 1,
            Flaw::WindowEndsEarly => start <= first && sum < end,
            Flaw::WindowWraps | Flaw::SumsWrap => start <= first && sum % SPACE <= end,
            _ => start <= first && sum <= end,
        }
    }
}

/// A window with its bytes.
#[derive(Clone, Debug, PartialEq, Eq)]
pub struct Window {
    pub base: u32,
    pub bytes: Vec<u8>,
}

impl Window {
    /// The window of a log: its base (L6), so many bytes of a memory as fit, and zeros behind them (N26).
    pub fn of_a_log(memory: &[u8]) -> Window {
        let mut bytes = memory[..memory.len().min(WINDOW_BYTES)].to_vec();
        bytes.resize(WINDOW_BYTES, 0);
        Window { base: WINDOW_BASE, bytes }
    }

    pub fn place(&self) -> WindowPlace {
        WindowPlace { base: self.base, size: self.bytes.len() as u64 }
    }

    /// Copies some extents in their order (D36).
    pub fn take_copies(&mut self, extents: &[Extent], flaw: Flaw) {
        let first = if flaw == Flaw::CopiesFromBeforeAll { self.bytes.clone() } else { Vec::new() };
        let mut extents = extents.to_vec();
        if flaw == Flaw::CopiesLastExtentFirst {
            extents.reverse();
        }
        for extent in extents {
            match self.places_of(extent, flaw) {
                Some((source, destination)) if flaw == Flaw::CopiesFromBeforeAll => {
                    self.bytes[destination].copy_from_slice(&first[source]);
                }
                Some((source, destination)) => self.take_copy(source, destination, flaw),
                // Only a wrong twin comes here: it has let through what is not in the window.
                None => {}
            }
        }
    }

    /// Where the source and the destination of an extent lie among the bytes.
    fn places_of(&self, extent: Extent, flaw: Flaw) -> Option<(Range<usize>, Range<usize>)> {
        let Extent { source, destination, length } = extent;
        let length = match flaw {
            Flaw::CopiesOneByteLess => length.saturating_sub(1),
            _ => length,
        };
        let place = |address: u32| {
            let first = address.checked_sub(self.base)? as usize;
            let end = first.checked_add(length as usize)?;
            (end <= self.bytes.len()).then_some(first..end)
        };
        let (one, two) = (place(source)?, place(destination)?);
        Some(if flaw == Flaw::CopiesOtherWay { (two, one) } else { (one, two) })
    }

    /// One extent takes its bytes as they stood before it was copied (D36).
    fn take_copy(&mut self, source: Range<usize>, destination: Range<usize>, flaw: Flaw) {
        let bytes = &mut self.bytes;
        match flaw {
            Flaw::CopiesForwards => {
                source.zip(destination).for_each(|(from, to)| bytes[to] = bytes[from]);
            }
            Flaw::CopiesBackwards => {
                source.zip(destination).rev().for_each(|(from, to)| bytes[to] = bytes[from]);
            }
            Flaw::CopiesAndClears => {
                let taken = bytes[source.clone()].to_vec();
                bytes[source].fill(0);
                bytes[destination].copy_from_slice(&taken);
            }
            _ => bytes.copy_within(source, destination.start),
        }
    }
}
