//! One access query beside its configuration: which regions its bytes lie in, looked at region by region.

use crate::access::grants::END_OF_SPACE;
use crate::access::query::Query;
use crate::core::config::Config;
use crate::core::flaw::Flaw;
use crate::core::region::Region;

/// A query, its configuration and its answer.
pub struct View<'a> {
    pub config: &'a Config,
    pub query: Query,
    pub yes: bool,
}

impl View<'_> {
    pub fn start(&self) -> u64 {
        u64::from(self.query.address)
    }

    pub fn end(&self) -> u64 {
        self.start() + u64::from(self.query.length)
    }

    /// The regions of the query's VM.
    pub fn own(&self) -> impl Iterator<Item = &Region> {
        self.config.memory().iter().filter(|region| region.holder == self.query.vm)
    }

    /// Those of them that allow its way.
    pub fn allowing(&self) -> impl Iterator<Item = &Region> {
        self.own().filter(|region| region.allows(self.query.way, Flaw::None))
    }

    pub fn grants_byte(&self, byte: u64) -> bool {
        self.allowing().any(|region| region.bytes().contains(&byte))
    }

    /// Is all from the first byte to the end of the space in one region?
    pub fn starts_in_last_region(&self) -> bool {
        self.allowing().any(|region| covers(region, self.start(), END_OF_SPACE))
    }
}

pub fn touches(region: &Region, start: u64, end: u64) -> bool {
    region.bytes().start < end && start < region.bytes().end
}

pub fn covers(region: &Region, start: u64, end: u64) -> bool {
    region.bytes().start <= start && end <= region.bytes().end
}

/// Is each byte of a range in one of some regions? Goes from one byte that is not yet covered to the next.
pub fn bytes_covered(regions: &[&Region], start: u64, end: u64) -> bool {
    let mut at = start;
    while at < end {
        let reached =
            regions.iter().filter(|region| region.bytes().contains(&at)).map(|region| region.bytes().end);
        match reached.max() {
            Some(next) => at = next,
            None => return false,
        }
    }
    true
}
