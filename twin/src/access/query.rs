//! One access query and its record of ten bytes (rules H8 and N22).

use crate::core::flaw::Flaw;
use crate::core::limits::QUERY_BYTES;

#[derive(Clone, Copy, Debug, Default, PartialEq, Eq)]
pub struct Query {
    pub vm: u8,
    pub way: u8,
    pub address: u32,
    pub length: u32,
}

impl Query {
    /// The query of a whole record.
    pub fn of(record: [u8; QUERY_BYTES], flaw: Flaw) -> Query {
        let [one, two, a0, a1, a2, a3, l0, l1, l2, l3] = record;
        let (vm, way) = if flaw == Flaw::QueryWayFirst { (two, one) } else { (one, two) };
        let number = match flaw {
            Flaw::QueryHighByteFirst => u32::from_be_bytes,
            _ => u32::from_le_bytes,
        };
        Query { vm, way, address: number([a0, a1, a2, a3]), length: number([l0, l1, l2, l3]) }
    }

    /// The record of a query.
    pub fn record(&self) -> [u8; QUERY_BYTES] {
        let [a0, a1, a2, a3] = self.address.to_le_bytes();
        let [l0, l1, l2, l3] = self.length.to_le_bytes();
        [self.vm, self.way, a0, a1, a2, a3, l0, l1, l2, l3]
    }
}

/// The bytes of a list of queries.
pub fn records_of(queries: &[Query]) -> Vec<u8> {
    queries.iter().flat_map(Query::record).collect()
}

/// The whole queries of a file, and the bytes of a record that is cut behind them.
pub fn queries_of(bytes: &[u8], flaw: Flaw) -> (Vec<Query>, &[u8]) {
    let (records, rest) = bytes.as_chunks::<QUERY_BYTES>();
    (records.iter().map(|record| Query::of(*record, flaw)).collect(), rest)
}
