//! What the program `access` prints for an image and a file of queries (rules N22 to N25).

use crate::access::grants::Grants;
use crate::access::query::{queries_of, Query};
use crate::core::config::Config;
use crate::core::flaw::Flaw;
use crate::core::limits::{MAX_QUERIES_BYTES, QUERY_BYTES};
use crate::image::read::read_image;
use crate::run::digits::push_words;
use crate::run::text::push_fault;

const LONG: &[u8] = b"long\n";

/// The whole text: a line for each query, or what is wrong with the files.
pub fn access_text(image: &[u8], queries: &[u8], flaw: Flaw) -> Vec<u8> {
    let mut text = Vec::new();
    let long = is_long(queries, flaw);
    match read_image(image, flaw) {
        _ if long && flaw == Flaw::LongBeforeImage => text.extend_from_slice(LONG),
        Err(_) if flaw == Flaw::RefusedImageAnswersNo => {
            push_answers(&mut text, &Config::zero(), queries, flaw)
        }
        Err(fault) => push_fault(&mut text, fault),
        Ok(config) if long && flaw == Flaw::LongAfterAnswers => {
            push_answers(&mut text, &config, &queries[..MAX_QUERIES_BYTES], flaw);
            text.extend_from_slice(LONG);
        }
        Ok(_) if long => text.extend_from_slice(LONG),
        Ok(config) => push_answers(&mut text, &config, queries, flaw),
    }
    text
}

/// N25
fn is_long(queries: &[u8], flaw: Flaw) -> bool {
    match flaw {
        Flaw::LongIsAnswered => false,
        Flaw::LargestIsLong => queries.len() >= MAX_QUERIES_BYTES,
        _ => queries.len() > MAX_QUERIES_BYTES,
    }
}

/// N23, and N24 for what is left behind the last whole record.
fn push_answers(text: &mut Vec<u8>, config: &Config, bytes: &[u8], flaw: Flaw) {
    let grants = Grants::of(config, flaw);
    let (queries, rest) = queries_of(bytes, flaw);
    for query in &queries {
        push_answer(text, &grants, *query);
    }
    if rest.is_empty() || flaw == Flaw::CutIsDropped {
        return;
    }
    if flaw == Flaw::CutIsFilled {
        let mut record = [0; QUERY_BYTES];
        record[..rest.len()].copy_from_slice(rest);
        return push_answer(text, &grants, Query::of(record, flaw));
    }
    let first = if flaw == Flaw::CutCountsFromZero { 0 } else { 1 };
    push_words(text, b"cut", &[first + queries.len() as u64]);
    text.push(b'\n');
}

fn push_answer(text: &mut Vec<u8>, grants: &Grants, query: Query) {
    text.extend_from_slice(if grants.answer(query) { b"yes\n" } else { b"no\n" });
}
