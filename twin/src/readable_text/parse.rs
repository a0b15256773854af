//! From the readable text to bytes: one record a line, comments from '#' to the line's end.

use crate::access::folder::AccessFolder;
use crate::access::query::Query;
use crate::core::config::SPARE;
use crate::core::event::{CopyRequest, Event, Extent};
use crate::core::limits::{MAX_EXTENTS, MAX_REPORT_LOGS};
use crate::core::region::Region;
use crate::image::read::{KIND_CORE, KIND_END, KIND_SLOT, KIND_VM};
use crate::image::write::region_record;
use crate::log::write::write_record;
use crate::readable_text::words::Words;
use crate::report::folder::ReportFolder;
use crate::run::frames::Case;

/// What is wrong with a text, and in which line (from 1).
#[derive(Debug, PartialEq, Eq)]
pub struct TextError {
    pub line: usize,
    pub message: String,
}

/// What stands behind the image of a text: parts that each begin with a line of one word.
struct Form {
    word: &'static str,
    plural: &'static str,
    most: usize,
    /// Appends the record of a line, by its first word and the others, to the bytes of its part.
    push: fn(&str, &mut Words, &mut Vec<u8>) -> Result<(), String>,
}

const ONE_LOG: Form = Form { word: "log", plural: "logs", most: 1, push: push_event };
const LOGS: Form = Form { most: MAX_REPORT_LOGS, ..ONE_LOG };
const QUERIES: Form = Form { word: "queries", plural: "parts of queries", most: 1, push: push_query };

/// The image and the log that a text describes.
pub fn case_of(text: &str) -> Result<Case, TextError> {
    let Parts { image, mut others } = parts_of(text, &ONE_LOG)?;
    Ok(Case { image, log: others.pop().unwrap_or_default() })
}

/// The image and the logs that a text describes.
pub fn report_folder_of(text: &str) -> Result<ReportFolder, TextError> {
    let Parts { image, others } = parts_of(text, &LOGS)?;
    Ok(ReportFolder::of(&image, others))
}

/// The image and the queries that a text describes.
pub fn access_folder_of(text: &str) -> Result<AccessFolder, TextError> {
    let Parts { image, mut others } = parts_of(text, &QUERIES)?;
    Ok(AccessFolder::of(&image, &others.pop().unwrap_or_default()))
}

/// The bytes of the image, and of each part behind it in order.
#[derive(Default)]
struct Parts {
    image: Vec<u8>,
    others: Vec<Vec<u8>>,
}

fn parts_of(text: &str, form: &Form) -> Result<Parts, TextError> {
    let mut parts = Parts::default();
    for (index, line) in text.lines().enumerate() {
        let mut words = Words::of(line);
        let Some(word) = words.next() else {
            continue;
        };
        let outcome = push_line(word, &mut words, form, &mut parts);
        let done = outcome.and_then(|()| words.finish());
        done.map_err(|message| TextError { line: index + 1, message })?;
    }
    Ok(parts)
}

/// Takes a line in: the beginning of a part, raw bytes, or a record of the image or of the last part.
fn push_line(word: &str, words: &mut Words, form: &Form, parts: &mut Parts) -> Result<(), String> {
    if word == form.word {
        return begin_part(form, &mut parts.others);
    }
    match (word, parts.others.last_mut()) {
        ("raw", None) => push_raw(words, &mut parts.image),
        ("raw", Some(part)) => push_raw(words, part),
        (_, None) => push_image_record(word, words, &mut parts.image, form.word),
        (_, Some(part)) => (form.push)(word, words, part),
    }
}

fn begin_part(form: &Form, parts: &mut Vec<Vec<u8>>) -> Result<(), String> {
    let Form { word, plural, most, .. } = form;
    if parts.len() == *most {
        return Err(unknown(word, &format!("no more {plural} than {most}")));
    }
    parts.push(Vec::new());
    Ok(())
}

/// The word that begins what stands behind the image is known to the message alone.
fn push_image_record(word: &str, words: &mut Words, image: &mut Vec<u8>, behind: &str) -> Result<(), String> {
    match word {
        "core" => {
            let (vms, queue) = (words.labelled("vms", 8)?, words.labelled("queue", 8)?);
            image.extend([KIND_CORE, vms as u8, queue as u8]);
        }
        "vm" => {
            let (entry, handler) = (words.labelled("entry", 32)?, words.labelled("handler", 32)?);
            image.push(KIND_VM);
            image.extend(entry.to_le_bytes());
            image.extend(handler.to_le_bytes());
        }
        "region" => image.extend(region_record(&region_of(words)?, false)),
        "slot" => {
            let owner = slot_owner(words)?;
            let ticks = words.labelled("ticks", 16)? as u16;
            image.extend([KIND_SLOT, owner]);
            image.extend(ticks.to_le_bytes());
        }
        "end" => image.push(KIND_END),
        _ => return Err(unknown(word, &format!("core, vm, region, slot, end, raw or {behind}"))),
    }
    Ok(())
}

fn region_of(words: &mut Words) -> Result<Region, String> {
    let (holder, permission) = (words.labelled("vm", 8)? as u8, words.labelled("permission", 8)? as u8);
    let (start, last) = (words.labelled("start", 32)?, words.labelled("last", 32)?);
    Ok(Region { holder, permission, start, last })
}

fn slot_owner(words: &mut Words) -> Result<u8, String> {
    match words.next() {
        Some("spare") => Ok(SPARE),
        Some("vm") => Ok(words.number("vm", 8)? as u8),
        Some(other) => Err(unknown(other, "'vm NUMBER' or 'spare'")),
        None => Err(String::from("the line ends where 'vm NUMBER' or 'spare' should stand")),
    }
}

fn push_event(word: &str, words: &mut Words, log: &mut Vec<u8>) -> Result<(), String> {
    event_of(word, words).map(|event| write_record(event, log))
}

fn push_query(word: &str, words: &mut Words, queries: &mut Vec<u8>) -> Result<(), String> {
    if word != "query" {
        return Err(unknown(word, "query or raw"));
    }
    let (vm, way) = (words.labelled("vm", 8)? as u8, words.labelled("way", 8)? as u8);
    let (address, length) = (words.labelled("address", 32)?, words.labelled("length", 32)?);
    queries.extend(Query { vm, way, address, length }.record());
    Ok(())
}

fn event_of(word: &str, words: &mut Words) -> Result<Event, String> {
    match word {
        "start" => Ok(Event::Start),
        "tick" => Ok(Event::Tick { address: words.number("tick", 32)? }),
        "stop" => Ok(Event::Stop { vm: words.number("stop", 8)? as u8 }),
        "shutdown" => Ok(Event::Shutdown { vm: words.number("shutdown", 8)? as u8 }),
        "restart" => Ok(Event::Restart { vm: words.number("restart", 8)? as u8 }),
        "extra" => Ok(Event::Extra { vm: words.number("extra", 8)? as u8 }),
        "call" => {
            let service = words.labelled("service", 8)? as u8;
            let (argument, next) = (words.labelled("argument", 32)?, words.labelled("next", 32)?);
            Ok(Event::Call { service, argument, next })
        }
        "write" => {
            let offset = words.labelled("offset", 8)? as u8;
            Ok(Event::Write { offset, value: words.labelled("value", 32)? })
        }
        "fault" => {
            let code = words.labelled("code", 8)? as u8;
            Ok(Event::Fault { code, data: words.labelled("data", 32)? })
        }
        "copy" => Ok(Event::Copy(copy_request_of(words)?)),
        _ => {
            let known = "start, tick, stop, shutdown, restart, extra, call, write, fault, copy or raw";
            Err(unknown(word, known))
        }
    }
}

/// The count and the next address, then up to eight extents; those that the line leaves out are zero.
fn copy_request_of(words: &mut Words) -> Result<CopyRequest, String> {
    let (count, next) = (words.labelled("count", 8)? as u8, words.labelled("next", 32)?);
    let mut named = Vec::new();
    while let Some(word) = words.next() {
        if word != "extent" {
            return Err(unknown(word, "'extent SOURCE DESTINATION LENGTH'"));
        }
        if named.len() == MAX_EXTENTS {
            return Err(unknown(word, &format!("no more extents than {MAX_EXTENTS}")));
        }
        let (source, destination) = (words.number("extent", 32)?, words.number("extent", 32)?);
        named.push(Extent { source, destination, length: words.number("extent", 32)? });
    }
    Ok(CopyRequest { count, ..CopyRequest::of(next, &named) })
}

/// The bytes of a `raw` line: two hexadecimal digits each.
fn push_raw(words: &mut Words, bytes: &mut Vec<u8>) -> Result<(), String> {
    for word in words.by_ref() {
        let whole = word.len() == 2 && word.bytes().all(|digit| digit.is_ascii_hexdigit());
        match u8::from_str_radix(word, 16) {
            Ok(byte) if whole => bytes.push(byte),
            _ => return Err(format!("'{word}' is not a byte of two hexadecimal digits")),
        }
    }
    Ok(())
}

fn unknown(word: &str, known: &str) -> String {
    format!("'{word}' is not known here; expected {known}")
}
