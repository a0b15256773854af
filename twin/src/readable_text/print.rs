//! From bytes to the readable text: the lines of an image, of a log and of access queries.

use std::fmt::Write;

use crate::access::folder::AccessFolder;
use crate::access::query::{queries_of, Query};
use crate::core::config::SPARE;
use crate::core::event::{CopyRequest, Event, Extent};
use crate::core::flaw::Flaw;
use crate::image::read::{image_body_length, KIND_CORE, KIND_END, KIND_REGION, KIND_SLOT, KIND_VM};
use crate::log::read::{read_record, Record};
use crate::report::folder::ReportFolder;
use crate::run::frames::Case;

/// The text of an image and a log. Packing it gives the same bytes again, whatever they are.
pub fn text_of(case: &Case) -> String {
    text_of_parts(&case.image, [case.log.as_slice()])
}

/// The text of an image and the logs that a report reads.
pub fn report_folder_text(folder: &ReportFolder) -> String {
    text_of_parts(folder.image_bytes(), folder.listed().iter().map(Vec::as_slice))
}

/// The text of an image and its access queries. Packing it gives the same bytes again, whatever they are.
pub fn access_folder_text(folder: &AccessFolder) -> String {
    let mut text = String::new();
    print_image(&mut text, folder.image_bytes());
    text.push_str("\nqueries\n");
    let (queries, rest) = queries_of(folder.query_bytes(), Flaw::None);
    for query in queries {
        text.push_str(&query_line(query));
        text.push('\n');
    }
    print_raw(&mut text, rest);
    text
}

fn text_of_parts<'a>(image: &[u8], logs: impl IntoIterator<Item = &'a [u8]>) -> String {
    let mut text = String::new();
    print_image(&mut text, image);
    for log in logs {
        text.push_str("\nlog\n");
        print_log(&mut text, log);
    }
    text
}

/// Whole records one by one; from the first byte that begins none, the rest as it is.
fn print_image(text: &mut String, image: &[u8]) {
    let mut at = 0;
    while at < image.len() {
        let length = image_body_length(image[at]);
        let Some(body) = length.and_then(|length| image.get(at + 1..at + 1 + length)) else {
            return print_raw(text, &image[at..]);
        };
        text.push_str(&image_line(image[at], body));
        text.push('\n');
        at += 1 + body.len();
    }
}

/// The line of a whole image record.
fn image_line(kind: u8, body: &[u8]) -> String {
    let long = |at: usize| u32::from_le_bytes([body[at], body[at + 1], body[at + 2], body[at + 3]]);
    match kind {
        KIND_CORE => format!("core vms {} queue {}", body[0], body[1]),
        KIND_VM => format!("vm entry {:#x} handler {:#x}", long(0), long(4)),
        KIND_SLOT => {
            let ticks = u16::from_le_bytes([body[1], body[2]]);
            match body[0] {
                SPARE => format!("slot spare ticks {ticks}"),
                owner => format!("slot vm {owner} ticks {ticks}"),
            }
        }
        KIND_END => String::from("end"),
        KIND_REGION => {
            let (holder, permission) = (body[0], body[1]);
            format!("region vm {holder} permission {permission} start {:#x} last {:#x}", long(2), long(6))
        }
        _ => String::new(),
    }
}

fn print_log(text: &mut String, log: &[u8]) {
    let mut at = 0;
    loop {
        match read_record(log, at) {
            Record::End => return,
            Record::Unreadable(offset) => return print_raw(text, &log[offset..]),
            Record::Event(event, next) => {
                text.push_str(&event_line(event));
                text.push('\n');
                at = next;
            }
        }
    }
}

/// The line of an event.
pub fn event_line(event: Event) -> String {
    match event {
        Event::Start => String::from("start"),
        Event::Tick { address } => format!("tick {address:#x}"),
        Event::Stop { vm } => format!("stop {vm}"),
        Event::Shutdown { vm } => format!("shutdown {vm}"),
        Event::Restart { vm } => format!("restart {vm}"),
        Event::Extra { vm } => format!("extra {vm}"),
        Event::Call { service, argument, next } => {
            format!("call service {service} argument {argument} next {next:#x}")
        }
        Event::Write { offset, value } => format!("write offset {offset} value {value:#x}"),
        Event::Fault { code, data } => format!("fault code {code} data {data:#x}"),
        Event::Copy(request) => copy_line(&request),
    }
}

/// The line of a Copy. Extents of zeros at its end are left out, within the count too.
fn copy_line(request: &CopyRequest) -> String {
    let mut line = format!("copy count {} next {:#x}", request.count, request.next);
    let named = request.extents.iter().rposition(|extent| *extent != Extent::default());
    for Extent { source, destination, length } in &request.extents[..named.map_or(0, |last| last + 1)] {
        let _ = write!(line, " extent {source:#x} {destination:#x} {length}");
    }
    line
}

/// The line of a query.
pub fn query_line(query: Query) -> String {
    let Query { vm, way, address, length } = query;
    format!("query vm {vm} way {way} address {address:#x} length {length}")
}

/// Bytes that are no whole record, sixteen a line.
fn print_raw(text: &mut String, bytes: &[u8]) {
    for line in bytes.chunks(16) {
        text.push_str("raw");
        for byte in line {
            let _ = write!(text, " {byte:02x}");
        }
        text.push('\n');
    }
}
