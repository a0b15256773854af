//! The fixed folders of every comparison of reports: they reach each listed point by themselves.

use crate::core::config::Config;
use crate::core::event::Event;
use crate::core::flaw::Flaw;
use crate::core::limits::{MAX_LOG_BYTES, MAX_QUEUE, MAX_REPORT_LOGS, MAX_SLOTS, MAX_VMS};
use crate::edges::cases::{cut_tails, small, TICK};
use crate::generate::image::config_of;
use crate::generate::log::LogMaker;
use crate::generate::random::Random;
use crate::image::write::image_bytes;
use crate::log::read::KIND_START;
use crate::log::write::log_of;
use crate::report::folder::{LogFile, ReportFolder};

/// A folder and what it is, in words.
pub struct EdgeReport {
    pub title: String,
    pub folder: ReportFolder,
}

fn edge(title: &str, folder: ReportFolder) -> EdgeReport {
    EdgeReport { title: String::from(title), folder }
}

/// Every fixed folder of a seed, in a fixed order.
pub fn edge_reports(seed: u64) -> Vec<EdgeReport> {
    let mut random = Random::of_case(seed, u64::MAX - 1);
    let mut edges = missing_files();
    edges.extend(gaps());
    edges.extend(cut_logs());
    edges.extend(lengths(&mut random));
    edges.extend(full_lists(&mut random));
    edges.extend(refused_images());
    edges.extend(without_ticks());
    edges
}

/// Three VMs, the first with two ticks and the others with one, and a spare tick.
fn config() -> Config {
    let mut config = small(3, 2);
    config.slots[0].ticks = 2;
    config
}

fn image() -> Vec<u8> {
    image_bytes(&config(), Flaw::None)
}

/// Every kind of tick: refused, of the table, spare, missed, idle; a VM that stops within its tick; and
/// so many ticks that the table begins again.
fn eventful() -> Vec<u8> {
    let ask = Event::Call { service: 4, argument: 0, next: 0x1014 };
    let mut events = vec![TICK, TICK, Event::Start, TICK, ask, TICK, TICK, Event::Stop { vm: 1 }];
    events.extend([TICK; 9]);
    log_of(&events)
}

/// Start and so many ticks.
fn ticking(ticks: usize) -> Vec<u8> {
    let mut events = vec![TICK; ticks + 1];
    events[0] = Event::Start;
    log_of(&events)
}

fn bytes(log: Vec<u8>) -> LogFile {
    LogFile::Bytes(log)
}

/// A folder with the common image and these logs.
fn folder(logs: Vec<LogFile>) -> ReportFolder {
    ReportFolder { image: Some(image()), logs }
}

/// A log that is looked at for itself, with good ones before and behind it.
fn between_good_ones(log: LogFile) -> ReportFolder {
    folder(vec![bytes(ticking(2)), log, bytes(eventful())])
}

fn missing_files() -> Vec<EdgeReport> {
    let logs = vec![bytes(eventful()), bytes(ticking(3))];
    vec![
        edge("no files", ReportFolder::default()),
        edge("no image", ReportFolder { image: None, logs }),
        edge("no logs", folder(Vec::new())),
        edge("one log", folder(vec![bytes(eventful())])),
    ]
}

/// Where the list ends, and what does not end it.
fn gaps() -> Vec<EdgeReport> {
    let good = || bytes(eventful());
    let mut last_missing = vec![good(); MAX_REPORT_LOGS + 1];
    last_missing[MAX_REPORT_LOGS - 1] = LogFile::Missing;
    vec![
        edge("log 2 missing", folder(vec![good(), bytes(ticking(2)), LogFile::Missing, good()])),
        edge("log 0 missing", folder(vec![LogFile::Missing, good(), good()])),
        edge("log 15 missing", folder(last_missing)),
        edge("empty log", between_good_ones(bytes(Vec::new()))),
        edge("empty logs", folder(vec![bytes(Vec::new()), bytes(Vec::new()), good(), bytes(Vec::new())])),
        edge("folder as log", between_good_ones(LogFile::Folder)),
        edge("folder as log 0", folder(vec![LogFile::Folder, good()])),
    ]
}

/// Every place where a record can be cut, and unknown kinds, as many to a folder as fit between good
/// logs; and logs that are cut at once.
fn cut_logs() -> Vec<EdgeReport> {
    let cut = |tail: &[u8]| bytes([eventful(), tail.to_vec()].concat());
    let mut edges = Vec::new();
    for (index, tails) in cut_tails().chunks(MAX_REPORT_LOGS - 2).enumerate() {
        let mut logs = vec![bytes(ticking(2))];
        logs.extend(tails.iter().map(|tail| cut(tail)));
        logs.push(bytes(eventful()));
        edges.push(edge(&format!("cut logs {index}"), folder(logs)));
    }
    let more = [&[0xff][..], &eventful()].concat();
    edges.push(edge("unknown kind before good records", between_good_ones(cut(&more))));
    edges.push(edge("unknown kind first", between_good_ones(bytes(more))));
    edges.push(edge("short body first", between_good_ones(bytes(vec![0x11, 0, 0]))));
    edges
}

/// Logs about the greatest length.
fn lengths(random: &mut Random) -> Vec<EdgeReport> {
    let mut edges = Vec::new();
    for length in [MAX_LOG_BYTES - 1, MAX_LOG_BYTES, MAX_LOG_BYTES + 1, 65_536] {
        let log = LogMaker::ticking(random, &config()).bytes(length);
        edges.push(edge(&format!("log of {length} bytes"), between_good_ones(bytes(log))));
    }
    let cut = [ticking(11_999), vec![0x16, 0, 0, 0]].concat();
    edges.push(edge("log cut at its 60,000 bytes", between_good_ones(bytes(cut))));
    edges.push(edge("log of 2,000,000 bytes", between_good_ones(bytes(vec![KIND_START; 2_000_000]))));
    let all = vec![bytes(ticking(12_000)); MAX_REPORT_LOGS];
    edges.push(edge("sixteen logs too long", folder(all)));
    edges
}

/// As many logs as are read, and one more.
fn full_lists(random: &mut Random) -> Vec<EdgeReport> {
    let config = config_of(random, MAX_VMS, MAX_QUEUE, MAX_SLOTS);
    let full_image = image_bytes(&config, Flaw::None);
    let made: Vec<Vec<u8>> =
        (0..MAX_REPORT_LOGS).map(|_| LogMaker::new(random, &config).events(200)).collect();
    let ones = image_bytes(&small(1, 0), Flaw::None);
    let eights = image_bytes(&small(8, 16), Flaw::None);
    let largest = |log: Vec<u8>| vec![log; MAX_REPORT_LOGS];
    vec![
        edge("sixteen logs", ReportFolder::of(&full_image, made)),
        edge("seventeen logs", folder(vec![bytes(eventful()); MAX_REPORT_LOGS + 1])),
        edge("sixteen logs of ticks, 8 VMs", ReportFolder::of(&eights, largest(ticking(11_999)))),
        edge("sixteen logs of ticks, 1 VM", ReportFolder::of(&ones, largest(ticking(11_999)))),
        edge("sixteen logs of Start", ReportFolder::of(&eights, largest(vec![KIND_START; MAX_LOG_BYTES]))),
    ]
}

fn refused_images() -> Vec<EdgeReport> {
    let logs = || vec![eventful(), ticking(5)];
    let good = image();
    let cut = &good[..good.len() - 1];
    let behind = [&good[..], &[4]].concat();
    let far_behind = [good.clone(), vec![4; 100_000]].concat();
    let mut fault = good.clone();
    fault[1] = 9;
    let too_long = vec![vec![KIND_START; MAX_LOG_BYTES + 1]];
    vec![
        edge("image cut", ReportFolder::of(cut, logs())),
        edge("image cut, no logs", ReportFolder::of(cut, [])),
        edge("image cut, log too long", ReportFolder::of(cut, too_long)),
        edge("image empty", ReportFolder::of(&[], logs())),
        edge("image of nine VMs", ReportFolder::of(&fault, logs())),
        edge("image with a byte behind it", ReportFolder::of(&behind, logs())),
        edge("image with 100,000 bytes behind it", ReportFolder::of(&far_behind, logs())),
    ]
}

/// Logs without an accepted tick: they never start, or stop at Start.
fn without_ticks() -> Vec<EdgeReport> {
    let refused = log_of(&[TICK; 7]);
    let idle_events = log_of(&[Event::Stop { vm: 0 }, Event::Restart { vm: 1 }, Event::Extra { vm: 2 }]);
    let started = log_of(&[Event::Start, Event::Start]);
    vec![
        edge("ticks all refused", folder(vec![bytes(refused.clone()); 3])),
        edge("logs that never start", folder(vec![bytes(idle_events), bytes(refused), bytes(eventful())])),
        edge("started and never ticked", folder(vec![bytes(started); 2])),
    ]
}
