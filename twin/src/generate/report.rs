//! Random folders for the report: several logs for one image, with missing and damaged ones among them.

use crate::core::config::Config;
use crate::core::limits::{MAX_LOG_BYTES, MAX_REPORT_LOGS};
use crate::edges::cases::TICK;
use crate::generate::case::steps;
use crate::generate::image::{legal_config, mostly_good_image};
use crate::generate::log::LogMaker;
use crate::generate::random::Random;
use crate::log::read::{read_record, Record};
use crate::log::write::log_of;
use crate::report::folder::{LogFile, ReportFolder};

/// The folders draw from other numbers than the cases of the same seed.
const FIRST_DRAW: u64 = 1 << 48;

/// The folder with this number, from 0. It depends on the seed and the number alone.
pub fn generated_folder(seed: u64, number: usize) -> ReportFolder {
    let mut random = Random::of_case(seed, FIRST_DRAW + number as u64);
    random_folder(&mut random)
}

fn random_folder(random: &mut Random) -> ReportFolder {
    let config = legal_config(random);
    let count = log_count(random);
    let mut logs: Vec<LogFile> = (0..count).map(|_| log_file(random, &config)).collect();
    if count > 0 && random.percent(25) {
        logs[random.below(count)] = LogFile::Missing;
    }
    ReportFolder { image: mostly_good_image(random, &config), logs }
}

/// Mostly a handful; sometimes none, as many as are read, or one more.
fn log_count(random: &mut Random) -> usize {
    match random.below(20) {
        0 => 0,
        1..=2 => MAX_REPORT_LOGS,
        3..=4 => MAX_REPORT_LOGS + 1,
        5..=6 => random.between(6, MAX_REPORT_LOGS - 1),
        _ => random.between(1, 5),
    }
}

fn log_file(random: &mut Random, config: &Config) -> LogFile {
    let kind = random.weighted(&[600, 60, 30, 50, 130, 30, 40, 25, 20, 15]);
    LogFile::Bytes(match kind {
        1 => late_start(random, config),
        2 => refused_ticks(random, 20),
        3 => Vec::new(),
        4 => cut_log(random, config),
        5 => foreign_first_byte(random, config),
        6 => too_long(random, config),
        7 => LogMaker::ticking(random, config).bytes(MAX_LOG_BYTES),
        8 => long_run(random, config),
        9 => return LogFile::Folder,
        _ => ordinary_log(random, config),
    })
}

fn ordinary_log(random: &mut Random, config: &Config) -> Vec<u8> {
    let steps = steps(random);
    LogMaker::new(random, config).events(steps)
}

fn long_run(random: &mut Random, config: &Config) -> Vec<u8> {
    let length = random.between(3_000, MAX_LOG_BYTES);
    LogMaker::ticking(random, config).bytes(length)
}

fn too_long(random: &mut Random, config: &Config) -> Vec<u8> {
    let length = MAX_LOG_BYTES + random.pick(&[1, 2, 100, 5_536]);
    LogMaker::ticking(random, config).bytes(length)
}

/// Ticks before Start, which are all refused.
fn refused_ticks(random: &mut Random, most: usize) -> Vec<u8> {
    log_of(&vec![TICK; random.between(1, most)])
}

fn late_start(random: &mut Random, config: &Config) -> Vec<u8> {
    [refused_ticks(random, 5), ordinary_log(random, config)].concat()
}

/// A log that ends inside a record, or that has an unknown kind before its last records.
fn cut_log(random: &mut Random, config: &Config) -> Vec<u8> {
    let mut log = ordinary_log(random, config);
    if random.percent(50) {
        log.truncate(random.below(log.len() + 1));
        return log;
    }
    let at = some_record(random, &log);
    log.insert(at, random.pick(&[0x00, 0x0f, 0x19, 0xff]));
    log
}

fn foreign_first_byte(random: &mut Random, config: &Config) -> Vec<u8> {
    let mut log = ordinary_log(random, config);
    log.insert(0, random.pick(&[0x00, 0x01, 0x0f, 0x19, 0xff]));
    log
}

/// A place where a record begins or the log ends.
fn some_record(random: &mut Random, log: &[u8]) -> usize {
    let mut places = vec![0];
    while let Record::Event(_, next) = read_record(log, places[places.len() - 1]) {
        places.push(next);
    }
    random.pick(&places)
}
