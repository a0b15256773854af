//! Which case has which number: the edge cases first, then random ones of several kinds.

use crate::core::flaw::Flaw;
use crate::core::limits::MAX_LOG_BYTES;
use crate::edges::cases::{edge_cases, ordinary_case};
use crate::generate::image::{faulty_image, legal_config, FAULTS};
use crate::generate::log::LogMaker;
use crate::generate::random::Random;
use crate::image::write::image_bytes;
use crate::run::frames::Case;

/// Makes the cases of one seed. Each can be made alone.
pub struct CaseMaker {
    seed: u64,
    edges: Vec<Case>,
}

impl CaseMaker {
    pub fn new(seed: u64) -> CaseMaker {
        let mut random = Random::of_case(seed, u64::MAX);
        CaseMaker { seed, edges: edge_cases(&mut random) }
    }

    /// How many cases stand before the random ones.
    pub fn edge_count(&self) -> usize {
        self.edges.len()
    }

    /// The case with this number, from 0.
    pub fn case(&self, number: usize) -> Case {
        match self.edges.get(number) {
            Some(case) => case.clone(),
            None => random_case(&mut Random::of_case(self.seed, number as u64)),
        }
    }
}

fn random_case(random: &mut Random) -> Case {
    match random.weighted(&[780, 60, 40, 10, 60, 30, 10, 4, 2]) {
        0 => {
            let steps = steps(random);
            ordinary_case(random, steps)
        }
        1 => {
            let fault = random.pick(&FAULTS);
            let mut case = ordinary_case(random, 5);
            case.image = faulty_image(random, fault);
            case
        }
        2 => with_changed_image(random),
        3 => garbage(random),
        4 => with_changed_log(random),
        5 => with_cut_log(random),
        6 => with_garbage_log(random),
        7 => long_run(random),
        _ => at_the_greatest_length(random),
    }
}

/// Mostly short runs, some middling ones, a few of several hundred steps.
pub fn steps(random: &mut Random) -> usize {
    match random.below(10) {
        0..=4 => random.between(3, 40),
        5..=8 => random.between(40, 150),
        _ => random.between(150, 500),
    }
}

fn with_changed_image(random: &mut Random) -> Case {
    let mut case = ordinary_case(random, 20);
    let changes = random.between(1, 3);
    change_bytes(random, &mut case.image, changes);
    case
}

fn with_changed_log(random: &mut Random) -> Case {
    let steps = random.between(5, 100);
    let mut case = ordinary_case(random, steps);
    let changes = random.between(1, 4);
    change_bytes(random, &mut case.log, changes);
    case
}

fn with_cut_log(random: &mut Random) -> Case {
    let steps = random.between(3, 60);
    let mut case = ordinary_case(random, steps);
    case.log.truncate(random.below(case.log.len() + 1));
    if random.percent(20) {
        let more = random.between(1, 12);
        case.log.extend(random.bytes(more));
    }
    case
}

/// Changes, cuts out or puts in single bytes.
pub fn change_bytes(random: &mut Random, bytes: &mut Vec<u8>, changes: usize) {
    for _ in 0..changes {
        let at = random.below(bytes.len() + 1);
        let value = if random.percent(50) { random.below(32) as u8 } else { random.byte() };
        match random.below(4) {
            0 => bytes.insert(at, value),
            1 if at < bytes.len() => drop(bytes.remove(at)),
            _ if at < bytes.len() => bytes[at] = value,
            _ => bytes.push(value),
        }
    }
}

fn garbage(random: &mut Random) -> Case {
    let (image_length, log_length) = (random.below(400), random.below(100));
    let mut image = random.bytes(image_length);
    if random.percent(50) {
        image.splice(0..0, [1, 1, 1, 2]);
    }
    Case { image, log: random.bytes(log_length) }
}

/// A fair image with a log of small bytes, many of them kinds of events.
fn with_garbage_log(random: &mut Random) -> Case {
    let image = image_bytes(&legal_config(random), Flaw::None);
    let length = random.between(0, 200);
    let log = (0..length)
        .map(|_| random.pick(&[0x10, 0x11, 0x12, 0x13, 0x14, 0x15, 0x16, 0x17, 0x18, 0x1a, 0, 1, 8]));
    Case { image, log: log.collect() }
}

/// Thousands of ticks.
fn long_run(random: &mut Random) -> Case {
    let config = legal_config(random);
    let length = random.between(10_000, MAX_LOG_BYTES);
    let log = LogMaker::ticking(random, &config).bytes(length);
    Case { image: image_bytes(&config, Flaw::None), log }
}

fn at_the_greatest_length(random: &mut Random) -> Case {
    let config = legal_config(random);
    let length = random.pick(&[MAX_LOG_BYTES - 1, MAX_LOG_BYTES, MAX_LOG_BYTES + 1, MAX_LOG_BYTES + 2]);
    let log = LogMaker::ticking(random, &config).bytes(length);
    Case { image: image_bytes(&config, Flaw::None), log }
}
