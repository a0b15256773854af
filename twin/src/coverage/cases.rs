//! What the cases of a comparison reached, and which of the points they have to reach are missing.

use crate::core::event::{Answer, Event};
use crate::core::flaw::Flaw;
use crate::core::limits::MAX_LOG_BYTES;
use crate::core::Core;
use crate::coverage::copies::CopyCoverage;
use crate::coverage::counts::CountCoverage;
use crate::coverage::marks::{event_marks, image_marks, log_marks, Mark};
use crate::coverage::regions::RegionCoverage;
use crate::generate::image::FAULTS;
use crate::image::read::read_image;
use crate::log::read::{event_body_length, read_record, Record};
use crate::run::frames::Case;

/// The event kinds by name, in the order of their record kinds.
pub const KIND_NAMES: [&str; 10] =
    ["start", "tick", "stop", "shutdown", "restart", "extra", "call", "write", "fault", "copy"];

/// R1: every refusal that each event kind can get on a run from fresh.
const REFUSALS_BY_KIND: [&[u8]; 10] = [
    &[0, 7],
    &[0, 2],
    &[0, 2, 3, 4],
    &[0, 2, 3, 4],
    &[0, 2, 3],
    &[0, 2, 3, 4, 6],
    &[0, 2, 5],
    &[0, 2, 5, 8],
    &[0, 2, 5, 9],
    &[0, 2, 5],
];

/// D13: where a number can be delivered, at a tick or at the services 0, 1 and 2.
const DELIVERY_NAMES: [&str; 4] = ["tick", "sync", "return", "inject"];

/// A8: the events that remove all entries of their VM from the queue.
const REMOVAL_NAMES: [&str; 7] =
    ["Stop", "Restart", "Fault", "service 3", "service 2 over 31", "unknown service", "Copy that fails"];

/// A8: how many they remove; the last goes beside the others.
const REMOVED_NAMES: [&str; 4] = ["no entry", "1 entry", "2 entries or more", "entries, others stay"];

#[derive(Clone, Debug)]
pub struct Coverage {
    pub events: u64,
    /// R1
    refusals: [[u64; 10]; KIND_NAMES.len()],
    /// I8
    image_faults: [u64; FAULTS.len()],
    /// H1 to H7, I15
    regions: RegionCoverage,
    images_accepted: u64,
    /// L4, N7
    cuts: u64,
    /// N6
    longs: u64,
    /// D25 to D30
    services: [u64; 6],
    /// A4
    notices: [u64; 4],
    /// A5
    error_codes: [u64; 8],
    /// A6
    results: [u64; 2],
    /// D11 to D13
    delivered: [[u64; 32]; DELIVERY_NAMES.len()],
    /// A8
    removed: [[u64; REMOVED_NAMES.len()]; REMOVAL_NAMES.len()],
    /// T10
    counts: CountCoverage,
    /// D31 to D37, S10
    copies: CopyCoverage,
    /// D21, F1 to F10
    fields_written: [u64; 10],
    marks: [u64; Mark::COUNT],
}

impl Default for Coverage {
    fn default() -> Coverage {
        Coverage {
            events: 0,
            refusals: [[0; 10]; KIND_NAMES.len()],
            image_faults: [0; FAULTS.len()],
            regions: RegionCoverage::default(),
            images_accepted: 0,
            cuts: 0,
            longs: 0,
            services: [0; 6],
            notices: [0; 4],
            error_codes: [0; 8],
            results: [0; 2],
            delivered: [[0; 32]; DELIVERY_NAMES.len()],
            removed: [[0; REMOVED_NAMES.len()]; REMOVAL_NAMES.len()],
            counts: CountCoverage::default(),
            copies: CopyCoverage::default(),
            fields_written: [0; 10],
            marks: [0; Mark::COUNT],
        }
    }
}

impl Coverage {
    /// Counts what the run of a case reaches.
    pub fn observe(&mut self, case: &Case) {
        let read = read_image(&case.image, Flaw::None);
        image_marks(&case.image, &read, &mut |mark| self.marks[mark as usize] += 1);
        self.regions.observe(&case.image, &read);
        match read {
            Err(fault) => {
                for (number, count) in FAULTS.iter().zip(&mut self.image_faults) {
                    *count += u64::from(*number == fault.number);
                }
            }
            Ok(config) => {
                self.images_accepted += 1;
                self.observe_log(Core::fresh(config, Flaw::None), &case.log);
            }
        }
    }

    fn observe_log(&mut self, mut core: Core, log: &[u8]) {
        log_marks(log, &mut |mark| self.marks[mark as usize] += 1);
        if log.len() > MAX_LOG_BYTES {
            self.longs += 1;
            return;
        }
        let mut at = 0;
        while let Record::Event(event, next) = read_record(log, at) {
            let before = core.clone();
            let answer = core.apply(event);
            self.observe_event(event, &answer);
            self.observe_removal(event, &answer, core.state.queue.count);
            self.counts.observe(&before, event, &answer, &core);
            self.copies.observe(&before, event, &answer);
            event_marks(&before, event, &answer, &core, &mut |mark| self.marks[mark as usize] += 1);
            at = next;
        }
        if at < log.len() {
            self.cuts += 1;
            let known = event_body_length(log[at]).is_some();
            let mark = if known { Mark::CutInBody } else { Mark::CutAtKind };
            self.marks[mark as usize] += 1;
            self.copies.observe_cut(&log[at..]);
        }
    }

    fn observe_event(&mut self, event: Event, answer: &Answer) {
        self.events += 1;
        self.refusals[kind_index(event)][usize::from(answer.refusal)] += 1;
        if answer.refusal != 0 {
            return;
        }
        self.notices[usize::from(answer.notice.number)] += 1;
        if answer.notice.number == 3 {
            self.error_codes[usize::from(answer.notice.code)] += 1;
        }
        self.results[usize::from(answer.result)] += 1;
        if let Some(number) = answer.delivered {
            self.delivered[moment_index(event)][usize::from(number)] += 1;
        }
        match event {
            Event::Call { service, .. } => self.services[usize::from(service.min(5))] += 1,
            Event::Write { offset, .. } => self.fields_written[usize::from(offset / 4)] += 1,
            _ => {}
        }
    }

    /// How many entries an event removed, and whether there are others that stay.
    fn observe_removal(&mut self, event: Event, answer: &Answer, staying: u8) {
        let (Some(kind), 0) = (removal_index(event, answer), answer.refusal) else {
            return;
        };
        self.removed[kind][usize::from(answer.removed.min(2))] += 1;
        self.removed[kind][3] += u64::from(answer.removed > 0 && staying > 0);
    }

    /// Every point that has to be reached, by name, and how often it was.
    pub fn points(&self) -> Vec<(String, u64)> {
        let mut points = self.run_points();
        for (kind, refusals) in REFUSALS_BY_KIND.iter().enumerate() {
            for refusal in *refusals {
                let count = self.refusals[kind][usize::from(*refusal)];
                points.push((format!("{} refusal {refusal}", KIND_NAMES[kind]), count));
            }
        }
        for (moment, name) in DELIVERY_NAMES.iter().enumerate() {
            for (number, count) in self.delivered[moment].iter().enumerate() {
                points.push((format!("delivered {number} at {name}"), *count));
            }
        }
        for (kind, name) in REMOVAL_NAMES.iter().enumerate() {
            for (count, removed) in self.removed[kind].iter().zip(REMOVED_NAMES) {
                points.push((format!("{name} removes {removed}"), *count));
            }
        }
        for mark in Mark::ALL {
            points.push((String::from(mark.name()), self.marks[mark as usize]));
        }
        points.extend(self.counts.points());
        points.extend(self.copies.points());
        points.extend(self.regions.points());
        points
    }

    fn run_points(&self) -> Vec<(String, u64)> {
        let fault = |(number, count): (&u8, &u64)| (format!("image fault {number}"), *count);
        let mut points: Vec<(String, u64)> = FAULTS.iter().zip(&self.image_faults).map(fault).collect();
        points.extend([
            (String::from("image accepted"), self.images_accepted),
            (String::from("log cut (refusal 10)"), self.cuts),
            (String::from("log too long"), self.longs),
        ]);
        let mut add = |name: &str, first: usize, counts: &[u64]| {
            for (index, count) in counts.iter().enumerate() {
                points.push((format!("{name} {}", first + index), *count));
            }
        };
        add("service", 0, &self.services[..5]);
        add("unknown service, over", 4, &self.services[5..]);
        add("notice", 0, &self.notices);
        add("error code", 1, &self.error_codes[1..]);
        add("result", 0, &self.results);
        add("written field", 0, &self.fields_written);
        points
    }

    /// The points that were never reached.
    pub fn missing(&self) -> Vec<String> {
        never_reached(self.points())
    }
}

/// The names of the points whose count is 0.
pub fn never_reached(points: Vec<(String, u64)>) -> Vec<String> {
    points.into_iter().filter(|(_, count)| *count == 0).map(|(name, _)| name).collect()
}

/// The place of an event that delivered among the names of such moments.
fn moment_index(event: Event) -> usize {
    match event {
        Event::Call { service, .. } => 1 + usize::from(service),
        _ => 0,
    }
}

/// The place of an event among the names of those that remove entries; a Copy does so where it fails.
fn removal_index(event: Event, answer: &Answer) -> Option<usize> {
    match event {
        Event::Stop { .. } => Some(0),
        Event::Restart { .. } => Some(1),
        Event::Fault { .. } => Some(2),
        Event::Call { service: 3, .. } => Some(3),
        Event::Call { service: 2, argument: 32.., .. } => Some(4),
        Event::Call { service: 5.., .. } => Some(5),
        Event::Copy(_) if answer.notice.number == 3 => Some(6),
        _ => None,
    }
}

fn kind_index(event: Event) -> usize {
    match event {
        Event::Start => 0,
        Event::Tick { .. } => 1,
        Event::Stop { .. } => 2,
        Event::Shutdown { .. } => 3,
        Event::Restart { .. } => 4,
        Event::Extra { .. } => 5,
        Event::Call { .. } => 6,
        Event::Write { .. } => 7,
        Event::Fault { .. } => 8,
        Event::Copy(_) => 9,
    }
}
