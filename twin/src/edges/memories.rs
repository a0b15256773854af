//! The fixed folders of every comparison of windows: they reach each listed point by themselves.

use crate::core::event::Event;
use crate::core::flaw::Flaw;
use crate::core::limits::{MAX_EXTENTS, MAX_LOG_BYTES, WINDOW_BYTES, WINDOW_ROW_BYTES};
use crate::edges::cases::{cut_tails, TICK};
use crate::edges::copies::{copy, copying_config, extent, good_extents, inside, vectors};
use crate::generate::image::{faulty_image, FAULTS};
use crate::generate::random::Random;
use crate::image::write::image_bytes;
use crate::log::read::KIND_START;
use crate::log::write::log_of;
use crate::memlog::folder::{MemoryFile, MemoryFolder};

/// A folder and what it is, in words.
pub struct EdgeMemory {
    pub title: String,
    pub folder: MemoryFolder,
}

fn edge(title: &str, folder: MemoryFolder) -> EdgeMemory {
    EdgeMemory { title: String::from(title), folder }
}

/// Every fixed folder of a seed, in a fixed order.
pub fn edge_memories(seed: u64) -> Vec<EdgeMemory> {
    let mut random = Random::of_case(seed, u64::MAX - 3);
    let mut edges = missing_files();
    edges.extend(memories());
    edges.extend(rows());
    edges.extend(single_vectors());
    edges.extend(rows_of_copies());
    edges.extend(failures());
    edges.extend(logs());
    edges.extend(refused_images(&mut random));
    edges
}

fn image() -> Vec<u8> {
    image_bytes(&copying_config(), Flaw::None)
}

/// Byte i is i modulo 251, as in P14 to P22.
pub fn counting(length: usize) -> Vec<u8> {
    (0..length).map(|index| (index % 251) as u8).collect()
}

/// The log of a VM that runs and then copies.
fn copying(copies: &[Event]) -> Vec<u8> {
    log_of(&[&[Event::Start, TICK], copies].concat())
}

/// The common image, these copies, and a window that is full.
fn run(title: &str, copies: &[Event]) -> EdgeMemory {
    edge(title, MemoryFolder::of(&image(), &copying(copies), &counting(WINDOW_BYTES)))
}

fn missing_files() -> Vec<EdgeMemory> {
    let log = copying(&[copy(&good_extents(4))]);
    let memory = || MemoryFile::Bytes(counting(600));
    let folder = |image: Option<Vec<u8>>, log: Option<&Vec<u8>>, memory: MemoryFile| MemoryFolder {
        image,
        log: log.cloned(),
        memory,
    };
    vec![
        edge("no files", folder(None, None, MemoryFile::Missing)),
        edge("no image", folder(None, Some(&log), memory())),
        edge("no log", folder(Some(image()), None, memory())),
        edge("no memory", folder(Some(image()), Some(&log), MemoryFile::Missing)),
        edge("folder as memory", folder(Some(image()), Some(&log), MemoryFile::Folder)),
        edge("memory alone", folder(None, None, memory())),
        edge("empty files", MemoryFolder::of(&[], &[], &[])),
    ]
}

/// Memories of several lengths, about that of the window too (N26).
fn memories() -> Vec<EdgeMemory> {
    let log = copying(&[copy(&[inside(0, 0x300, 256)]), copy(&[inside(0x3f00, 0x200, 256)])]);
    let of = |length: usize| MemoryFolder::of(&image(), &log, &counting(length));
    let most = WINDOW_BYTES;
    let lengths =
        [0, 1, 2, 31, 32, 33, 256, 600, most - 32, most - 1, most, most + 1, most + 32, 65_536, 2_000_000];
    lengths.into_iter().map(|length| edge(&format!("memory of {length} bytes"), of(length))).collect()
}

/// Which rows are printed: single bytes about the ends of rows, rows of zeros, all of them (N27).
fn rows() -> Vec<EdgeMemory> {
    let start = copying(&[]);
    let with = |title: &str, places: &[usize]| {
        let mut memory = vec![0; WINDOW_BYTES];
        places.iter().for_each(|place| memory[*place] = 0xab);
        edge(title, MemoryFolder::of(&image(), &start, &memory))
    };
    let last = WINDOW_BYTES - 1;
    let each_row: Vec<usize> = (0..WINDOW_BYTES).step_by(WINDOW_ROW_BYTES + 1).collect();
    vec![
        with("no byte", &[]),
        with("first byte", &[0]),
        with("last byte of the first row", &[31]),
        with("first byte of the second row", &[32]),
        with("last byte", &[last]),
        with("first byte of the last row", &[last - 31]),
        with("first and last row", &[5, last - 5]),
        with("a byte in each row", &each_row),
        edge("full window", MemoryFolder::of(&image(), &start, &vec![0xff; WINDOW_BYTES])),
        edge("no event", MemoryFolder::of(&image(), &[], &counting(100))),
        run("zeros over a row", &[copy(&[inside(0x400, 0x480, 32)])]),
        edge(
            "a row made zero",
            MemoryFolder::of(&image(), &copying(&[copy(&[inside(0x80, 0, 64)])]), &counting(64)),
        ),
    ]
}

/// Each of P14 to P22 alone.
fn single_vectors() -> Vec<EdgeMemory> {
    let each = vectors().into_iter().enumerate();
    each.map(|(index, copy)| run(&format!("vector {index}"), &[copy])).collect()
}

/// Overlaps of each kind, chains, and copies in a row.
fn rows_of_copies() -> Vec<EdgeMemory> {
    let shifts = [1, 2, 15, 16, 17, 63, 64, 100];
    let forwards = shifts.map(|shift| copy(&[inside(0x200, 0x200 + shift, 64)]));
    let backwards = shifts.map(|shift| copy(&[inside(0x200 + shift, 0x200, 64)]));
    let chain: Vec<_> = (0..8).map(|k| inside(0x210 + 8 * k, 0x218 + 8 * k, 8)).collect();
    let swap = [inside(0, 0x300, 16), inside(0x20, 0, 16), inside(0x300, 0x20, 16)];
    let wheels: Vec<_> = (0..4).map(|k| inside(0x20 * k, 0x400 + 0x10 * k, 16)).collect();
    let same_place: Vec<_> = (0..MAX_EXTENTS as u32).map(|k| inside(0x10 * k, 0x400 + k, 16)).collect();
    let whole: Vec<_> = (0..64).map(|k| copy(&[inside(0x200 + k, 0x201 + k, 256)])).collect();
    let ends = [inside(0, 0x3fff, 1), inside(0x3fff, 1, 1), inside(0x3f00, 0x200, 256)];
    vec![
        run("overlaps forwards", &forwards),
        run("overlaps backwards", &backwards),
        run("onto itself", &[copy(&[inside(0x200, 0x200, 256)])]),
        run("chain of eight", &[copy(&chain)]),
        run("swap", &[copy(&swap)]),
        run("four wheels", &[copy(&wheels)]),
        run("destinations that overlap", &[copy(&same_place)]),
        run("64 copies", &whole),
        run("ends of the window", &[copy(&ends)]),
        run("to the last byte", &[copy(&[inside(0, 0x3f00, 256)])]),
    ]
}

/// A bad extent behind good ones at each place (D35); copies that are refused; the copy of another VM state.
fn failures() -> Vec<EdgeMemory> {
    let mut edges = Vec::new();
    let bad = [inside(0, 0x80, 257), inside(0x1c0, 0, 4), inside(0, 0x180, 4), extent(0x9000_0000, 0, 1)];
    for (kind, bad) in bad.into_iter().enumerate() {
        for place in 0..MAX_EXTENTS {
            let mut extents: Vec<_> = (0..8).map(|k| inside(16 * k, 0x200 + 32 * k, 16)).collect();
            extents[place] = bad;
            edges.push(run(&format!("failure {kind} at extent {place}"), &[copy(&extents)]));
        }
    }
    let good = copy(&[inside(0, 0x200, 64), inside(7, 0x300, 256)]);
    let again = [copy(&[inside(0, 0x180, 4)]), good, Event::Restart { vm: 0 }, good, TICK, good];
    edges.push(run("refused, restarted and copied", &again));
    let before_start = log_of(&[good, Event::Start, good, TICK, Event::Stop { vm: 0 }, good]);
    edges.push(edge("all refused", MemoryFolder::of(&image(), &before_start, &counting(600))));
    edges
}

/// Logs that are cut, too long, or as long as can be (N28).
fn logs() -> Vec<EdgeMemory> {
    let good = copy(&[inside(0, 0x200, 64)]);
    let memory = counting(600);
    let cut = |tail: &[u8]| MemoryFolder::of(&image(), &[copying(&[good]), tail.to_vec()].concat(), &memory);
    let mut edges: Vec<EdgeMemory> = cut_tails()
        .iter()
        .map(|tail| edge(&format!("tail {:02x} of {} bytes", tail[0], tail.len()), cut(tail)))
        .collect();
    edges.push(edge("cut at once", MemoryFolder::of(&image(), &[0x19], &memory)));
    edges.push(edge("copy cut at once", MemoryFolder::of(&image(), &log_of(&[good])[..50], &memory)));
    let filled = |length: usize| {
        let mut log = copying(&[good]);
        log.resize(length, KIND_START);
        MemoryFolder::of(&image(), &log, &memory)
    };
    for length in [MAX_LOG_BYTES - 1, MAX_LOG_BYTES, MAX_LOG_BYTES + 1, 65_536] {
        edges.push(edge(&format!("log of {length} bytes"), filled(length)));
    }
    let many: Vec<_> = (0..580).map(|k| copy(&[inside(k % 300, 0x200 + k, 64)])).collect();
    edges.push(run("580 copies", &many));
    edges
}

/// Images with each fault, beside a memory; the log may be too long as well.
fn refused_images(random: &mut Random) -> Vec<EdgeMemory> {
    let log = copying(&[copy(&good_extents(8))]);
    let memory = counting(300);
    let mut edges: Vec<EdgeMemory> = FAULTS
        .into_iter()
        .map(|fault| {
            let image = faulty_image(random, fault);
            edge(&format!("fault {fault}"), MemoryFolder::of(&image, &log, &memory))
        })
        .collect();
    let cut = &image()[..30];
    let long = vec![KIND_START; MAX_LOG_BYTES + 1];
    edges.push(edge("image cut, log too long", MemoryFolder::of(cut, &long, &memory)));
    edges
}
