//! The commands of the program, each with its arguments and its files.

use std::io::{self, BufReader, BufWriter, Write};
use std::path::{Path, PathBuf};

use crate::access::folder::AccessFolder;
use crate::command_line::files::{
    files_of, pack, pack_logs, pack_queries, unpack, unpack_logs, unpack_queries, write_case,
    write_case_logs, write_case_memory, write_case_queries,
};
use crate::command_line::options::Options;
use crate::compare::accesses::AccessPlan;
use crate::compare::child::CommandLine;
use crate::compare::files::FileProgram;
use crate::compare::memories::MemoryPlan;
use crate::compare::reports::ReportPlan;
use crate::compare::selftest::selftest;
use crate::compare::whole::{compare, Plan};
use crate::core::flaw::Flaw;
use crate::memlog::folder::MemoryFolder;
use crate::report::folder::ReportFolder;
use crate::run::frames::answer_stream;
use crate::run::text::{run_text, Detail};

pub const USAGE: &str = "usage:
  twin run [DIR]                      what runlog prints for the files in DIR
  twin state [DIR]                    what statelog prints for them
  twin report [DIR]                   what report prints for the image and the logs in DIR
  twin report --wrong NAME            what that wrong twin of the report prints for the files here
  twin access [DIR]                   what access prints for the image and the queries in DIR
  twin access --wrong NAME            what that wrong twin of access prints for the files here
  twin memlog [DIR]                   what memlog prints for the files in DIR: the run and its window
  twin memlog --wrong NAME            what that wrong twin of the window prints for the files here
  twin many [--wrong NAME]            what many prints for the stream on standard input;
                                      with a name from selftest, what that wrong twin prints
  twin pack TEXTFILE DIR              makes config.bin and events.bin from a text
  twin unpack DIR TEXTFILE            makes the text from config.bin and events.bin
  twin pack-logs TEXTFILE DIR         makes config.bin and log00.bin, log01.bin .. from a text
  twin unpack-logs DIR TEXTFILE       makes the text from config.bin and log00.bin, log01.bin ..
  twin pack-queries TEXTFILE DIR      makes config.bin and queries.bin from a text
  twin unpack-queries DIR TEXTFILE    makes the text from config.bin and queries.bin
  twin compare --seed N --cases N --many CMD --runlog CMD
               [--statelog CMD] [--report CMD] [--access CMD] [--memlog CMD] [--files N]
               [--reports N] [--accesses N] [--memlogs N] [--keep DIR] [--patience SECONDS]
  twin selftest --seed N --cases N    tells wrong twins from the right one
  twin case --seed N --number N DIR   writes the files of one generated case
  twin case-logs --seed N --number N DIR
                                      writes the files of one generated folder of the report
  twin case-queries --seed N --number N DIR
                                      writes the files of one generated folder of access queries
  twin case-memory --seed N --number N DIR
                                      writes the files of one generated folder of a window
";

/// Does what the arguments ask for. Answers whether all is well.
pub fn obey(words: &[String]) -> Result<bool, String> {
    let Some((command, rest)) = words.split_first() else {
        return Err(String::from("no command given"));
    };
    let texts: Vec<&str> = rest.iter().map(String::as_str).collect();
    match (command.as_str(), texts.as_slice()) {
        ("run", []) => print_run(".", Detail::Lines),
        ("run", [folder]) => print_run(folder, Detail::Lines),
        ("state", []) => print_run(".", Detail::States),
        ("state", [folder]) => print_run(folder, Detail::States),
        ("many", []) => answer_standard_input(Flaw::None),
        ("many", ["--wrong", name]) => answer_standard_input(Flaw::named(&Flaw::WRONG_RUNS, name)?),
        ("report", []) => print_report(".", Flaw::None),
        ("report", [folder]) => print_report(folder, Flaw::None),
        ("report", ["--wrong", name]) => print_report(".", Flaw::named(&Flaw::WRONG_REPORTS, name)?),
        ("access", []) => print_answers(".", Flaw::None),
        ("access", [folder]) => print_answers(folder, Flaw::None),
        ("access", ["--wrong", name]) => print_answers(".", Flaw::named(&Flaw::WRONG_ACCESSES, name)?),
        ("memlog", []) => print_window(".", Flaw::None),
        ("memlog", [folder]) => print_window(folder, Flaw::None),
        ("memlog", ["--wrong", name]) => print_window(".", Flaw::named(&Flaw::WRONG_MEMORIES, name)?),
        _ => obey_other(command, rest, &texts),
    }
}

/// The commands that make files from texts and texts from files, and those that compare.
fn obey_other(command: &str, rest: &[String], texts: &[&str]) -> Result<bool, String> {
    match (command, texts) {
        ("pack", [text, folder]) => pack(Path::new(text), Path::new(folder)),
        ("unpack", [folder, text]) => unpack(Path::new(folder), Path::new(text)),
        ("pack-logs", [text, folder]) => pack_logs(Path::new(text), Path::new(folder)),
        ("unpack-logs", [folder, text]) => unpack_logs(Path::new(folder), Path::new(text)),
        ("pack-queries", [text, folder]) => pack_queries(Path::new(text), Path::new(folder)),
        ("unpack-queries", [folder, text]) => unpack_queries(Path::new(folder), Path::new(text)),
        ("compare", _) => run_compare(rest),
        ("selftest", _) => run_selftest(rest),
        ("case", [.., folder]) => write_case(&rest[..rest.len() - 1], Path::new(folder)),
        ("case-logs", [.., folder]) => write_case_logs(&rest[..rest.len() - 1], Path::new(folder)),
        ("case-queries", [.., folder]) => write_case_queries(&rest[..rest.len() - 1], Path::new(folder)),
        ("case-memory", [.., folder]) => write_case_memory(&rest[..rest.len() - 1], Path::new(folder)),
        ("help" | "--help", _) => Ok(say(USAGE.as_bytes(), true)),
        (known, _) if TAKES_FIXED_ARGUMENTS.contains(&known) => {
            Err(format!("'{command}' has other arguments"))
        }
        _ => Err(format!("'{command}' is not a command")),
    }
}

/// The commands that can be given too many arguments or too few.
const TAKES_FIXED_ARGUMENTS: [&str; 16] = [
    "run",
    "state",
    "many",
    "report",
    "access",
    "memlog",
    "pack",
    "unpack",
    "pack-logs",
    "unpack-logs",
    "pack-queries",
    "unpack-queries",
    "case",
    "case-logs",
    "case-queries",
    "case-memory",
];

/// Prints; an output that cannot be written ends the work quietly.
fn say(text: &[u8], well: bool) -> bool {
    let mut output = io::stdout().lock();
    let _ = output.write_all(text).and_then(|()| output.flush());
    well
}

fn print_run(folder: &str, detail: Detail) -> Result<bool, String> {
    let case = files_of(Path::new(folder));
    Ok(say(&run_text(&case.image, &case.log, detail, Flaw::None), true))
}

fn print_report(folder: &str, flaw: Flaw) -> Result<bool, String> {
    Ok(say(&ReportFolder::read(Path::new(folder)).report(flaw), true))
}

fn print_answers(folder: &str, flaw: Flaw) -> Result<bool, String> {
    Ok(say(&AccessFolder::read(Path::new(folder)).answers(flaw), true))
}

fn print_window(folder: &str, flaw: Flaw) -> Result<bool, String> {
    Ok(say(&MemoryFolder::read(Path::new(folder)).text(flaw), true))
}

fn answer_standard_input(flaw: Flaw) -> Result<bool, String> {
    let mut input = BufReader::new(io::stdin().lock());
    let mut output = BufWriter::with_capacity(1 << 16, io::stdout().lock());
    let _ = answer_stream(&mut input, &mut output, flaw);
    Ok(true)
}

const COMPARE_OPTIONS: [&str; 14] = [
    "seed", "cases", "many", "runlog", "statelog", "report", "access", "memlog", "files", "reports",
    "accesses", "memlogs", "keep", "patience",
];

fn run_compare(words: &[String]) -> Result<bool, String> {
    let options = Options::parse(words, &COMPARE_OPTIONS)?;
    let keep = options.text("keep").map_or(std::env::temp_dir().join("twin-kept"), PathBuf::from);
    let patience = options.number("patience", 300)?;
    let plan = Plan {
        file_programs: file_programs(&options, patience)?,
        seed: options.needed_number("seed")?,
        cases: options.needed_number("cases")? as usize,
        files: options.number("files", 200)? as usize,
        many: CommandLine::parse(options.needed("many")?, patience)?,
        report: report_plan(&options, patience)?,
        access: access_plan(&options, patience)?,
        memory: memory_plan(&options, patience)?,
        keep,
    };
    let (text, well) = compare(&plan);
    Ok(say(text.as_bytes(), well))
}

/// The programs that read the two files of a run.
fn file_programs(options: &Options, patience: u64) -> Result<Vec<FileProgram>, String> {
    let runlog = CommandLine::parse(options.needed("runlog")?, patience)?;
    let mut programs = vec![FileProgram { name: "runlog", command: runlog, detail: Detail::Lines }];
    if let Some(text) = options.text("statelog") {
        let command = CommandLine::parse(text, patience)?;
        programs.push(FileProgram { name: "statelog", command, detail: Detail::States });
    }
    Ok(programs)
}

fn report_plan(options: &Options, patience: u64) -> Result<Option<ReportPlan>, String> {
    let folders = options.number("reports", 400)? as usize;
    let plan = |text| Ok(ReportPlan { command: CommandLine::parse(text, patience)?, folders });
    options.text("report").map(plan).transpose()
}

fn access_plan(options: &Options, patience: u64) -> Result<Option<AccessPlan>, String> {
    let folders = options.number("accesses", 400)? as usize;
    let plan = |text| Ok(AccessPlan { command: CommandLine::parse(text, patience)?, folders });
    options.text("access").map(plan).transpose()
}

fn memory_plan(options: &Options, patience: u64) -> Result<Option<MemoryPlan>, String> {
    let folders = options.number("memlogs", 400)? as usize;
    let plan = |text| Ok(MemoryPlan { command: CommandLine::parse(text, patience)?, folders });
    options.text("memlog").map(plan).transpose()
}

fn run_selftest(words: &[String]) -> Result<bool, String> {
    let options = Options::parse(words, &["seed", "cases"])?;
    let (seed, cases) = (options.needed_number("seed")?, options.needed_number("cases")?);
    let (text, well) = selftest(seed, cases as usize);
    Ok(say(text.as_bytes(), well))
}
