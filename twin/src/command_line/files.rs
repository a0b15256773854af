//! The commands that make files from texts, texts from files, and the files of generated cases.

use std::fs;
use std::path::Path;

use crate::access::folder::AccessFolder;
use crate::command_line::options::Options;
use crate::core::flaw::Flaw;
use crate::generate::access::generated_access;
use crate::generate::case::CaseMaker;
use crate::generate::memories::generated_memory;
use crate::generate::report::generated_folder;
use crate::readable_text::parse::{access_folder_of, case_of, report_folder_of, TextError};
use crate::readable_text::print::{access_folder_text, report_folder_text, text_of};
use crate::report::folder::ReportFolder;
use crate::run::frames::Case;
use crate::run::text::many_text;

/// A file that cannot be opened counts as empty.
pub fn files_of(folder: &Path) -> Case {
    let content = |name: &str| fs::read(folder.join(name)).unwrap_or_default();
    Case { image: content("config.bin"), log: content("events.bin") }
}

pub fn pack(text_path: &Path, folder: &Path) -> Result<bool, String> {
    write_files(folder, &parsed(text_path, case_of)?)?;
    Ok(true)
}

pub fn pack_logs(text_path: &Path, folder: &Path) -> Result<bool, String> {
    write_logs(folder, &parsed(text_path, report_folder_of)?)?;
    Ok(true)
}

pub fn pack_queries(text_path: &Path, folder: &Path) -> Result<bool, String> {
    write_queries(folder, &parsed(text_path, access_folder_of)?)?;
    Ok(true)
}

/// What a text file describes.
fn parsed<Made>(path: &Path, parse: impl Fn(&str) -> Result<Made, TextError>) -> Result<Made, String> {
    let shown = path.display();
    let bytes = fs::read(path).map_err(|error| format!("cannot read {shown}: {error}"))?;
    let text = String::from_utf8(bytes).map_err(|_| format!("{shown} is not a text in UTF-8"))?;
    parse(&text).map_err(|error| format!("{shown}, line {}: {}", error.line, error.message))
}

fn write_files(folder: &Path, case: &Case) -> Result<(), String> {
    let written = fs::create_dir_all(folder)
        .and_then(|()| fs::write(folder.join("config.bin"), &case.image))
        .and_then(|()| fs::write(folder.join("events.bin"), &case.log));
    written.map_err(|error| format!("cannot write into {}: {error}", folder.display()))
}

fn write_logs(folder: &Path, files: &ReportFolder) -> Result<(), String> {
    let written = files.write_into(folder);
    written.map_err(|error| format!("cannot write into {}: {error}", folder.display()))
}

fn write_queries(folder: &Path, files: &AccessFolder) -> Result<(), String> {
    let written = files.write_into(folder);
    written.map_err(|error| format!("cannot write into {}: {error}", folder.display()))
}

pub fn unpack(folder: &Path, text_path: &Path) -> Result<bool, String> {
    need_some(folder, "config.bin", "events.bin")?;
    write_text(text_path, text_of(&files_of(folder)))
}

pub fn unpack_logs(folder: &Path, text_path: &Path) -> Result<bool, String> {
    need_some(folder, "config.bin", "log00.bin")?;
    write_text(text_path, report_folder_text(&ReportFolder::read(folder)))
}

pub fn unpack_queries(folder: &Path, text_path: &Path) -> Result<bool, String> {
    need_some(folder, "config.bin", "queries.bin")?;
    write_text(text_path, access_folder_text(&AccessFolder::read(folder)))
}

/// A folder without either file is most likely the wrong folder.
fn need_some(folder: &Path, image: &str, log: &str) -> Result<(), String> {
    if folder.join(image).exists() || folder.join(log).exists() {
        return Ok(());
    }
    Err(format!("{} has neither {image} nor {log}", folder.display()))
}

fn write_text(path: &Path, text: String) -> Result<bool, String> {
    fs::write(path, text).map_err(|error| format!("cannot write {}: {error}", path.display()))?;
    Ok(true)
}

/// The files of a generated case, its text, and what `many` has to answer.
pub fn write_case(words: &[String], folder: &Path) -> Result<bool, String> {
    let options = Options::parse(words, &["seed", "number"])?;
    let (seed, number) = (options.needed_number("seed")?, options.needed_number("number")?);
    let case = CaseMaker::new(seed).case(number as usize);
    write_files(folder, &case)?;
    let answer = many_text(&case.image, &case.log, Flaw::None);
    let written = fs::write(folder.join("run.txt"), text_of(&case))
        .and_then(|()| fs::write(folder.join("expected"), answer));
    written.map_err(|error| format!("cannot write into {}: {error}", folder.display()))?;
    Ok(true)
}

/// The files of a generated folder, and what `report` has to print for it.
pub fn write_case_logs(words: &[String], folder: &Path) -> Result<bool, String> {
    let options = Options::parse(words, &["seed", "number"])?;
    let (seed, number) = (options.needed_number("seed")?, options.needed_number("number")?);
    let files = generated_folder(seed, number as usize);
    write_logs(folder, &files)?;
    let written = fs::write(folder.join("expected-report"), files.report(Flaw::None));
    written.map_err(|error| format!("cannot write into {}: {error}", folder.display()))?;
    Ok(true)
}

/// The files of a generated folder, their text, and what `access` has to print for them.
pub fn write_case_queries(words: &[String], folder: &Path) -> Result<bool, String> {
    let options = Options::parse(words, &["seed", "number"])?;
    let (seed, number) = (options.needed_number("seed")?, options.needed_number("number")?);
    let files = generated_access(seed, number as usize);
    write_queries(folder, &files)?;
    let written = fs::write(folder.join("run.txt"), access_folder_text(&files))
        .and_then(|()| fs::write(folder.join("expected-access"), files.answers(Flaw::None)));
    written.map_err(|error| format!("cannot write into {}: {error}", folder.display()))?;
    Ok(true)
}

/// The files of a generated folder, the text of its run, and what `memlog` has to print for them.
pub fn write_case_memory(words: &[String], folder: &Path) -> Result<bool, String> {
    let options = Options::parse(words, &["seed", "number"])?;
    let (seed, number) = (options.needed_number("seed")?, options.needed_number("number")?);
    let files = generated_memory(seed, number as usize);
    let written = files
        .write_into(folder)
        .and_then(|()| fs::write(folder.join("run.txt"), text_of(&files.case())))
        .and_then(|()| fs::write(folder.join("expected-memory"), files.text(Flaw::None)));
    written.map_err(|error| format!("cannot write into {}: {error}", folder.display()))?;
    Ok(true)
}
