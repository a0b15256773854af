//! Access queries through the command line: their files, their text, and the folders that are generated.

mod common;

use std::fs;

use common::{folder, region, shown, twin, with_regions, worked_case};
use twin::access::folder::AccessFolder;
use twin::access::query::{records_of, Query};
use twin::core::flaw::Flaw;
use twin::edges::access::edge_accesses;
use twin::generate::access::generated_access;
use twin::image::read::read_image;
use twin::image::write::image_bytes;
use twin::readable_text::parse::access_folder_of;
use twin::readable_text::print::access_folder_text;

const YES: Query = Query { vm: 0, way: 2, address: 0x2000, length: 16 };
const NO: Query = Query { vm: 1, way: 2, address: 0x2000, length: 16 };

/// VM 0 may write a range that VM 1 may read; two queries and a cut one.
fn shared() -> AccessFolder {
    let regions = [region(0, 2, 0x2000, 0x2fff), region(1, 1, 0x2000, 0x2fff)];
    let image = image_bytes(&with_regions(&regions), Flaw::None);
    AccessFolder::of(&image, &[&records_of(&[YES, NO])[..], &[9, 9]].concat())
}

const SHARED_TEXT: &str = "\
core vms 2 queue 1
vm entry 0x1000 handler 0x1004
vm entry 0x2000 handler 0x2004
region vm 0 permission 2 start 0x2000 last 0x2fff
region vm 1 permission 1 start 0x2000 last 0x2fff
slot vm 0 ticks 2
slot vm 1 ticks 1
slot spare ticks 1
end

queries
query vm 0 way 2 address 0x2000 length 16
query vm 1 way 2 address 0x2000 length 16
raw 09 09
";

fn good(output: &str) -> (Option<i32>, String, String) {
    (Some(0), String::from(output), String::new())
}

/// N5, N8, N22 to N25: the two files, both there, one of them missing, or none.
#[test]
fn access_reads_the_files_in_its_folder() {
    let place = folder("access");
    assert_eq!(twin(&["access", shown(&place)]), good("config 20 0\n"));
    shared().write_into(&place).expect("written");
    assert_eq!(twin(&["access", shown(&place)]), good("yes\nno\ncut 3\n"));
    fs::write(place.join("queries.bin"), vec![0; 60_001]).expect("written");
    assert_eq!(twin(&["access", shown(&place)]), good("long\n"));
    fs::remove_file(place.join("queries.bin")).expect("removed");
    assert_eq!(twin(&["access", shown(&place)]), good(""));
    shared().write_into(&place).expect("written");
    fs::remove_file(place.join("config.bin")).expect("removed");
    assert_eq!(twin(&["access", shown(&place)]), good("config 20 0\n"));
}

/// No rule: the folder that access queries are compared in.
#[test]
fn a_file_of_the_case_before_is_gone() {
    let place = folder("access-leftovers");
    shared().write_into(&place).expect("written");
    assert_eq!(AccessFolder::read(&place), shared());
    let neither = AccessFolder::default();
    neither.write_into(&place).expect("written");
    assert_eq!(fs::read_dir(&place).expect("a folder").count(), 0);
    assert_eq!(AccessFolder::read(&place), neither);
}

/// No rule: the readable text of access queries is the twin's own.
#[test]
fn the_text_of_queries_both_ways() {
    assert_eq!(access_folder_text(&shared()), SHARED_TEXT);
    assert_eq!(access_folder_of(SHARED_TEXT), Ok(shared()));
    assert_eq!(access_folder_of("end\n"), Ok(AccessFolder::of(&[4], &[])));
    assert_eq!(access_folder_text(&AccessFolder::default()), "\nqueries\n");
}

/// No rule: the messages about a wrong text of queries.
#[test]
fn errors_name_the_line_and_the_matter() {
    let wrong = [
        ("end\nlog\n", 2, "'log' is not known here; expected core, vm, region, slot, end, raw or queries"),
        ("queries\nqueries", 2, "'queries' is not known here; expected no more parts of queries than 1"),
        ("queries\nstart", 2, "'start' is not known here; expected query or raw"),
        ("query vm 0 way 1 address 0 length 1", 1, "'query' is not known here"),
        ("queries\nquery vm 256 way 1 address 0 length 1", 2, "256 after 'vm' does not fit in 8 bits"),
        ("queries\nquery vm 0 way 256 address 0 length 1", 2, "256 after 'way' does not fit in 8 bits"),
        ("queries\nquery vm 0 way 1 address 0x100000000 length 1", 2, "does not fit in 32 bits"),
        ("queries\nquery vm 0 way 1 address 0 length 4294967296", 2, "does not fit in 32 bits"),
        ("queries\nquery vm 0 way 1 address 0", 2, "the line ends where 'length' should stand"),
        (
            "queries\nquery vm 0 way 1 address 0 length 1 more",
            2,
            "'more' stands behind the end of the record",
        ),
    ];
    for (text, line, words) in wrong {
        let error = access_folder_of(text).expect_err("this text is wrong");
        assert_eq!(error.line, line, "{text}: {}", error.message);
        assert!(error.message.contains(words), "{text}: {}", error.message);
    }
}

/// No rule: the readable text of access queries keeps every byte.
#[test]
fn any_queries_come_back_from_their_text() {
    let edges = edge_accesses(9).into_iter().map(|edge| edge.folder);
    let made = (0..150).map(|number| generated_access(9, number));
    for (number, files) in edges.chain(made).enumerate() {
        let whole = AccessFolder::of(files.image_bytes(), files.query_bytes());
        assert_eq!(access_folder_of(&access_folder_text(&files)), Ok(whole), "folder {number}");
    }
}

/// No rule: the readable text of access queries, through files.
#[test]
fn pack_queries_and_unpack_queries_undo_each_other() {
    let place = folder("pack-queries");
    let (text, files, again) = (place.join("run.txt"), place.join("new/files"), place.join("again.txt"));
    fs::write(&text, SHARED_TEXT).expect("written");
    assert_eq!(twin(&["pack-queries", shown(&text), shown(&files)]), good(""));
    assert_eq!(AccessFolder::read(&files), shared());
    assert_eq!(twin(&["unpack-queries", shown(&files), shown(&again)]), good(""));
    assert_eq!(fs::read_to_string(&again).expect("made"), SHARED_TEXT);
    let (status, _, message) = twin(&["unpack-queries", shown(&place), "unused.txt"]);
    assert!(status == Some(1) && message.contains("has neither config.bin nor queries.bin"), "{message}");
    fs::write(&text, "queries\nquery\n").expect("written");
    let (status, _, message) = twin(&["pack-queries", shown(&text), shown(&files)]);
    assert!(status == Some(1) && message.contains("line 2: the line ends where 'vm' should"), "{message}");
    assert_eq!(AccessFolder::read(&files), shared(), "a wrong text makes no files");
}

/// No rule: the making of folders.
#[test]
fn a_generated_folder_can_be_made_again() {
    let place = folder("case-queries");
    let files = generated_access(3, 7);
    assert_eq!(twin(&["case-queries", "--seed", "3", "--number", "7", shown(&place)]), good(""));
    assert_eq!(AccessFolder::read(&place), files);
    let expected = fs::read_to_string(place.join("expected-access")).expect("made");
    assert_eq!(expected.as_bytes(), files.answers(Flaw::None));
    assert_eq!(twin(&["access", shown(&place)]), good(&expected));
    let text = fs::read_to_string(place.join("run.txt")).expect("made");
    assert_eq!(text, access_folder_text(&files));
}

/// No rule: the making of folders.
#[test]
fn folders_depend_on_the_seed_and_the_number_alone() {
    assert!((0..60).all(|number| generated_access(1, number) == generated_access(1, number)));
    assert!((0..60).all(|number| generated_access(1, number) != generated_access(1, number + 1)));
    assert!((0..60).all(|number| generated_access(1, number) != generated_access(2, number)));
}

/// No rule: what the generated folders hold.
#[test]
fn most_generated_folders_are_accepted_and_have_regions_and_queries() {
    let folders: Vec<AccessFolder> = (0..500).map(|number| generated_access(2, number)).collect();
    let read = |files: &AccessFolder| read_image(files.image_bytes(), Flaw::None).ok();
    let configs: Vec<_> = folders.iter().filter_map(read).collect();
    assert!((430..495).contains(&configs.len()), "{}", configs.len());
    let with_regions = configs.iter().filter(|config| config.region_count > 0).count();
    assert!(with_regions > 380 && with_regions < configs.len(), "{with_regions}");
    let lengths: Vec<usize> = folders.iter().map(|files| files.query_bytes().len()).collect();
    assert!(lengths.iter().filter(|length| (1..=2_009).contains(*length)).count() > 380);
    assert!(lengths.contains(&0) && lengths.contains(&60_000) && lengths.iter().any(|it| *it > 60_000));
    let missing = folders.iter().filter(|files| files.image.is_none() || files.queries.is_none());
    assert!(missing.count() > 5);
}

/// N12: every line of every fixed folder ends in one newline, and no line is empty.
#[test]
fn every_line_ends_in_one_newline() {
    for edge in edge_accesses(13) {
        let text = edge.folder.answers(Flaw::None);
        let mut lines = text.split_inclusive(|byte| *byte == b'\n');
        assert!(
            lines.all(|line| line.len() > 1 && line.is_ascii() && line.ends_with(b"\n")),
            "{}",
            edge.title
        );
    }
    assert_eq!(AccessFolder::of(&worked_case().image, &[]).answers(Flaw::None), b"");
}
