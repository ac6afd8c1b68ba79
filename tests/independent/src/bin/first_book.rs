//! Runs a book's bench messages through the independent judge and compares its
//! records with those that were worked out by hand. Links no archive. Exit
//! status 1 if a record differs or a message has no record.
//!
//! `first_book BOOK TABLE`: the table's messages lie in its folder. A line names
//! a file, the conditions as a string of 0, 1 and 2, and the record's six
//! numbers, separated by tabs; the first line names the columns.

use independent::judging::judge;
use independent::judging::plain::judge_by_fillings;
use std::collections::BTreeSet;
use std::fs;
use std::path::Path;
use std::process::ExitCode;

const MESSAGE_ENDING: &str = ".edi";

/// A line of the table.
struct Case {
    file: String,
    conditions: String,
    record: [u32; 6],
}

fn main() -> ExitCode {
    let words: Vec<String> = std::env::args().skip(1).collect();
    let [book, table] = words.as_slice() else {
        eprintln!("usage: first_book BOOK TABLE");
        return ExitCode::from(2);
    };
    match compare_all(Path::new(book), Path::new(table)) {
        Ok((cases, 0)) => {
            println!("first_book: {cases} cases, 0 differences");
            ExitCode::SUCCESS
        }
        Ok((cases, differences)) => {
            println!("first_book: {cases} cases, {differences} differences");
            ExitCode::FAILURE
        }
        Err(error) => {
            eprintln!("first_book: {error}");
            ExitCode::from(2)
        }
    }
}

/// The number of cases, and how many differ. A message without a case counts as
/// a difference.
fn compare_all(book: &Path, table: &Path) -> Result<(usize, usize), String> {
    let book = read(book)?;
    let folder = table.parent().unwrap_or(Path::new("."));
    let cases = read_table(table)?;
    let mut differences = 0;
    for case in &cases {
        let message = read(&folder.join(&case.file))?;
        differences += usize::from(differs(case, &book, &message));
    }
    for file in messages_without_case(folder, &cases)? {
        println!("{file}: no line of the table names it");
        differences += 1;
    }
    Ok((cases.len(), differences))
}

fn read(path: &Path) -> Result<Vec<u8>, String> {
    fs::read(path).map_err(|error| format!("{}: {error}", path.display()))
}

fn read_table(path: &Path) -> Result<Vec<Case>, String> {
    let text = fs::read_to_string(path).map_err(|error| format!("{}: {error}", path.display()))?;
    let lines = text.lines().enumerate().skip(1);
    lines
        .map(|(index, line)| {
            read_case(line).ok_or(format!("{}:{}: not a case", path.display(), index + 1))
        })
        .collect()
}

fn read_case(line: &str) -> Option<Case> {
    let mut words = line.split('\t');
    let file = words.next()?.to_owned();
    let conditions = words.next()?.to_owned();
    let numbers: Result<Vec<u32>, _> = words.map(str::parse).collect();
    let record = numbers.ok()?.try_into().ok()?;
    let is_good = conditions.bytes().all(|digit| digit.is_ascii_digit());
    is_good.then_some(Case {
        file,
        conditions,
        record,
    })
}

/// Both independent judges are asked. A segment has at least four bytes, so the
/// tables are long enough.
fn differs(case: &Case, book: &[u8], message: &[u8]) -> bool {
    let conditions: Vec<u8> = case.conditions.bytes().map(|digit| digit - b'0').collect();
    let mut tables = [(); 3].map(|()| vec![0; message.len()]);
    let [starts, homes, parents] = &mut tables;
    let quick = judge(message, book, &conditions, starts, homes, parents);
    let plain = judge_by_fillings(message, book, &conditions, message.len());
    let found = [Some(quick), plain].map(|record| record.map(|record| record.entries()));
    let differs = found != [Some(case.record); 2];
    if differs {
        println!(
            "{} with conditions {:?}: worked out {:?}, found {found:?}",
            case.file, case.conditions, case.record
        );
    }
    differs
}

fn messages_without_case(folder: &Path, cases: &[Case]) -> Result<BTreeSet<String>, String> {
    let mut files = BTreeSet::new();
    let entries = fs::read_dir(folder).map_err(|error| format!("{}: {error}", folder.display()))?;
    for entry in entries {
        let name = entry.map_err(|error| error.to_string())?.file_name();
        files.insert(name.to_string_lossy().into_owned());
    }
    files.retain(|file| file.ends_with(MESSAGE_ENDING));
    for case in cases {
        files.remove(&case.file);
    }
    Ok(files)
}
