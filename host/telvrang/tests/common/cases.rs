//! The cases: logs, and the answers that must come out.

use std::fs;
use std::path::Path;

pub struct Case {
    pub name: String,
    pub log: Vec<u8>,
    pub answers: Vec<u8>,
}

/// Each log of cases/, by name.
pub fn cases() -> Vec<Case> {
    let folder = Path::new(env!("CARGO_MANIFEST_DIR")).join("../../cases");
    let mut found = Vec::new();
    for entry in fs::read_dir(&folder).expect("the repository has cases") {
        let path = entry.expect("the folder can be read").path();
        if path.extension().is_some_and(|end| end == "log") {
            let name = path.file_stem().expect("a log has a name").to_string_lossy().into_owned();
            let log = fs::read(&path).expect("a log can be read");
            let answers = fs::read(path.with_extension("answers")).expect("each log has its answers");
            found.push(Case { name, log, answers });
        }
    }
    found.sort_by(|one, other| one.name.cmp(&other.name));
    assert!(found.iter().any(|case| case.name == "whole-run"), "the document's run is a case");
    found
}

/// What came out must be the answers; the first line that differs is shown.
pub fn compare(case: &Case, way: &str, got: &[u8]) {
    if got == case.answers {
        return;
    }
    let lines = |text: &[u8]| -> Vec<String> { text.split(|&byte| byte == b'\n').map(|line| String::from_utf8_lossy(line).into_owned()).collect() };
    let (ours, wanted) = (lines(got), lines(&case.answers));
    let at = ours.iter().zip(&wanted).take_while(|(one, other)| one == other).count();
    panic!("{}, {way}: line {} should be {:?}, is {:?}", case.name, at + 1, wanted.get(at), ours.get(at));
}
