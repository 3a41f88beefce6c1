//! The repository's examples: the answers in their files are the model's, and README.md shows the same lines.

mod common;

use common::answers;
use std::fs;

const EXAMPLES: &str = concat!(env!("CARGO_MANIFEST_DIR"), "/../examples");
const NAMES: [&str; 10] =
    ["milking", "loan", "chain", "standstill", "calibration", "gate", "timeout", "old-number", "meters", "night"];

fn read(file: &str) -> String {
    fs::read_to_string(format!("{EXAMPLES}/{file}")).unwrap_or_else(|error| panic!("{file}: {error}"))
}

#[test]
fn every_example_is_listed() {
    let files = fs::read_dir(EXAMPLES).unwrap().map(|file| file.unwrap().file_name().into_string().unwrap());
    let journals: Vec<String> = files.filter(|file| file.ends_with(".journal")).collect();
    assert_eq!(journals.len(), NAMES.len(), "{journals:?}");
}

#[test]
fn the_answers_are_the_models() {
    for name in NAMES {
        let found = String::from_utf8(answers(read(&format!("{name}.journal")).as_bytes())).unwrap();
        assert_eq!(found, read(&format!("{name}.answers")), "{name}");
    }
}

/// The first two columns of the table under the heading that names this journal, fields parted by tabs.
fn shown(readme: &str, name: &str) -> (String, String) {
    let heading = format!("`{name}.journal`");
    let section = readme.split("\n## ").find(|section| section.lines().next().unwrap().ends_with(&heading));
    let rows = section.expect(name).lines().filter(|line| line.starts_with("| `"));
    let (mut calls, mut answers) = (String::new(), String::new());
    for row in rows {
        let cells: Vec<&str> = row.split('`').collect();
        calls += &format!("{}\n", cells[1].replace(' ', "\t"));
        answers += &format!("{}\n", cells[3].replace(' ', "\t"));
    }
    (calls, answers)
}

#[test]
fn the_tables_have_the_same_lines() {
    let readme = read("README.md");
    for name in NAMES {
        let files = (read(&format!("{name}.journal")), read(&format!("{name}.answers")));
        assert_eq!(shown(&readme, name), files, "{name}");
    }
}
