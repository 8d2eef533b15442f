//! docs/CLAIMS.md leads from a sentence of document 01 to its definition and its function: each one that it names is
//! there, under that name, in that file.

use std::fs;
use std::path::{Path, PathBuf};

fn crates() -> PathBuf {
    Path::new(env!("CARGO_MANIFEST_DIR")).join("../../crates")
}

/// The document in turns: prose, a word in backquotes, prose, and so on.
fn turns() -> Vec<String> {
    let claims = fs::read_to_string(crates().join("../docs/CLAIMS.md")).expect("docs/CLAIMS.md");
    claims.split('`').map(str::to_string).collect()
}

/// Does a line of the text define the name: a definition, a record or a field of one?
fn defines(text: &str, name: &str) -> bool {
    text.lines().any(|line| {
        let said = |word: &&str| !["unfoldable", "abbrev", "pub", "record", "data"].contains(word);
        line.split_whitespace().find(said) == Some(name)
    })
}

/// Does the word name a file of definitions or of theorems? Such a file begins with a capital.
fn names_a_file(word: &str) -> bool {
    let behind = word.split_once("/specs/").or_else(|| word.split_once("/proofs/"));
    behind.is_some_and(|(_, file)| file.starts_with(|c: char| c.is_ascii_uppercase()))
}

/// What is claimed to stand in a file: the names before it, with commas between them and " of " behind the last.
fn names_of_file(turns: &[String], at: usize) -> Vec<&str> {
    let mut found = Vec::new();
    let mut joint = " of ";
    let mut at = at;
    while at >= 2 && turns[at - 1] == joint && !names_a_file(&turns[at - 2]) {
        at -= 2;
        found.push(turns[at].as_str());
        joint = ", ";
    }
    found
}

/// The files of definitions and of theorems that are named, each by its turn.
fn files(turns: &[String]) -> Vec<usize> {
    (1..turns.len()).step_by(2).filter(|&at| names_a_file(&turns[at])).collect()
}

/// Every source of a crate, as one text.
fn code(name: &str) -> Option<String> {
    let files = fs::read_dir(crates().join(name).join("src")).ok()?;
    let read = |file: std::io::Result<fs::DirEntry>| fs::read_to_string(file.ok()?.path()).ok();
    Some(files.filter_map(read).collect())
}

#[test]
fn definitions_stand_in_the_file_that_is_named() {
    let turns = turns();
    let files = files(&turns);
    let (mut definitions, mut missing) = (0, Vec::new());
    for &at in &files {
        let path = crates().join(format!("{}.antt", turns[at]));
        let Ok(text) = fs::read_to_string(path) else {
            missing.push(turns[at].clone());
            continue;
        };
        for name in names_of_file(&turns, at) {
            definitions += 1;
            if !defines(&text, name) {
                missing.push(format!("{name} of {}", turns[at]));
            }
        }
    }
    assert_eq!(missing, Vec::<String>::new());
    assert!(files.len() > 140 && definitions > 170, "{} files, {definitions} definitions: too few", files.len());
}

#[test]
fn functions_stand_in_the_crate_that_is_named() {
    let turns = turns();
    let (mut functions, mut missing) = (0, Vec::new());
    for word in turns.iter().skip(1).step_by(2) {
        let Some((name, function)) = word.split_once("::") else { continue };
        let Some(code) = code(name) else { continue };
        functions += 1;
        let function = function.rsplit("::").next().unwrap_or(function);
        if !code.contains(&format!("fn {function}(")) && !code.contains(&format!("fn {function}<")) {
            missing.push(word.clone());
        }
    }
    assert_eq!(missing, Vec::<String>::new());
    assert!(functions > 90, "{functions} functions found: too few");
}

#[test]
fn proofs_stand_in_the_folder_that_is_named() {
    let turns = turns();
    let named = |word: &&String| word.contains("/proofs/") && !names_a_file(word) && !word.starts_with("crates/");
    let proofs: Vec<&String> = turns.iter().skip(1).step_by(2).filter(named).collect();
    let there = |word: &&&String| crates().join(word.as_str()).join("Answers.antt").exists();
    assert_eq!(proofs.iter().filter(there).count(), proofs.len(), "{proofs:?}");
    assert_eq!(proofs.len(), 10, "one for each public call");
}

#[test]
fn wrong_programs_are_tried() {
    let turns = turns();
    let (mut edits, mut missing) = (0, Vec::new());
    for word in turns.iter().skip(1).step_by(2).filter(|word| !word.contains(['.', ' '])) {
        let Some((name, label)) = word.split_once('/') else { continue };
        let crate_there = crates().join(name).is_dir() && !label.contains('/');
        if !crate_there || crates().join(name).join(label).exists() {
            continue;
        }
        edits += 1;
        if !crates().join(name).join("must-fail").join(format!("{label}.edit")).exists() {
            missing.push(word.clone());
        }
    }
    assert_eq!(missing, Vec::<String>::new());
    assert!(edits > 25, "{edits} edits found: too few");
}
