//! What this package and the C header both say.

use jobstore::{Refusal, BODIES_LENGTH, BODY_LENGTH, PREVIEW_PLACES, RECORD_LENGTH};

const HEADER: &str = include_str!("../../../include/jobstore.h");

/// What stands between the first `start` and the next `end`.
fn between(start: &str, end: &str) -> &'static str {
    let found = HEADER.split_once(start).and_then(|(_, rest)| rest.split_once(end));
    found.unwrap_or_else(|| panic!("the header has no {start}")).0.trim()
}

fn defined(name: &str) -> &'static str {
    between(&format!("#define JOBSTORE_{name} "), "\n")
}

#[test]
fn version_and_lengths() {
    assert_eq!(defined("VERSION"), format!("{:?}", env!("CARGO_PKG_VERSION")));
    assert_eq!(defined("RECORD_LENGTH"), RECORD_LENGTH.to_string());
    assert_eq!(defined("BODIES_LENGTH"), BODIES_LENGTH.to_string());
    assert_eq!(defined("BODY_LENGTH"), BODY_LENGTH.to_string());
    assert_eq!(defined("PREVIEW_PLACES"), PREVIEW_PLACES.to_string());
}

/// The enum names each number, and the text stands behind the name's case.
#[test]
fn refusals() {
    let lines: Vec<&str> = between("enum jobstore_refusal {", "};").lines().collect();
    assert_eq!(lines.len(), Refusal::ALL.len());
    for (number, (refusal, line)) in (1..).zip(Refusal::ALL.iter().zip(lines)) {
        assert_eq!((refusal.number(), Refusal::from_number(number)), (number, Some(*refusal)));
        let (name, rest) = line.trim().split_once(" = ").unwrap();
        assert_eq!(rest.split([',', ' ']).next(), Some(&*number.to_string()));
        assert_eq!(between(&format!("case {name}:"), ";"), format!("return {:?}", refusal.message()));
    }
}

/// A field of a C struct, as `raw.rs` has it. The length of an array has the same name here as there.
fn field(line: &str) -> String {
    let (declared, _) = line.split_once(';').unwrap();
    let (item, name) = match declared.trim().split_once(' ') {
        Some(("uint32_t", name)) => ("u32", name),
        Some(("int64_t", name)) => ("i64", name),
        _ => panic!("{declared} is of another type"),
    };
    match name.strip_suffix(']').and_then(|array| array.split_once("[JOBSTORE_")) {
        Some((name, length)) => format!("    pub {name}: [{item}; {length}],\n"),
        None => format!("    pub {name}: {item},\n"),
    }
}

/// The same fields in the same order.
#[test]
fn answers() {
    let raw = include_str!("../src/raw.rs");
    for name in ["Executed", "Committed", "Value", "Found", "Part", "Preview"] {
        let fields = between(&format!("struct jobstore_{} {{\n", name.to_lowercase()), "};").lines().map(field);
        let answer = format!("pub struct {name} {{\n{}}}", fields.collect::<String>());
        assert!(raw.contains(&answer), "the header has {answer}");
    }
}

#[test]
fn no_other_number_is_a_refusal() {
    for number in [0, Refusal::ALL.len() as u32 + 1, u32::MAX] {
        assert_eq!(Refusal::from_number(number), None);
    }
    assert_eq!(Refusal::Full.to_string(), "32 jobs are pending already (refusal 7)");
}
