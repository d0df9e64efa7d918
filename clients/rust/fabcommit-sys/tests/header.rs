//! The numbers and names are those of the header.
const HEADER: &str = include_str!("../../../../include/fabcommit.h");
const CODES: &str = include_str!("../src/codes.rs");
const CALLS: &str = include_str!("../src/lib.rs");

/// The words of a text that may be names.
fn words(text: &str) -> impl Iterator<Item = &str> {
    text.split(|c: char| !c.is_ascii_alphanumeric() && c != '_').filter(|word| !word.is_empty())
}

#[test]
fn numbers() {
    let mut found = 0;
    for line in HEADER.lines() {
        let (Some((name, number)), true) = (line.trim().split_once(" = "), line.trim().starts_with("FABCOMMIT_"))
        else {
            continue;
        };
        let number = words(number).next().unwrap();
        let kind = if name.contains("REASON") { "u8" } else { "u32" };
        assert!(CODES.contains(&format!("pub const {name}: {kind} = {number};")), "{line}");
        found += 1;
    }
    assert_eq!(found, CODES.matches("pub const").count() - 1);
    assert!(HEADER.contains(&format!("#define FABCOMMIT_INTERFACE {}u", fabcommit_sys::FABCOMMIT_INTERFACE)));
}

#[test]
fn names() {
    let calls = HEADER.lines().filter(|line| line.starts_with("uint32_t ") || line.starts_with("void "));
    let mut found = 0;
    for line in calls {
        let name = words(line).nth(1).unwrap();
        assert!(CALLS.contains(&format!("pub fn {name}(")), "{line}");
        found += 1;
    }
    assert_eq!(found, CALLS.matches("pub fn").count());
}
