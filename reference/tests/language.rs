//! The worked bytes of `docs/LANGUAGE.md`, read out of the document: each file stands at the offsets
//! that it shows, and both implementations give each example the number, place or meaning written
//! beside it.

use std::collections::HashMap;

use reference::flow;
use reference::policy;
use reference::proved;
use reference::proved_program;
use reference::rules::Rules;
use reference::run::call::call_by;

const DOCUMENT: &str = include_str!("../../docs/LANGUAGE.md");

/// The worked files, in the order in which the document has them.
const FILES: [&str; 7] =
    ["E", "F", "first program", "H", "listed labels", "rollback", "rollback against a leak"];

fn bytes(text: &str) -> Vec<u8> {
    text.split_whitespace().map(|byte| u8::from_str_radix(byte, 16).unwrap()).collect()
}

/// A line of a worked file: its offset, and the bytes before two spaces and the words.
fn line(text: &str) -> (usize, Vec<u8>) {
    let (offset, rest) = text.trim_start().split_once("  ").unwrap();
    (offset.parse().unwrap(), bytes(rest.split("  ").next().unwrap()))
}

/// The worked files by name; each line must stand at the offset that it shows.
fn files() -> HashMap<&'static str, Vec<u8>> {
    let blocks: Vec<&str> = DOCUMENT.split("```\n").skip(1).step_by(2).collect();
    assert_eq!(blocks.len(), FILES.len());
    let file = |block: &str| {
        block.lines().map(line).fold(vec![], |mut file: Vec<u8>, (offset, more)| {
            assert_eq!(file.len(), offset, "{block}");
            file.extend(more);
            file
        })
    };
    FILES.into_iter().zip(blocks.into_iter().map(file)).collect()
}

/// A policy as the tables name it: 'E, byte 9 = 02', 'E without its last byte', 'O'.
fn named(files: &HashMap<&str, Vec<u8>>, name: &str) -> Vec<u8> {
    if name == "O" {
        return named(files, "E, byte 9 = 01, byte 17 = 00");
    }
    if let Some(whole) = name.strip_suffix(" without its last byte") {
        let mut file = named(files, whole);
        file.pop();
        return file;
    }
    let mut parts = name.split(", byte ");
    let mut file = files[parts.next().unwrap()].clone();
    for part in parts {
        let (offset, byte) = part.split_once(" = ").unwrap();
        file[offset.parse::<usize>().unwrap()] = bytes(byte)[0];
    }
    file
}

/// The rows of the tables in a section, as cells without backquotes.
fn rows(section: &str) -> Vec<Vec<String>> {
    let text = DOCUMENT.split(&format!("# {section}\n")).nth(1).unwrap();
    let text = text.split("\n#").next().unwrap();
    let cells = |row: &str| row.split('|').map(|cell| cell.trim().replace('`', "")).collect();
    text.lines()
        .filter(|row| row.starts_with('|') && !row.starts_with("|---"))
        .map(|row| cells(row.trim_matches('|')))
        .collect()
}

/// The statement that a row gives, in a whole file of this version.
fn whole(version: u8, labels: &[u8], statement: &[u8]) -> Vec<u8> {
    let head = [0x52, 0x58, 0x50, version, 0x00, (labels.len() / 2) as u8];
    [&head, labels, statement].concat()
}

fn held(policy: &[u8], program: &[u8], expected: (u32, usize)) {
    assert_eq!(flow::verdict(policy, program), expected, "reference: {program:02X?}");
    assert_eq!(proved_program::verdict(policy, program), expected, "proved: {program:02X?}");
}

#[test]
fn policies() {
    let files = files();
    let mut seen = 0;
    for row in rows("The policy file").iter().filter(|row| row[0].starts_with(['E', 'F'])) {
        let Ok(number) = row[1].parse() else { continue };
        let file = named(&files, &row[0]);
        assert_eq!(policy::check(&file), number, "reference: {row:?}");
        assert_eq!(proved::policy(&file), number, "proved: {row:?}");
        seen += 1;
    }
    assert_eq!(seen, 12);
    for name in ["E", "F", "H"] {
        assert_eq!(proved::policy(&files[name]), 0, "{name}");
    }
}

#[test]
fn meanings() {
    let files = files();
    let mut seen = 0;
    for row in rows("Meanings").iter().filter(|row| row[0].starts_with(['E', 'F'])) {
        for (role, set) in row[1..3].iter().enumerate().filter(|(_, set)| !set.is_empty()) {
            let members = set.split(|c: char| !c.is_ascii_digit()).filter(|one| !one.is_empty());
            let bits = members.map(|one| 1 << one.parse::<u32>().unwrap()).sum();
            let file = named(&files, &row[0]);
            assert_eq!(policy::meaning(&file, role as u32), (0, bits), "reference: {row:?}");
            assert_eq!(proved::meaning(&file, role as u32), (0, bits), "proved: {row:?}");
            seen += 1;
        }
    }
    assert_eq!(seen, 10);
}

#[test]
fn readings() {
    let files = files();
    let rows = rows("How a file is read");
    let given = |row: &&Vec<String>| row[0].starts_with("52");
    for row in rows.iter().filter(given) {
        held(&files["E"], &bytes(&row[0]), (row[1].parse().unwrap(), row[2].parse().unwrap()));
    }
    assert_eq!(rows.iter().filter(given).count(), 18);
    held(&files["E"], &files["first program"], (0, 0));
}

/// Each row's quotient, of two constants, in both versions.
#[test]
fn quotients() {
    let policy = &files()["E"];
    let number = |cell: &str| cell.replace('\u{2212}', "-").parse::<i32>().unwrap();
    let mut seen = 0;
    for row in rows("Values and operators") {
        let Some((left, right)) = row[0].split_once(" by ") else { continue };
        let constant = |cell| [&[0x00], &number(cell).to_le_bytes()[..]].concat();
        let statement = [&[0x01, 0x00, 0x05], &constant(left)[..], &constant(right)].concat();
        for version in [1, 2] {
            let program = whole(version, &[0xFF, 0xFF], &statement);
            let expected = number(&row[usize::from(version)]).to_le_bytes();
            let memory = call_by(&Rules::default(), policy, &program, &[9; 4], 1).0.memory;
            assert_eq!(memory, expected, "reference: {row:?}, version {version}");
            let (mut policy, mut memory) = (policy.clone(), [9; 4]);
            let found = proved_program::run(&mut policy, &program, &mut memory, 1);
            assert_eq!((found, memory), ((0, 1), expected), "proved: {row:?}, version {version}");
        }
        seen += 1;
    }
    assert_eq!(seen, 13);
}

#[test]
fn verdicts() {
    let files = files();
    let mut seen = 0;
    for section in ["Assign, if, while", "Query", "Update and transaction"] {
        for row in rows(section).iter().filter(|row| ["E", "O", "H"].contains(&&*row[0])) {
            let labels = if row[1] == "none" { vec![] } else { bytes(&row[1]) };
            let expected = match row[3].split_once(" at ") {
                Some((number, place)) => (number.parse().unwrap(), place.parse().unwrap()),
                None => (row[3].parse().unwrap(), 0),
            };
            for version in [1, 2] {
                let program = whole(version, &labels, &bytes(&row[2]));
                held(&named(&files, &row[0]), &program, expected);
            }
            seen += 1;
        }
    }
    assert!(seen >= 20, "{seen} examples");
    held(&files["H"], &files["listed labels"], (17, 33));
    held(&files["F"], &files["rollback"], (0, 0));
    held(&files["H"], &files["rollback against a leak"], (0, 0));
}
