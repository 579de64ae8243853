//! The examples: their files are the bytes of the texts beside them, and what the delivered program is
//! to print on them is what the reference gives, and what the library does.

use std::fs;
use std::path::{Path, PathBuf};

use reference::rules::Rules;
use reference::run::call::{call_by, values, Answer, MOST_FUEL};
use reference::{flow, number, policy, proved, proved_program};

/// The files of an example, each with the text that it is made from.
const FILES: [(&str, &str); 3] =
    [("policy.rxt", "policy.txt"), ("program.rxp", "program.txt"), ("memory.rxm", "memory.txt")];

struct Example {
    policy: Vec<u8>,
    program: Vec<u8>,
    memory: Vec<u8>,
}

/// The folder of all examples.
fn examples() -> PathBuf {
    Path::new(env!("CARGO_MANIFEST_DIR")).join("../examples")
}

fn folders() -> Vec<PathBuf> {
    let entries = fs::read_dir(examples()).unwrap().map(|entry| entry.unwrap().path());
    entries.filter(|path| path.is_dir()).collect()
}

fn text(path: PathBuf) -> String {
    fs::read_to_string(&path).unwrap_or_else(|error| panic!("{}: {error}", path.display()))
}

fn file(path: PathBuf) -> Vec<u8> {
    fs::read(&path).unwrap_or_else(|error| panic!("{}: {error}", path.display()))
}

/// The bytes of a text: two hexadecimal digits each, with comments from `#` on.
fn bytes(text: &str) -> Vec<u8> {
    let byte = |digits: &str| match digits.len() {
        2 => u8::from_str_radix(digits, 16).unwrap(),
        _ => panic!("{digits} is no byte"),
    };
    let parts = text.lines().map(|line| line.split('#').next().unwrap());
    parts.flat_map(str::split_whitespace).map(byte).collect()
}

impl Example {
    fn read(folder: &Path) -> Example {
        let [policy, program, memory] = FILES.map(|(name, _)| file(folder.join(name)));
        Example { policy, program, memory }
    }

    fn named(name: &str) -> Example {
        Example::read(&examples().join(name))
    }

    /// The run with the fuel that the delivered program takes.
    fn run_by_reference(&self) -> Answer {
        call_by(&Rules::default(), &self.policy, &self.program, &self.memory, MOST_FUEL).0
    }

    fn run_by_library(&self) -> Answer {
        let (mut policy, mut memory) = (self.policy.clone(), self.memory.clone());
        let (number, units) =
            proved_program::run(&mut policy, &self.program, &mut memory, MOST_FUEL);
        Answer { number, units, policy, memory }
    }
}

/// The lines that the delivered program prints.
fn printed(end: &Answer) -> String {
    let mut lines = format!("answer {}\n", end.number);
    if end.number == number::ACCEPTED {
        lines += &format!("used {}\n", end.units);
        for (variable, value) in values(&end.memory).iter().enumerate() {
            lines += &format!("v{variable} {value}\n");
        }
    }
    lines
}

#[test]
fn files_are_the_bytes_of_their_texts() {
    for folder in folders() {
        for (name, source) in FILES {
            let (found, made) = (file(folder.join(name)), bytes(&text(folder.join(source))));
            assert_eq!(found, made, "{}/{name}: run examples/make", folder.display());
        }
    }
}

#[test]
fn both_print_what_is_expected() {
    for folder in folders() {
        let (example, expected) = (Example::read(&folder), text(folder.join("expected.txt")));
        assert_eq!(printed(&example.run_by_reference()), expected, "reference: {folder:?}");
        assert_eq!(printed(&example.run_by_library()), expected, "proved: {folder:?}");
    }
}

/// Each folder says what it shows, and stands in the table of all with the number that it gives.
#[test]
fn each_is_described() {
    let folders = folders();
    let all = text(examples().join("README.md"));
    let rows = all.lines().filter(|line| line.starts_with("| `")).count();
    assert_eq!(rows, folders.len());
    assert!(rows >= 10);
    for folder in folders {
        assert!(text(folder.join("README.md")).starts_with("# "), "{folder:?}");
        let name = format!("| `{}` |", folder.file_name().unwrap().to_str().unwrap());
        let row = all.lines().find(|line| line.starts_with(&name)).expect(&name);
        let answer = Example::read(&folder).run_by_reference().number;
        assert!(row.ends_with(&format!("| {answer} |")), "{row}");
    }
}

/// The two programs of allowances differ in the version alone, and the rest not at all.
#[test]
fn allowances_differ_in_the_version() {
    let (one, two) = (Example::named("allowances"), Example::named("allowances_nearest"));
    assert_eq!((one.program[3], two.program[3]), (0x01, 0x02));
    assert_eq!((&one.program[..3], &one.program[4..]), (&two.program[..3], &two.program[4..]));
    assert_eq!((one.policy, one.memory), (two.policy, two.memory));
}

/// As its words say, the damage shows at byte 14.
#[test]
fn damage_shows_at_its_place() {
    let Example { policy, program, .. } = Example::named("damaged");
    assert_eq!(flow::verdict(&policy, &program), (13, 14));
    assert_eq!(proved_program::verdict(&policy, &program), (13, 14));
}

/// Role 0 may read the price; principal 2 is not in it before the run, and is after it.
#[test]
fn a_new_reader_may_read() {
    let example = Example::named("new_reader");
    assert_eq!(policy::meaning(&example.policy, 0), (0, 0b011));
    assert_eq!(policy::meaning(&example.run_by_reference().policy, 0), (0, 0b111));
    assert_eq!(proved::meaning(&example.run_by_library().policy, 0), (0, 0b111));
}

/// The policies that the words of the clinic and of the rollback give for the end.
#[test]
fn updates_are_kept() {
    let meanings = |policy: &[u8]| [0, 2, 3].map(|role| proved::meaning(policy, role).1);
    let clinic = Example::named("clinic");
    assert_eq!(meanings(&clinic.policy), [0b0001_1100, 0b0001_1100, 0b0001_1000]);
    for end in [clinic.run_by_reference(), clinic.run_by_library()] {
        assert_eq!(meanings(&end.policy), [0b0000_0100, 0b0000_0100, 0b0011_1000]);
    }
    let rollback = Example::named("rollback");
    for end in [rollback.run_by_reference(), rollback.run_by_library()] {
        assert_eq!(policy::meaning(&end.policy, 0), (0, 0));
    }
}
