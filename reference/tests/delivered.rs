//! The delivered program, by `./rx`: what it prints of the three files of a folder, and its exit
//! status. Files that are missing, that cannot be read, and of any length are among them.

use std::fs::{self, File};
use std::io::Write;
use std::path::{Path, PathBuf};
use std::process::Command;
use std::thread;
use std::time::Duration;

use reference::encode::encode;
use reference::program::{Program, Statement, Version};
use reference::shapes::{filling, skip, OPEN};
use reference::worked::E;

const GIGABYTE: u64 = 1 << 30;

/// v1 := v0 + 5, with v0 for everyone and v1 of role 0.
const FIRST: [u8; 20] = [
    0x52, 0x58, 0x50, 0x01, 0x00, 0x02, 0xFF, 0xFF, 0x00, 0x00, 0x01, 0x01, 0x02, 0x01, 0x00, 0x00,
    0x05, 0x00, 0x00, 0x00,
];

const FIRST_TEXT: &str = "answer 0\nused 1\nv0 7\nv1 12\n";

/// A folder of its own for a test.
struct Folder(PathBuf);

impl Folder {
    fn new(name: &str) -> Folder {
        let path = Path::new(env!("CARGO_TARGET_TMPDIR")).join("delivered").join(name);
        if path.exists() {
            fs::remove_dir_all(&path).expect("an earlier run's folder can be removed");
        }
        fs::create_dir_all(&path).expect("a folder can be made");
        Folder(path)
    }

    /// The worked run of policy E on memory 7, 0.
    fn first(name: &str) -> Folder {
        Folder::new(name).with("policy.rxt", &E).with("program.rxp", &FIRST).with_memory(&[7, 0])
    }

    fn with(self, name: &str, bytes: &[u8]) -> Folder {
        self.with_length(name, bytes, bytes.len() as u64)
    }

    fn with_memory(self, values: &[i32]) -> Folder {
        let bytes: Vec<u8> = values.iter().flat_map(|value| value.to_le_bytes()).collect();
        self.with("memory.rxm", &bytes)
    }

    /// Zeros follow the bytes up to the length; they take no room on the disk.
    fn with_length(self, name: &str, bytes: &[u8], length: u64) -> Folder {
        let mut file = File::create(self.0.join(name)).expect("a file can be made");
        file.write_all(bytes).expect("a file can be written");
        file.set_len(length).expect("a file can be made longer");
        self
    }

    fn without(self, name: &str) -> Folder {
        fs::remove_file(self.0.join(name)).expect("the file is there");
        self
    }

    /// What opens, and cannot be read.
    fn with_folder(self, name: &str) -> Folder {
        let folder = self.without(name);
        fs::create_dir(folder.0.join(name)).expect("a folder can be made");
        folder
    }

    fn assert_prints(&self, text: &str) {
        assert_printed(text, rx(Path::new("/"), &[&self.0]));
    }

    fn assert_answers(&self, number: u32) {
        self.assert_prints(&format!("answer {number}\n"));
    }
}

fn root() -> PathBuf {
    Path::new(env!("CARGO_MANIFEST_DIR"))
        .join("..")
        .canonicalize()
        .expect("the repository is there")
}

/// Status, standard output and standard error of `rx` with these arguments, started in a folder.
fn rx(from: &Path, arguments: &[&Path]) -> (i32, String, String) {
    let mut command = Command::new(root().join("rx"));
    let output = command.args(arguments).current_dir(from).output().expect("rx can be started");
    let text = |bytes: Vec<u8>| String::from_utf8(bytes).expect("rx writes text");
    (output.status.code().expect("rx ends by itself"), text(output.stdout), text(output.stderr))
}

fn assert_printed(text: &str, (status, printed, said): (i32, String, String)) {
    let expected = (text, i32::from(!text.starts_with("answer 0\n")));
    assert_eq!((printed.as_str(), status), expected, "{said}");
}

/// A program with this many variables for everyone.
fn program(variables: usize, statement: Statement) -> Vec<u8> {
    encode(&mut Program { version: Version::One, labels: vec![OPEN; variables], statement }).bytes
}

/// The text of a run of one unit that ends with these values.
fn text_of(values: &[i32]) -> String {
    let lines = values.iter().enumerate().map(|(x, value)| format!("v{x} {value}\n"));
    ["answer 0\nused 1\n".to_string()].into_iter().chain(lines).collect()
}

/// 64 roles of owner 0 with different names: the longest policy that is accepted.
fn longest_policy() -> Vec<u8> {
    let mut bytes = vec![0x52, 0x58, 0x54, 0x01, 0x00, 0x01, 64];
    for name in 0..64 {
        let mut row = [0; 22];
        (row[1], row[2], row[6]) = (name, 1, 1);
        bytes.extend(row);
    }
    bytes
}

#[test]
fn the_worked_run_from_any_folder() {
    let folder = Folder::first("worked");
    folder.assert_prints(FIRST_TEXT);
    let found = |from: &Path, arguments: &[&Path]| {
        let (status, printed, _) = rx(from, arguments);
        assert_eq!((printed.as_str(), status), (FIRST_TEXT, 0));
    };
    found(&folder.0, &[]);
    found(&folder.0, &[Path::new(".")]);
    found(folder.0.parent().expect("it is in a folder"), &[Path::new("worked")]);
    found(&root(), &[&folder.0]);
}

#[test]
fn no_answer_without_a_folder() {
    let folder = Folder::new("no-answer");
    for arguments in [&[Path::new("nowhere")][..], &[Path::new("")], &[&folder.0, &folder.0]] {
        let (status, printed, said) = rx(&folder.0, arguments);
        assert_eq!((status, printed.as_str()), (2, ""));
        assert!(said.starts_with("rx: "), "{said}");
    }
}

#[test]
fn a_missing_file_counts_as_empty() {
    Folder::new("empty").assert_answers(1);
    Folder::first("no-policy").without("policy.rxt").assert_answers(1);
    Folder::first("no-program").without("program.rxp").assert_answers(10);
    Folder::first("no-memory").without("memory.rxm").assert_answers(20);
    let none = Folder::first("no-variables").with("program.rxp", &program(0, skip()));
    none.without("memory.rxm").assert_prints("answer 0\nused 1\n");
}

#[test]
fn a_file_that_cannot_be_read_counts_as_empty() {
    for (name, number) in [("policy.rxt", 1), ("program.rxp", 10), ("memory.rxm", 20)] {
        Folder::first(&format!("folder-{name}")).with_folder(name).assert_answers(number);
        let shut = Folder::first(&format!("shut-{name}"));
        let path = shut.0.join(name);
        let mut rights = path.metadata().expect("the file is there").permissions();
        std::os::unix::fs::PermissionsExt::set_mode(&mut rights, 0);
        fs::set_permissions(&path, rights).expect("the file's rights can be set");
        // Who may read everything may read this too.
        match File::open(&path) {
            Ok(_) => shut.assert_prints(FIRST_TEXT),
            Err(_) => shut.assert_answers(number),
        }
    }
}

#[test]
fn a_file_that_comes_in_pieces_is_read_whole() {
    let folder = Folder::first("pieces").without("policy.rxt");
    let pipe = folder.0.join("policy.rxt");
    let made = Command::new("mkfifo").arg(&pipe).status().expect("mkfifo can be started");
    assert!(made.success());
    let end = thread::scope(|scope| {
        scope.spawn(|| {
            let mut end = File::options().write(true).open(&pipe).expect("the pipe is there");
            for piece in E.chunks(10) {
                // A program that does not read on is found by what it prints.
                if end.write_all(piece).is_err() {
                    return;
                }
                thread::sleep(Duration::from_millis(20));
            }
        });
        let end = rx(Path::new("/"), &[&folder.0]);
        // Where no program came to read the pipe, this lets the writer go on.
        File::options().read(true).write(true).open(&pipe).expect("the pipe is there");
        end
    });
    assert_printed(FIRST_TEXT, end);
}

#[test]
fn the_longest_files_and_one_byte_more() {
    let longest = longest_policy();
    Folder::first("policy-longest").with("policy.rxt", &longest).assert_prints(FIRST_TEXT);
    Folder::first("policy-longer").with_length("policy.rxt", &longest, 1416).assert_answers(1);

    let full = program(0, filling(4096 - 6));
    let runs = Folder::first("program-longest").with("program.rxp", &full).with_memory(&[]);
    let (status, printed, _) = rx(&runs.0, &[]);
    assert_eq!((status, printed.lines().count()), (0, 2), "{printed}");
    Folder::first("program-longer").with_length("program.rxp", &full, 4097).assert_answers(10);

    let values: Vec<i32> = (0..64).map(|x| if x % 2 == 0 { i32::MIN + x } else { x }).collect();
    let all = Folder::first("memory-longest").with("program.rxp", &program(64, skip()));
    let all = all.with_memory(&values);
    all.assert_prints(&text_of(&values));
    all.with_length("memory.rxm", &[], 257).assert_answers(20);
}

#[test]
fn a_gigabyte_has_the_number_of_its_first_bytes_and_length() {
    let policy = |head: &[u8], number| {
        Folder::first(&format!("policy-gigabyte-{number}"))
            .with_length("policy.rxt", head, GIGABYTE)
            .with_length("program.rxp", &[], GIGABYTE)
            .assert_answers(number);
    };
    policy(&E, 1);
    policy(&longest_policy(), 1);
    policy(&[0x52, 0x58, 0x54, 0x02, 0x00, 0x02, 0x01], 2);
    policy(&[], 2);
    policy(&[0x52, 0x58, 0x54, 0x01, 0x00, 0x00, 0x01], 3);
    policy(&[0x52, 0x58, 0x54, 0x01, 0x00, 0x02, 65], 3);

    let long = Folder::first("program-gigabyte").with_length("program.rxp", &FIRST, GIGABYTE);
    long.with_length("memory.rxm", &[], GIGABYTE).assert_answers(10);
    Folder::first("program-zeros").with_length("program.rxp", &[], GIGABYTE).assert_answers(10);
    Folder::first("memory-gigabyte").with_length("memory.rxm", &[7], GIGABYTE).assert_answers(20);
}

#[test]
fn values_are_signed_decimals() {
    let values = [0, 10, -1, 99, -100, i32::MAX, i32::MIN];
    let folder = Folder::first("values").with("program.rxp", &program(values.len(), skip()));
    folder.with_memory(&values).assert_prints(&text_of(&values));
}

#[test]
fn after_a_refusal_the_first_line_is_all() {
    let leak = [&FIRST[..10], &[0x01, 0x00, 0x01, 0x01]].concat();
    Folder::first("refused").with("program.rxp", &leak).assert_answers(17);
    Folder::first("one-value").with_memory(&[7]).assert_answers(20);
}
