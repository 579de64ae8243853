//! The library as C and C++ see it: `caller.c` is compiled against `include/rx.h` and linked with the
//! proved library alone.

use std::collections::BTreeSet;
use std::path::Path;
use std::process::{Command, Output};

#[test]
fn a_c_program_gets_the_documents_answers() {
    // Rust's own linker on this target, so it is there wherever these tests are built.
    assert_gets_answers("cc", &["-std=c99"], "caller-c");
}

#[test]
fn a_cpp_program_gets_the_documents_answers() {
    assert_gets_answers("c++", &["-std=c++11", "-x", "c++"], "caller-cpp");
}

/// A caller without a C library has these two to bring.
#[test]
fn the_library_needs_two_functions_from_outside() {
    let archive = Path::new(env!("CARGO_MANIFEST_DIR")).join("../target/staticlib/librx.a");
    let output = Command::new("nm").arg("-u").arg(archive).output().expect("nm comes with cc");
    assert!(output.status.success(), "{}", text(&output));
    let listed = text(&output);
    let names: BTreeSet<&str> =
        listed.lines().filter_map(|line| line.trim().strip_prefix("U ")).collect();
    assert_eq!(names, BTreeSet::from(["memcpy", "memset"]));
}

/// Compiles the caller without a warning, links and runs it.
fn assert_gets_answers(compiler: &str, language: &[&str], name: &str) {
    let package = Path::new(env!("CARGO_MANIFEST_DIR"));
    let folder = Path::new(env!("CARGO_TARGET_TMPDIR"));
    let (object, caller) = (folder.join(name).with_extension("o"), folder.join(name));
    let mut compile = Command::new(compiler);
    compile.args(language).args(["-pedantic", "-Wall", "-Wextra", "-Werror", "-I"]);
    compile.arg(package.join("../include")).arg("-c").arg(package.join("tests/caller.c"));
    assert_runs(compile.arg("-o").arg(&object));
    let mut link = Command::new(compiler);
    link.arg(&object).arg(package.join("../target/staticlib/librx.a"));
    assert_runs(link.arg("-o").arg(&caller));
    assert_runs(&mut Command::new(caller));
}

fn assert_runs(command: &mut Command) {
    let output = command.output().unwrap_or_else(|error| panic!("{command:?}: {error}"));
    assert!(output.status.success(), "{command:?}: {}", text(&output));
}

fn text(output: &Output) -> String {
    let both = [&output.stdout[..], &output.stderr[..]].concat();
    String::from_utf8_lossy(&both).into_owned()
}
