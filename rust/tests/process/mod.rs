//! A program of the repository as a process: where it is, what it wrote, and what it said.
// Each test uses a part of it.
#![allow(dead_code)]
use std::env;
use std::path::{Path, PathBuf};
use std::process::Child;

pub fn repository() -> PathBuf {
    Path::new(env!("CARGO_MANIFEST_DIR")).join("..")
}

/// The program of this name: ZORPEDI_ and its name in capitals says where it is, else it stands where `tools/programs` puts it.
pub fn program(name: &str) -> PathBuf {
    let variable = format!("ZORPEDI_{}", name.to_uppercase());
    let path = env::var_os(&variable).map_or_else(|| repository().join("target/bin").join(name), PathBuf::from);
    assert!(path.is_file(), "{} is not there. Run `tools/programs {name}` in the repository, or set {variable} to the program.", path.display());
    path
}

/// The first line that differs; a whole print could be megabytes.
pub fn assert_same(got: &[u8], expected: &str) {
    if got == expected.as_bytes() {
        return;
    }
    let got = String::from_utf8_lossy(got);
    for (number, (one, other)) in (1..).zip(got.lines().zip(expected.lines())) {
        assert_eq!(one, other, "line {number} of the output");
    }
    panic!("{} bytes and {} lines of output, expected {} and {}", got.len(), got.lines().count(), expected.len(), expected.lines().count());
}

/// A process to its end: its exit status, what it writes, and what it says on standard error.
pub fn ended(child: Child) -> (i32, String, String) {
    let output = child.wait_with_output().expect("it ends");
    let text = |bytes| String::from_utf8(bytes).expect("it is text");
    (output.status.code().expect("no signal ends it"), text(output.stdout), text(output.stderr))
}

/// What a process that goes well writes, and what it says: its status is 0.
pub fn written_and_said(child: Child) -> (String, String) {
    let (status, written, said) = ended(child);
    assert_eq!((status, said.as_str()), (0, said.as_str()));
    (written, said)
}

/// A process with which something goes wrong: its status is 1, and it says so in one line.
pub fn failed(child: Child) -> (String, String) {
    let (status, written, said) = ended(child);
    assert_eq!((status, said.matches('\n').count(), said.ends_with('\n')), (1, 1, true), "{said}");
    (written, said)
}
