//! The files of the repository, and the program, which $N2KDEC_PROGRAM names.
use std::env;
use std::path::{Path, PathBuf};
use std::process::Command;

pub fn at(path: &str) -> PathBuf {
    PathBuf::from(env!("CARGO_MANIFEST_DIR")).join("../..").join(path)
}

/// What the program prints and reports of a log, with a table.
pub fn of_program(words: &[&str], table: &str, log: &Path) -> (Vec<String>, Vec<String>) {
    let program = env::var_os("N2KDEC_PROGRAM").expect("N2KDEC_PROGRAM names the program");
    let ran = Command::new(program).arg("decode").args(words).arg("--table").arg(at(table)).arg(log).output().unwrap();
    let lines = |bytes: &[u8]| std::str::from_utf8(bytes).unwrap().split_terminator('\n').map(str::to_owned).collect::<Vec<_>>();
    (lines(&ran.stdout), lines(&ran.stderr))
}
