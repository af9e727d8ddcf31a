//! Runs the built program findrules.

use std::io::{ErrorKind, Read, Write};
use std::path::PathBuf;
use std::process::{Command, Stdio};

pub fn root() -> PathBuf {
    PathBuf::from(env!("CARGO_MANIFEST_DIR")).parent().unwrap().to_path_buf()
}

/// The program that `tools/build` builds.
pub fn path() -> PathBuf {
    let path = root().join("target/bin/findrules");
    assert!(path.is_file(), "{} is not there: build it with `tools/build`", path.display());
    path
}

/// What the program writes on this input, handed over in pieces of at most so many bytes.
pub fn run(input: &[u8], piece: usize) -> Vec<u8> {
    let mut child =
        Command::new(path()).stdin(Stdio::piped()).stdout(Stdio::piped()).stderr(Stdio::piped()).spawn().expect("the program starts");
    let mut stdin = child.stdin.take().unwrap();
    for part in input.chunks(piece.max(1)) {
        match stdin.write_all(part) {
            // It need not read on once it has seen that there is too much.
            Err(e) if e.kind() == ErrorKind::BrokenPipe => break,
            said => said.expect("the program takes its input"),
        }
    }
    drop(stdin);
    let (mut out, mut err) = (Vec::new(), Vec::new());
    child.stdout.take().unwrap().read_to_end(&mut out).unwrap();
    child.stderr.take().unwrap().read_to_end(&mut err).unwrap();
    let status = child.wait().unwrap();
    assert!(status.success() && err.is_empty(), "{status}, {}", String::from_utf8_lossy(&err));
    out
}

/// Compares the program's output with what is expected, byte for byte; a difference ends the test with the input in a file.
pub fn compare(name: &str, input: &[u8], piece: usize, expected: &[u8]) {
    let out = run(input, piece);
    if out != expected {
        let at = out.iter().zip(expected).take_while(|(x, y)| x == y).count();
        let file = std::env::temp_dir().join(format!("findrules-{name}.txt"));
        std::fs::write(&file, input).unwrap();
        let line = |s: &[u8]| String::from_utf8_lossy(s).lines().next().unwrap_or("").to_string();
        panic!(
            "{name}: byte {at} of the output differs; it begins {:?}, expected {:?}; the input is in {}",
            line(&out),
            line(expected),
            file.display()
        );
    }
}
