//! The program `gate-host` on files.
use std::io::Write;
use std::process::{Command, Stdio};

const EXAMPLES: &str = concat!(env!("CARGO_MANIFEST_DIR"), "/..");

/// What the program prints for these words and this input, and its status.
fn answer(words: &str, input: &str) -> (String, i32) {
    let mut host = Command::new(env!("CARGO_BIN_EXE_gate-host"))
        .args(words.split(' '))
        .current_dir(EXAMPLES)
        .stdin(Stdio::piped())
        .stdout(Stdio::piped())
        .stderr(Stdio::null())
        .spawn()
        .unwrap();
    // A host that reads nothing may have ended already.
    let _ = host.stdin.take().unwrap().write_all(input.as_bytes());
    let ended = host.wait_with_output().unwrap();
    (String::from_utf8(ended.stdout).unwrap(), ended.status.code().unwrap())
}

fn printed(text: &str, status: i32) -> (String, i32) {
    (text.to_string(), status)
}

#[test]
fn check() {
    assert_eq!(answer("check -", ""), printed("", 0));
    let names = "add.wasm\nfold.wat\nfold.wasm";
    assert_eq!(answer("check -", names), printed("accepted\nrefused malformed\naccepted\n", 0));
    let names = "add.wasm\nnone.wasm\nadd.wasm\n";
    assert_eq!(answer("check -", names), printed("accepted\ncannot be read\naccepted\n", 74));
}

#[test]
fn run() {
    let report = std::fs::read_to_string(format!("{EXAMPLES}/fold.report")).unwrap();
    assert_eq!(answer("run fold.wasm fold.calls 1000000 1024 256", ""), (report, 0));
    assert_eq!(answer("run fold.wat fold.calls 0 1 0", ""), printed("refused malformed\n", 2));
    assert_eq!(
        answer("run fold.wasm add.wasm 0 1 0", ""),
        printed("accepted\ncalls line 2 refused\n", 3)
    );
    assert_eq!(answer("run fold.wasm none.calls 0 1 0", ""), printed("", 74));
    for limits in ["1000000001 1 0", "0 0 0", "0 4097 0", "0 1 1025", "0 1", "0 1 -1", "0 1 0 0"] {
        assert_eq!(answer(&format!("run fold.wasm fold.calls {limits}"), ""), printed("", 64));
    }
}

#[test]
fn call() {
    assert_eq!(answer("call add.wasm add i32:40 i32:2", ""), printed("values i32:42 fuel 1\n", 0));
    assert_eq!(answer("call add.wasm add i32:40 i64:2", ""), printed("bad-arguments\n", 0));
    assert_eq!(answer("call fold.wasm stop", ""), printed("trap unreachable fuel 12\n", 0));
    assert_eq!(answer("call fold.wat stop", ""), printed("refused malformed\n", 2));
    assert_eq!(answer("call add.wasm add i32:01", ""), printed("", 64));
}
