//! The example `plugin_host` on the plug-ins of examples/guests.
use std::env;
use std::process::Command;

/// What the program prints for these words: on standard output, and on standard error.
fn answer(words: &[&str]) -> (String, String) {
    // Cargo puts examples beside the folder of the tests.
    let place = env::current_exe().unwrap().parent().unwrap().join("../examples/plugin_host");
    let guests = concat!(env!("CARGO_MANIFEST_DIR"), "/../guests");
    let ended = Command::new(place).args(words).current_dir(guests).output().unwrap();
    let text = |bytes| String::from_utf8(bytes).unwrap();
    (text(ended.stdout), text(ended.stderr))
}

#[test]
fn upper() {
    let long = "a".repeat(8_192);
    let (printed, said) = answer(&["upper.wasm", "hello, world", &long, "again"]);
    assert_eq!(printed, format!("HELLO, WORLD\n{}\nAGAIN\n", "A".repeat(8_192)));
    assert_eq!(said, "");
}

#[test]
fn pick() {
    let words = [
        "pick.wasm",
        "name\n{\"name\": \"gate\", \"length\": 17}",
        "none\n{}",
        "length\n{\"length\": 17}",
    ];
    let wanted = ("gate\n17\n".to_string(), "plugin_host: the plug-in gives no answer\n".to_string());
    assert_eq!(answer(&words), wanted);
}

#[test]
fn failures() {
    let too_long = "a".repeat(8_193);
    let (printed, said) = answer(&["upper.wasm", &too_long, "on"]);
    assert_eq!(
        (printed.as_str(), said.as_str()),
        ("ON\n", "plugin_host: the plug-in has no room for the text\n")
    );
    let (printed, said) = answer(&["../add.wasm", "text"]);
    assert_eq!(
        (printed.as_str(), said.as_str()),
        ("", "plugin_host: the plug-in failed: no-export\n")
    );
}
