// SPDX-License-Identifier: MIT
//! What people expect of a tool.

use super::folder::{done, Folder};
use std::io;
use std::process::{Command, Stdio};

const COMMANDS: [&str; 17] = [
    "keygen",
    "make",
    "add",
    "remove",
    "list",
    "seal",
    "open",
    "seal-pieces",
    "check",
    "report",
    "header",
    "ratchet",
    "kid",
    "group-kid",
    "group-parts",
    "change-epoch",
    "pages",
];

fn text(folder: &Folder, line: &str) -> String {
    String::from_utf8(folder.done(line)).unwrap()
}

#[test]
fn version() {
    let folder = Folder::new("version");
    let expected = format!("sframe {}\n", env!("CARGO_PKG_VERSION"));
    for line in ["--version", "-V", "version"] {
        assert_eq!(text(&folder, line), expected);
    }
}

#[test]
fn help_of_all_and_of_each() {
    let folder = Folder::new("help");
    let help = text(&folder, "--help");
    assert!(help.lines().all(|line| line.chars().count() <= 80));
    for line in ["-h", "help"] {
        assert_eq!(text(&folder, line), help);
    }
    for command in COMMANDS {
        assert!(
            help.contains(&format!("\n  sframe {command} ")),
            "{command}"
        );
        let own = text(&folder, &format!("{command} -h"));
        assert!(
            own.starts_with(&format!("usage: sframe {command} ")),
            "{own}"
        );
        assert!(own.lines().all(|line| line.chars().count() <= 80), "{own}");
        assert!(own.lines().count() < 30, "{own}");
        for line in [format!("{command} --help"), format!("help {command}")] {
            assert_eq!(text(&folder, &line), own);
        }
    }
    // Files that nobody named are told of.
    for file in ["STORE.lock", "LOG.lock", ".NAME.HEX.new", ".STORE.new"] {
        assert!(help.contains(file), "{file}");
    }
    let seal = text(&folder, "seal -h");
    assert!(
        seal.contains("--log LOG") && !seal.contains("--generation"),
        "{seal}"
    );
    // A wrong line names the help of its command.
    let message = folder.fails("seal ward", 64);
    assert!(
        message.ends_with("; `sframe seal -h` shows how to call it\n"),
        "{message}"
    );
    let message = folder.fails("frobnicate", 64);
    assert!(
        message.ends_with("; `sframe --help` shows how to call it\n"),
        "{message}"
    );
}

/// `-` is a standard stream wherever a file is read or written.
#[test]
fn standard_streams() {
    let folder = Folder::with_stores("streams-everywhere", 4);
    let run = |line: &str, input: &[u8]| done(line, folder.run_with_input(line, input));
    let frame = run("seal ward --kid 200 --in - --out -", b"a picture");
    folder.write("picture", b"a picture");
    let named = run(
        "seal ward --kid 200 --in picture --metadata - --out -",
        b"about",
    );
    let header = run("header --in -", &frame);
    assert_eq!(header, b"key number 200, counter 0, header of 2 bytes\n");
    assert_eq!(run("open doctor --in - --out -", &frame), b"a picture");
    folder.write("frame", &named);
    let open = "open doctor --in frame --metadata - --out -";
    assert_eq!(run(open, b"about"), b"a picture");
    run("add ward --sending --kid 1 --suite 4 --key -", &[7; 16]);
    let walk = "ratchet --suite 4 --key - --steps 0 --out -";
    assert_eq!(run(walk, &[7; 16]), [7; 16]);
    assert_eq!(run("keygen --out - --hex", b"").len(), 65);
    for line in [
        "seal ward --kid 200 --in - --metadata -",
        "seal ward --kid 200 --metadata -",
    ] {
        let message = folder.fails(line, 64);
        assert!(message.contains("--in and --metadata cannot both be standard input"));
    }
    assert!(!folder.path("-").exists());
}

#[test]
fn words_behind_two_dashes() {
    let folder = Folder::with_stores("dashes", 4);
    std::fs::rename(folder.path("ward"), folder.path("--ward")).unwrap();
    folder.done("seal --kid=200 --in=key --out=frame -- --ward");
    assert_eq!(folder.done("open --in frame -- doctor"), [7; 32]);
    folder.done("list --json -- --ward");
    folder.fails("list -- --ward --json", 64);
    folder.fails("list --ward", 64);
}

/// A program whose output is closed at once.
#[track_caller]
fn ends_in_silence(mut command: Command) {
    let (reader, writer) = io::pipe().unwrap();
    drop(reader);
    let output = command.stdout(writer).stderr(Stdio::piped()).output();
    let output = output.unwrap();
    assert_eq!(String::from_utf8_lossy(&output.stderr), "");
    assert_eq!(output.status.code(), Some(141));
}

#[test]
fn closed_pipes() {
    let folder = Folder::with_stores("pipes", 4);
    folder.done("seal ward --kid 200 --in key --out frame");
    for line in [
        "--help",
        "seal -h",
        "--version",
        "list ward",
        "list ward --json",
        "pages man",
        "seal ward --kid 200 --in key",
        "open doctor --in frame",
        "header --in frame",
        "kid --generation 1 --step 1 --bits 4",
    ] {
        ends_in_silence(folder.command(line));
    }
    ends_in_silence(Command::new(env!("CARGO_BIN_EXE_demo")));
}

#[test]
fn a_list_as_json() {
    let folder = Folder::with_stores("json", 4);
    folder.done("make empty --keys 3");
    let expected = "{\n  \"records\": 3,\n  \"keys\": []\n}\n";
    assert_eq!(text(&folder, "list empty --json"), expected);

    folder.done("seal ward --kid 200 --in key --out frame");
    folder.done("open doctor --in frame");
    folder.done("add ward --sending --kid 0xffffffffffffffff --suite 1 --key key");
    folder.done("remove ward --kid 0xffffffffffffffff");
    let table = text(&folder, "list ward");
    let print = table
        .lines()
        .nth(1)
        .unwrap()
        .split_whitespace()
        .last()
        .unwrap();
    let suite = r#""suite": 4, "suite_name": "AES_128_GCM_SHA256_128""#;
    let expected = format!(
        r#"{{
  "records": 2,
  "keys": [
    {{"role": "sending", {suite}, "kid": "200", "next_counter": "1", "spent": false, "highest_opened": null, "window": null, "fingerprint": "{print}"}},
    {{"role": "retired", "suite": 1, "suite_name": "AES_128_CTR_HMAC_SHA256_80", "kid": "18446744073709551615", "next_counter": "0", "spent": false, "highest_opened": null, "window": null, "fingerprint": null}}
  ]
}}
"#
    );
    assert_eq!(text(&folder, "list ward --json"), expected);
    let expected = format!(
        r#"{{
  "records": 2,
  "keys": [
    {{"role": "receiving", {suite}, "kid": "200", "next_counter": null, "spent": false, "highest_opened": "0", "window": "0000000000000001", "fingerprint": "{print}"}}
  ]
}}
"#
    );
    assert_eq!(text(&folder, "list doctor --json"), expected);
}
