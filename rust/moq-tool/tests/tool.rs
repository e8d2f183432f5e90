// SPDX-License-Identifier: MIT
//! The command-line tool and the demonstration, run as processes.

use std::fs;
use std::io;
use std::os::unix::fs::PermissionsExt;
use std::path::{Path, PathBuf};
use std::process::{self, Command, Output};

const TRACK: &str = "--name 0104726f6f6d05766964656f --key-id 7";

struct Folder(PathBuf);

impl Folder {
    fn new(name: &str) -> Self {
        let name = format!("moq-{name}-{}", process::id());
        let path = Path::new(env!("CARGO_TARGET_TMPDIR")).join(name);
        let _ = fs::remove_dir_all(&path);
        fs::create_dir_all(&path).expect("a folder for the test");
        let folder = Folder(path);
        folder.write("key", &(0..16).collect::<Vec<u8>>());
        folder.write("properties", &[2, 7]);
        for (store, role) in [("publisher", "--sending"), ("subscriber", "--receiving")] {
            folder.done(&format!("make {store} --tracks 2"));
            folder.done(&format!("add {store} {role} {TRACK} --suite 4 --key key"));
        }
        folder
    }

    /// Writes a file that only its owner can read, as a key's should be.
    fn write(&self, name: &str, bytes: &[u8]) {
        fs::write(self.0.join(name), bytes).expect("a file for the test");
        let private = PermissionsExt::from_mode(0o600);
        fs::set_permissions(self.0.join(name), private).expect("a file for the test");
    }

    fn read(&self, name: &str) -> Vec<u8> {
        fs::read(self.0.join(name)).expect("a file of the test")
    }

    fn run(&self, line: &str) -> Output {
        Command::new(env!("CARGO_BIN_EXE_moq"))
            .args(line.split_whitespace())
            .current_dir(&self.0)
            .output()
            .expect("the tool starts")
    }

    #[track_caller]
    fn done(&self, line: &str) -> Vec<u8> {
        let output = self.run(line);
        let errors = String::from_utf8_lossy(&output.stderr);
        assert_eq!((output.status.code(), &*errors), (Some(0), ""), "{line}");
        output.stdout
    }

    /// The run ends with that status and one line, which it answers, and the
    /// store has not changed.
    #[track_caller]
    fn fails(&self, line: &str, status: i32) -> String {
        let before = self.read("publisher");
        let output = self.run(line);
        let message = String::from_utf8(output.stderr).expect("text");
        assert_eq!(output.status.code(), Some(status), "{line}: {message}");
        assert!(
            message.starts_with("moq: ") && message.lines().count() == 1,
            "{message}"
        );
        assert_eq!(self.read("publisher"), before);
        message
    }
}

impl Drop for Folder {
    fn drop(&mut self) {
        let _ = fs::remove_dir_all(&self.0);
    }
}

#[test]
fn seals_and_opens() {
    let folder = Folder::new("seals");
    folder.write("text", b"\x05hello");
    let at = format!("{TRACK} --group 1 --object 2 --properties properties");
    let sealed = folder.done(&format!("seal publisher {at} --in text --hex"));
    assert_eq!(sealed, b"01b740cf5c3f74a605473ba9d567c0cb77879fd5ca84\n");
    folder.write("object", &sealed);
    let opened = folder.done(&format!("open subscriber {at} --in object --hex"));
    assert_eq!(opened, b"\x05hello");

    let next = format!("{TRACK} --group 1 --object 0x3 --properties properties");
    folder.done(&format!("seal publisher {next} --in text --out sealed"));
    folder.done(&format!("open subscriber {next} --in sealed --out opened"));
    assert_eq!(folder.read("opened"), b"\x05hello");
}

#[test]
fn refusals() {
    let folder = Folder::new("refusals");
    folder.write("text", b"");
    let seal = |group: u64, object: u64| {
        format!("seal publisher {TRACK} --group {group} --object {object} --in text")
    };
    folder.write("sealed", &folder.done(&seal(5, 5)));
    folder.fails(&seal(5, 5), 24);
    folder.fails(&seal(5, 1 << 32), 25);
    folder.fails(
        &format!("add publisher --sending {TRACK} --suite 4 --key key"),
        4,
    );
    folder.fails(
        "add publisher --sending --name 00 --key-id 7 --suite 3 --key key",
        17,
    );
    folder.fails(
        "add publisher --sending --name 00 --key-id 7 --suite 9 --key key",
        2,
    );
    folder.fails("remove publisher --name 00 --key-id 7", 6);
    folder.fails(
        &format!("open publisher {TRACK} --group 5 --object 5 --in sealed"),
        7,
    );
    folder.fails(
        &format!("open subscriber {TRACK} --group 5 --object 6 --in sealed"),
        13,
    );
    folder.fails("make more --tracks 17", 1);
    folder.fails("make publisher --tracks 2", 74);
    folder.fails("remove publisher --name xy --key-id 7", 65);
    folder.fails(&format!("remove publisher {TRACK} --more"), 64);
    folder.fails(
        &format!("seal publisher {TRACK} --group 6 --object 0 --in text --out publisher"),
        64,
    );
    folder.done(&format!("remove publisher {TRACK}"));
    folder.fails(&format!("remove publisher {TRACK}"), 7);
}

#[test]
fn help_names_every_command() {
    let help = String::from_utf8(Folder::new("help").done("--help")).expect("text");
    assert!(help.lines().all(|line| line.chars().count() <= 80));
    let folder = Folder::new("help-of-each");
    for command in ["make", "add", "remove", "list", "seal", "open"] {
        assert!(
            help.contains(&format!("  moq {command} STORE")),
            "{command}"
        );
        let own = String::from_utf8(folder.done(&format!("{command} -h"))).expect("text");
        assert!(
            own.starts_with(&format!("usage: moq {command} STORE")),
            "{own}"
        );
    }
    for number in [1, 2, 3, 4, 5, 6, 7, 9, 11, 13, 17, 24, 25] {
        let cause = format!("{number:>3}  ");
        assert!(help.contains(&cause), "no cause of {number}");
    }
    for text in ["a copy of a store", "from a backup", ".NAME.HEX.new"] {
        let words = help.split_whitespace().collect::<Vec<_>>().join(" ");
        assert!(words.contains(text), "{text}");
    }
    let version = format!("moq {}\n", env!("CARGO_PKG_VERSION"));
    assert_eq!(folder.done("--version"), version.as_bytes());
}

/// A list shows every track and no key, and changes nothing.
#[test]
fn lists() {
    let folder = Folder::new("lists");
    folder.write("text", b"hello");
    let list = |line: &str| String::from_utf8(folder.done(line)).expect("text");
    let json = "{\n  \"records\": 3,\n  \"tracks\": []\n}\n";
    folder.done("make empty --tracks 3");
    assert_eq!(list("list empty --json"), json);
    let titles = "role  suite  Key ID  last group  last object  name\n";
    let none = format!("{titles}0 of 3 records in use\n");
    assert_eq!(list("list empty"), none);

    let seal = |track: &str, group: u64, object: u64| {
        let at = format!("{track} --group {group} --object {object}");
        folder.done(&format!(
            "seal publisher {at} --in text --out object --force"
        ));
    };
    seal(TRACK, u64::MAX, 0xffff_ffff);
    let other = "--name= --key-id 0xffffffffffffffff";
    folder.done(&format!(
        "add publisher --sending {other} --suite 1 --key key"
    ));
    seal(other, 0, 0);
    folder.done(&format!("remove publisher {other}"));
    let long = "ab".repeat(256);
    folder.done(&format!(
        "add subscriber --receiving --name {long} --key-id 0 --suite 3 --key key"
    ));
    let files = ["publisher", "subscriber"].map(|store| folder.read(store));
    fs::remove_file(folder.0.join("publisher.lock")).expect("a lock");
    let mode = PermissionsExt::from_mode(0o400);
    fs::set_permissions(folder.0.join("publisher"), mode).expect("a file of the test");

    let expected = "\
role     suite                                       Key ID            last group  last object  name
sending  4 AES_128_GCM_SHA256_128                         7  18446744073709551615   4294967295  0104726f6f6d05766964656f
retired  1 AES_128_CTR_HMAC_SHA256_80  18446744073709551615                     0            0  (empty)
2 of 2 records in use
";
    assert_eq!(list("list publisher"), expected);
    let expected = r#"{
  "records": 2,
  "tracks": [
    {"role": "sending", "suite": 4, "suite_name": "AES_128_GCM_SHA256_128", "key_id": "7", "last_group": "18446744073709551615", "last_object": 4294967295, "name": "0104726f6f6d05766964656f"},
    {"role": "retired", "suite": 1, "suite_name": "AES_128_CTR_HMAC_SHA256_80", "key_id": "18446744073709551615", "last_group": "0", "last_object": 0, "name": ""}
  ]
}
"#;
    assert_eq!(list("list publisher --json"), expected);
    let shown = list("list subscriber --json");
    assert!(shown.contains(&format!(
        r#""suite": 3, "suite_name": "AES_128_CTR_HMAC_SHA256_32", "key_id": "0", "last_group": null, "last_object": null, "name": "{long}"}}"#
    )));
    assert!(list("list subscriber").contains("receiving"));
    assert_eq!(
        files,
        ["publisher", "subscriber"].map(|store| folder.read(store))
    );
    assert!(!folder.0.join("publisher.lock").exists());

    folder.fails("list text", 1);
    folder.fails("list nowhere", 74);
    folder.fails("list", 64);
    folder.fails("list publisher --hex", 64);
    assert!(!folder.0.join("text.lock").exists());
}

/// As with `sframe`: no file is lost, no pair used for nothing, no key shown.
#[test]
fn nothing_hurts() {
    let folder = Folder::new("hurts");
    folder.write("text", &[5; 100]);
    let seal = |object: u64, rest: &str| {
        format!("seal publisher {TRACK} --group 1 --object {object} --in text {rest}")
    };
    folder.write("sealed", b"before");
    let message = folder.fails(&seal(1, "--out sealed"), 74);
    assert!(message.contains("--force would replace it"), "{message}");
    assert_eq!(folder.read("sealed"), b"before");
    for out in ["subscriber", "key", "no/where"] {
        folder.fails(&seal(1, &format!("--out {out} --force")), 74);
    }
    for out in ["publisher", "publisher.lock"] {
        folder.fails(&seal(1, &format!("--out {out} --force")), 64);
    }
    folder.done(&seal(1, "--out sealed --force"));
    assert_eq!(folder.read("sealed").len(), 116);

    folder.fails("make - --tracks 2", 64);
    let message = folder.fails("make text --tracks 2", 74);
    assert!(
        message.contains("a store is never made over one"),
        "{message}"
    );
    folder.fails(&format!("remove text {TRACK}"), 1);
    assert!(!folder.0.join("text.lock").exists());
    let key = "00112233445566778899aabbccddeeff";
    for line in [
        format!("remove publisher --name 00 --key-id {key}"),
        format!("remove publisher {TRACK} {key}"),
        format!("seal publisher {TRACK} --group {key} --object 1"),
    ] {
        let message = folder.fails(&line, 64);
        assert!(!message.contains("0011"), "{message}");
    }

    let lock = fs::File::open(folder.0.join("publisher.lock")).expect("a lock");
    lock.lock().expect("the lock");
    folder.fails(&seal(2, "--out other --wait 0"), 75);
    drop(lock);
    folder.write("more", &[0; 32_769]);
    let at = format!("{TRACK} --group 1 --object 3");
    let message = folder.fails(&format!("seal publisher {at} --in more"), 9);
    assert!(
        message.contains("the plaintext has more than 32768 bytes"),
        "{message}"
    );
    folder.write("more", &[0; 1_025]);
    let message = folder.fails(
        &format!("seal publisher {at} --in text --properties more"),
        9,
    );
    assert!(
        message.contains("the properties have more than 1024 bytes"),
        "{message}"
    );
}

#[test]
fn files_of_the_package() {
    let folder = Folder::new("pages");
    let share = Path::new(env!("CARGO_MANIFEST_DIR")).join("../../share");
    for (page, file) in [
        ("man", "man/man1/moq.1"),
        ("bash", "bash-completion/completions/moq"),
        ("zsh", "zsh/site-functions/_moq"),
        ("fish", "fish/vendor_completions.d/moq.fish"),
    ] {
        let printed = folder.done(&format!("pages {page}"));
        let kept = fs::read(share.join(file)).unwrap_or_default();
        assert!(
            printed == kept,
            "share/{file} is not what `moq pages {page}` prints"
        );
    }
}

#[test]
fn closed_pipes() {
    let folder = Folder::new("pipes");
    let mut help = Command::new(env!("CARGO_BIN_EXE_moq"));
    help.arg("--help").current_dir(&folder.0);
    for mut command in [help, Command::new(env!("CARGO_BIN_EXE_publish"))] {
        let (reader, writer) = io::pipe().expect("a pipe");
        drop(reader);
        let output = command.stdout(writer).output().expect("it starts");
        assert_eq!(String::from_utf8_lossy(&output.stderr), "");
        assert_eq!(output.status.code(), Some(141));
    }
}

/// No pair is used for an object that would be lost. Opening uses nothing up.
#[test]
fn standard_output_that_is_closed() {
    let folder = Folder::new("closed");
    folder.write("text", b"hello");
    let run = |line: &str, how: &str| {
        let script = format!("exec \"$0\" {line} {how}");
        let mut shell = Command::new("sh");
        shell.args(["-c", &script, env!("CARGO_BIN_EXE_moq")]);
        shell.current_dir(&folder.0).output().expect("a shell")
    };
    let at = format!("{TRACK} --group 1 --object 1");
    let seal = format!("seal publisher {at} --in text");
    let before = folder.read("publisher");
    let output = run(&seal, ">&-");
    let message = String::from_utf8_lossy(&output.stderr);
    assert_eq!(output.status.code(), Some(74), "{message}");
    assert!(message.contains("standard output: closed"), "{message}");
    assert_eq!(folder.read("publisher"), before);
    folder.done(&format!("{seal} --out object"));
    let open = format!("open subscriber {at} --in object");
    for how in [">&-", ">/dev/null"] {
        assert_eq!(run(&open, how).status.code(), Some(0));
    }
}

#[test]
fn the_demonstration_runs() {
    let output = Command::new(env!("CARGO_BIN_EXE_publish"))
        .output()
        .expect("the demonstration starts");
    assert!(output.status.success());
    let text = String::from_utf8(output.stdout).expect("text");
    for shown in [
        "opens to \"next key frame\"",
        "refused (24)",
        "refused (25)",
        "refused (13)",
        "refused (4)",
    ] {
        assert!(text.contains(shown), "{shown}");
    }
}
