// SPDX-License-Identifier: MIT
//! A folder of its own for each test, and runs of the tool in it.

use reference::record::{Record, State};
use reference::suites::Suite;
use std::fs;
use std::io::Write;
use std::os::unix::fs::PermissionsExt;
use std::path::{Path, PathBuf};
use std::process::{self, Command, Output, Stdio};
use std::thread;

pub struct Folder(PathBuf);

impl Folder {
    /// An empty folder, which other runs of the tests do not use.
    pub fn new(name: &str) -> Self {
        let name = format!("tool-{name}-{}", process::id());
        let path = Path::new(env!("CARGO_TARGET_TMPDIR")).join(name);
        // An earlier process may have had the same number.
        let _ = fs::remove_dir_all(&path);
        fs::create_dir_all(&path).expect("a folder for the test");
        Folder(path)
    }

    /// A folder with the stores `ward`, which sends key number 200 under the
    /// suite, and `doctor`, which receives it. A sender of suite 3, which the tool
    /// does not add, is the record of an older store.
    pub fn with_stores(name: &str, suite: u8) -> Self {
        let folder = Folder::new(name);
        folder.write("key", &[7; 32]);
        for (store, role) in [("ward", "--sending"), ("doctor", "--receiving")] {
            folder.done(&format!("make {store} --keys 2"));
            if suite == 3 && role == "--sending" {
                folder.put_sender(store, Suite::Aes128CtrHmacSha256_32);
            } else {
                let add = format!("add {store} {role} --kid 200 --suite {suite} --key key");
                folder.done(&add);
            }
        }
        folder
    }

    /// Writes the sender of key number 200 into a store's file.
    fn put_sender(&self, store: &str, suite: Suite) {
        let mut bytes = self.read(store);
        let record = Record::new(State::Sending, suite, 200, &self.read("key"));
        reference::store::put(&mut bytes, record);
        self.write(store, &bytes);
    }

    pub fn path(&self, file: &str) -> PathBuf {
        self.0.join(file)
    }

    /// Writes a file that only its owner can read, as a key's should be.
    pub fn write(&self, file: &str, bytes: &[u8]) {
        fs::write(self.path(file), bytes).expect("a file of the test");
        self.set_mode(file, 0o600);
    }

    pub fn set_mode(&self, file: &str, mode: u32) {
        let mode = PermissionsExt::from_mode(mode);
        fs::set_permissions(self.path(file), mode).expect("a file of the test");
    }

    pub fn mode(&self, file: &str) -> u32 {
        let metadata = fs::metadata(self.path(file)).expect("a file of the test");
        metadata.permissions().mode() & 0o777
    }

    pub fn read(&self, file: &str) -> Vec<u8> {
        fs::read(self.path(file)).expect("a file of the test")
    }

    /// The names of the files, in order.
    pub fn files(&self) -> Vec<String> {
        let mut names: Vec<String> = fs::read_dir(&self.0)
            .expect("the folder of the test")
            .map(|entry| entry.expect("an entry").file_name().into_string().unwrap())
            .collect();
        names.sort();
        names
    }

    /// The tool with the words of `line`, to be run in the folder.
    pub fn command(&self, line: &str) -> Command {
        let mut command = Command::new(env!("CARGO_BIN_EXE_sframe"));
        command
            .args(line.split_whitespace())
            .current_dir(&self.0)
            .stdin(Stdio::null())
            .stdout(Stdio::piped())
            .stderr(Stdio::piped());
        command
    }

    pub fn run(&self, line: &str) -> Output {
        self.command(line).output().expect("the tool starts")
    }

    pub fn run_with_input(&self, line: &str, input: &[u8]) -> Output {
        let mut command = self.command(line);
        let mut child = command
            .stdin(Stdio::piped())
            .spawn()
            .expect("the tool starts");
        // A run that has seen enough closes its end.
        let _ = child.stdin.take().expect("its input").write_all(input);
        child.wait_with_output().expect("the tool ends")
    }

    /// The output of a run that must succeed and be silent about it.
    #[track_caller]
    pub fn done(&self, line: &str) -> Vec<u8> {
        done(line, self.run(line))
    }

    /// Likewise, after the file is removed that `--out` names.
    #[track_caller]
    pub fn anew(&self, line: &str) -> Vec<u8> {
        let mut words = line.split_whitespace();
        words.find(|&word| word == "--out").expect("a file");
        let _ = fs::remove_file(self.path(words.next().expect("a file")));
        self.done(line)
    }

    /// Checks that a run fails with `status` and one line about it, which it
    /// answers, and gives nothing else out.
    #[track_caller]
    pub fn fails(&self, line: &str, status: i32) -> String {
        fails(line, status, self.run(line))
    }
}

/// The folder of a test that fails stays.
impl Drop for Folder {
    fn drop(&mut self) {
        if !thread::panicking() {
            let _ = fs::remove_dir_all(&self.0);
        }
    }
}

#[track_caller]
pub fn done(line: &str, output: Output) -> Vec<u8> {
    let message = String::from_utf8_lossy(&output.stderr);
    assert_eq!((output.status.code(), &*message), (Some(0), ""), "{line}");
    output.stdout
}

#[track_caller]
pub fn fails(line: &str, status: i32, output: Output) -> String {
    let message = String::from_utf8(output.stderr).expect("a message is text");
    assert_eq!(output.status.code(), Some(status), "{line}: {message}");
    assert_eq!(output.stdout, b"", "{line}");
    assert!(message.starts_with("sframe: "), "{line}: {message}");
    assert_eq!(message.lines().count(), 1, "{line}: {message}");
    message
}
