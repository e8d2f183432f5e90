// SPDX-License-Identifier: MIT
//! What goes to a terminal, and what does not.

use super::memory_disk::MemoryDisk;
use crate::arguments::Command;
use crate::commands;
use crate::failure::Failure;
use sframe::{StoreView, MAX_RECORDS, RECORD};
use std::fs;
use std::io::{self, Write};
use std::path::PathBuf;
use toolkit::console::Console;
use toolkit::disk::{Disk, RealDisk, PRIVATE};

/// A terminal that remembers what is shown.
#[derive(Default)]
struct Terminal(Vec<u8>);

impl Write for Terminal {
    fn write(&mut self, bytes: &[u8]) -> io::Result<usize> {
        self.0.write(bytes)
    }

    fn flush(&mut self) -> io::Result<()> {
        Ok(())
    }
}

impl Console for Terminal {
    fn is_terminal(&self) -> bool {
        true
    }
}

struct Folder(PathBuf);

impl Folder {
    fn new() -> Self {
        let name = format!("sframe-terminal-{}", std::process::id());
        let folder = std::env::temp_dir().join(name);
        let _ = fs::remove_dir_all(&folder);
        fs::create_dir_all(&folder).unwrap();
        let mut key = RealDisk.create(&folder.join("key"), PRIVATE).unwrap();
        key.write_all(&[7; 16]).unwrap();
        Folder(folder)
    }

    /// Runs a line in which `@` stands for the folder.
    fn run(&self, disk: &mut MemoryDisk, line: &str) -> Result<Vec<u8>, Failure> {
        let line = line.replace('@', &format!("{}/", self.0.display()));
        let command = Command::parse(line.split_whitespace().map(Into::into))?;
        let mut terminal = Terminal::default();
        commands::run(command, disk, &mut terminal)?;
        Ok(terminal.0)
    }

    fn next(&self, disk: &MemoryDisk) -> u64 {
        let most = MAX_RECORDS * RECORD;
        let bytes = disk.clone().read(&self.0.join("ward"), most).unwrap();
        StoreView::over(&bytes).records().unwrap()[0].next.0
    }
}

impl Drop for Folder {
    fn drop(&mut self) {
        let _ = fs::remove_dir_all(&self.0);
    }
}

#[test]
fn bytes_only_where_they_are_asked_for() {
    let folder = Folder::new();
    let mut disk = MemoryDisk::default();
    let add = "--kid 200 --suite 4 --key @key";
    for line in [
        "make @ward --keys 1".into(),
        "make @doctor --keys 1".into(),
        format!("add @ward --sending {add}"),
        format!("add @doctor --receiving {add}"),
    ] {
        folder.run(&mut disk, &line).unwrap();
    }
    let seal = "seal @ward --kid 200 --in @key";
    let refused = folder.run(&mut disk, seal).unwrap_err();
    assert_eq!(refused.status(), 64);
    assert!(refused.to_string().contains("give --out FILE, or --out -"));
    assert_eq!(folder.next(&disk), 0);

    let shown = folder.run(&mut disk, &format!("{seal} --out -")).unwrap();
    assert_eq!((shown.len(), folder.next(&disk)), (2 + 16 + 16, 1));
    fs::write(folder.0.join("frame"), &shown).unwrap();
    let shown = folder.run(&mut disk, &format!("{seal} --hex")).unwrap();
    assert!(shown.is_ascii());

    // The frame is still there to be opened.
    let open = "open @doctor --in @frame";
    assert_eq!(folder.run(&mut disk, open).unwrap_err().status(), 64);
    let shown = folder.run(&mut disk, &format!("{open} --out -")).unwrap();
    assert_eq!(shown, [7; 16]);

    // A key is never shown, be it asked for or in hex.
    for line in [
        "keygen --out -",
        "keygen --out - --hex",
        "ratchet --suite 4 --key @key --steps 1 --out -",
    ] {
        let refused = folder.run(&mut disk, line).unwrap_err();
        assert_eq!(refused.to_string(), "a key is not shown on a terminal");
    }
    folder.run(&mut disk, "list @ward").unwrap();
    folder.run(&mut disk, "--help").unwrap();
}
