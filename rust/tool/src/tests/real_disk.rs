// SPDX-License-Identifier: MIT
//! The machine's own disk, where a whole run cannot show it.

use std::fs;
use std::io::ErrorKind;
use toolkit::disk::{Disk, RealDisk, PRIVATE};

/// Nothing that comes to stand there after the removal is written to.
#[test]
fn only_a_new_file_is_made() {
    let name = format!("sframe-disk-{}", std::process::id());
    let folder = std::env::temp_dir().join(name);
    let _ = fs::remove_dir_all(&folder);
    fs::create_dir(&folder).unwrap();
    let [file, link, nowhere] = ["file", "link", "nowhere"].map(|name| folder.join(name));
    fs::write(&file, b"before").unwrap();
    std::os::unix::fs::symlink(&nowhere, &link).unwrap();
    for path in [&file, &link] {
        let error = RealDisk.create(path, PRIVATE).unwrap_err();
        assert_eq!(error.kind(), ErrorKind::AlreadyExists);
    }
    assert_eq!(fs::read(&file).unwrap(), b"before");
    assert!(!nowhere.exists());

    for path in [&file, &link, &nowhere] {
        RealDisk.remove(path).unwrap();
        RealDisk.create(path, PRIVATE).unwrap();
    }
    fs::remove_dir_all(&folder).unwrap();
}
