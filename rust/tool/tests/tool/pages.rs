// SPDX-License-Identifier: MIT
//! The manual page and the completions that the package brings.

use super::folder::Folder;
use std::fs;
use std::path::Path;
use std::process::Command;

/// The files are what the tool prints; `sframe pages` makes them anew.
#[test]
fn files_of_the_package() {
    let folder = Folder::new("pages");
    let share = Path::new(env!("CARGO_MANIFEST_DIR")).join("../../share");
    for (page, file) in [
        ("man", "man/man1/sframe.1"),
        ("bash", "bash-completion/completions/sframe"),
        ("zsh", "zsh/site-functions/_sframe"),
        ("fish", "fish/vendor_completions.d/sframe.fish"),
    ] {
        let printed = folder.done(&format!("pages {page}"));
        let kept = fs::read(share.join(file)).unwrap_or_default();
        assert!(
            printed == kept,
            "share/{file} is not what `sframe pages {page}` prints"
        );
    }
    let message = folder.fails("pages csh", 64);
    assert!(message.contains("man, bash, zsh and fish"), "{message}");
    folder.fails("pages", 64);
}

/// The lines that a shell prints of a script, which sees the tool as `sframe`.
fn lines_of(folder: &Folder, shell: &str, script: &str) -> Vec<String> {
    let tool = Path::new(env!("CARGO_BIN_EXE_sframe"));
    let path = std::env::var("PATH").unwrap_or_default();
    let path = format!("{}:{path}", tool.parent().unwrap().display());
    let output = Command::new(shell)
        .args(["-c", script])
        .env("PATH", path)
        .env("HOME", folder.path("."))
        .current_dir(folder.path("."))
        .output()
        .expect("the shell starts");
    assert_eq!(String::from_utf8_lossy(&output.stderr), "", "{script}");
    let text = String::from_utf8(output.stdout).unwrap();
    let lines = text.lines().filter(|line| !line.is_empty());
    lines.map(String::from).collect()
}

/// What bash offers behind some words, the last of which is begun.
fn offered(folder: &Folder, words: &str) -> Vec<String> {
    let script = format!(
        "set -eu; source <(sframe pages bash); COMP_WORDS=({words}); \
         COMP_CWORD=$((${{#COMP_WORDS[@]}} - 1)); \
         _sframe; printf '%s\\n' \"${{COMPREPLY[@]}}\""
    );
    lines_of(folder, "bash", &script)
}

#[test]
fn completions_in_bash() {
    let folder = Folder::with_stores("completions", 4);
    folder.write("a b", b"");
    folder.write("a *", b"");
    for (words, expected) in [
        ("sframe se", vec!["seal", "seal-pieces"]),
        ("sframe group", vec!["group-kid", "group-parts"]),
        ("sframe seal --o", vec!["--out", "--offset"]),
        ("sframe list --", vec!["--json", "--help"]),
        ("sframe seal wa", vec!["ward", "ward.lock"]),
        ("sframe seal ward --kid ''", vec![]),
        ("sframe add ward --key k", vec!["key"]),
        ("sframe add ward --suite ''", vec!["1", "2", "3", "4", "5"]),
        ("sframe kid k", vec![]),
        ("sframe help rat", vec!["ratchet"]),
        ("sframe seal a", vec!["a b", "a *"]),
        ("sframe seal ward --in a", vec!["a b", "a *"]),
        ("sframe pages ''", vec!["man", "bash", "zsh", "fish"]),
        ("sframe pages --", vec!["--help"]),
    ] {
        let mut found = offered(&folder, words);
        found.sort_by_key(|word| expected.iter().position(|other| other == word));
        assert_eq!(found, expected, "{words}");
    }
    // Where a file is expected and none is offered, as behind ~, readline looks.
    let script = "source <(sframe pages bash); compopt() { echo \"$@\"; }; \
                  COMP_CWORD=2; COMP_WORDS=(sframe seal '~/'); _sframe; \
                  COMP_WORDS=(sframe kid '~/'); _sframe";
    assert_eq!(
        lines_of(&folder, "bash", script),
        ["-o filenames -o default"]
    );
}

/// Whether a shell is there; nothing else here needs it.
fn is_installed(shell: &str) -> bool {
    let found = Command::new(shell).args(["-c", ""]).status().is_ok();
    if !found {
        eprintln!("{shell} is not installed: its completions are not tried");
    }
    found
}

/// zsh's own functions stand for what they would show.
#[test]
fn completions_in_zsh() {
    if !is_installed("zsh") {
        return;
    }
    let folder = Folder::new("completions-zsh");
    for (words, expected) in [
        ("sframe keyg", "-- keygen make add remove list seal open seal-pieces check report header ratchet kid group-kid group-parts change-epoch pages help --help --version"),
        ("sframe list --", "-- --json --help"),
        ("sframe seal 'a b'", "files"),
        ("sframe seal ward --in ''", "files"),
        ("sframe seal ward --kid ''", "--"),
        ("sframe add ward --suite ''", "-- 1 2 3 4 5"),
        ("sframe pages ''", "-- man bash zsh fish"),
    ] {
        let script = format!(
            "compdef() {{ :; }}; compadd() {{ echo \"$@\"; }}; _files() {{ echo files; }}; \
             source <(sframe pages zsh); words=({words}); CURRENT=$#words; \
             PREFIX=$words[CURRENT]; _sframe"
        );
        assert_eq!(lines_of(&folder, "zsh", &script), [expected], "{words}");
    }
}

#[test]
fn completions_in_fish() {
    if !is_installed("fish") {
        return;
    }
    let folder = Folder::new("completions-fish");
    folder.write("a b", b"");
    for (words, expected) in [
        ("sframe hel", vec!["help"]),
        ("sframe help rat", vec!["ratchet"]),
        ("sframe help list --", vec![]),
        ("sframe list --", vec!["--help", "--json"]),
        ("sframe kid --he", vec!["--help"]),
        ("sframe seal a", vec!["a b"]),
        ("sframe seal ward --in a", vec!["a b"]),
        ("sframe seal ward --kid a", vec![]),
        ("sframe pages ", vec!["bash", "fish", "man", "zsh"]),
    ] {
        let script = format!("sframe pages fish | source; complete -C '{words}'");
        let found = lines_of(&folder, "fish", &script);
        let mut found: Vec<&str> = found
            .iter()
            .filter_map(|line| line.split('\t').next())
            .collect();
        found.sort();
        assert_eq!(found, expected, "{words}");
    }
}
