// SPDX-License-Identifier: MIT
//! What a tool offers: its commands with their options and texts. The parser,
//! the help, the manual page and the completions are made from it.

use std::ffi::OsString;

/// A tool.
pub struct Tool {
    /// Its name.
    pub name: &'static str,
    /// Its version.
    pub version: &'static str,
    /// What it does, in a line.
    pub summary: &'static str,
    /// What a user should know first, in paragraphs.
    pub intro: &'static str,
    /// Its commands.
    pub commands: &'static [Spec],
    /// What holds for all of them: titles and texts.
    pub sections: &'static [(&'static str, &'static str)],
}

/// A command.
///
/// Texts are paragraphs with an empty line between them. Lines that begin with a
/// space stay as they are.
pub struct Spec {
    /// Its name.
    pub name: &'static str,
    /// What it does, in a line.
    pub summary: &'static str,
    /// What follows its name, in each of its forms.
    pub forms: &'static [&'static str],
    /// What it does.
    pub text: &'static str,
    /// Its options.
    pub options: &'static [(&'static str, Takes)],
}

/// What an option takes.
#[derive(Clone, Copy, Debug, PartialEq, Eq)]
pub enum Takes {
    /// Nothing.
    Nothing,
    /// A file.
    File,
    /// A word, one of these where some are given.
    Word(&'static [&'static str]),
}

/// The command of every tool that prints its pages.
pub const PAGES: Spec = Spec {
    name: "pages",
    summary: "prints the manual page or a shell's completions",
    forms: &["man|bash|zsh|fish"],
    text: "\
Prints the manual page in the form that man reads, or the completions for a shell, \
to be put where man or the shell looks for them.",
    options: &[],
};

impl Tool {
    /// The command of that name.
    pub fn command(&self, name: &str) -> Option<&'static Spec> {
        self.commands.iter().find(|spec| spec.name == name)
    }

    /// Whether any command has that option.
    pub fn has_option(&self, name: &str) -> bool {
        let mut commands = self.commands.iter();
        commands.any(|spec| spec.option(name).is_some())
    }

    /// Where a user whose command line starts with that word finds help.
    pub fn hint(&self, first: Option<OsString>) -> String {
        let first = first.and_then(|word| word.into_string().ok());
        let command = first.and_then(|word| self.command(&word));
        match command {
            Some(spec) => format!("`{} {} -h` shows how to call it", self.name, spec.name),
            None => format!("`{} --help` shows how to call it", self.name),
        }
    }

    /// The command whose name is nearest to a word that is none, if one is near.
    pub fn nearest(&self, word: &str) -> Option<&'static str> {
        let names = self.commands.iter().map(|spec| spec.name);
        let near = names.map(|name| (distance(name, word), name)).min()?;
        (near.0 <= 2 && near.0 < word.chars().count()).then_some(near.1)
    }
}

impl Spec {
    /// What an option of that name takes.
    pub fn option(&self, name: &str) -> Option<Takes> {
        let found = self.options.iter().find(|(other, _)| *other == name);
        found.map(|&(_, takes)| takes)
    }

    /// Whether a word without a name may follow, which is a file.
    pub fn takes_file(&self) -> bool {
        self.forms.iter().any(|form| form.starts_with("STORE"))
    }

    /// The words of which one follows without a name, where it has to be one of some.
    pub fn choices(&self) -> Vec<&'static str> {
        let firsts = self.forms.iter().filter_map(|form| form.split(' ').next());
        let choices = firsts.filter(|first| first.starts_with(|c: char| c.is_ascii_lowercase()));
        choices.flat_map(|first| first.split('|')).collect()
    }
}

/// How many letters are to be put in, taken out or replaced.
fn distance(one: &str, other: &str) -> usize {
    let other: Vec<char> = other.chars().collect();
    let mut row: Vec<usize> = (0..=other.len()).collect();
    for (i, letter) in one.chars().enumerate() {
        let mut corner = std::mem::replace(&mut row[0], i + 1);
        for (j, &another) in other.iter().enumerate() {
            let replaced = corner + usize::from(letter != another);
            corner = row[j + 1];
            row[j + 1] = replaced.min(row[j] + 1).min(corner + 1);
        }
    }
    row[other.len()]
}
