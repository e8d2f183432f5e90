// SPDX-License-Identifier: MIT
//! What the tool says that it offers is what it reads.

use crate::arguments::Command;
use crate::help::TOOL;
use toolkit::spec::Takes;

/// The options of a command's forms are the options that it has.
#[test]
fn forms_and_options() {
    for spec in TOOL.commands {
        let mut shown: Vec<&str> = spec
            .forms
            .iter()
            .flat_map(|form| form.split([' ', '[', ']', '|']))
            .filter(|word| word.starts_with("--"))
            .collect();
        let mut options: Vec<&str> = spec.options.iter().map(|&(name, _)| name).collect();
        shown.sort();
        shown.dedup();
        options.sort();
        assert_eq!(shown, options, "{}", spec.name);
        for form in spec.forms {
            let words: Vec<&str> = form.split([' ', '[', ']', '|']).collect();
            for pair in words.windows(2).filter(|pair| pair[0].starts_with("--")) {
                let takes = spec.option(pair[0]).unwrap();
                let value = pair[1].chars().next().is_some_and(char::is_uppercase);
                assert_eq!(takes != Takes::Nothing, value, "{} {}", spec.name, pair[0]);
            }
        }
    }
}

/// Every command is read, and says what it lacks.
#[test]
fn every_command_is_read() {
    for spec in TOOL.commands {
        let failure = Command::parse([spec.name.into()].into_iter()).unwrap_err();
        assert_eq!(failure.status(), 64, "{}", spec.name);
    }
}
