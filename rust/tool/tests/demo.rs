// SPDX-License-Identifier: MIT
//! The demonstration runs through and shows every suite and every refusal.

use sframe::{Refusal, Suite};
use std::process::Command;

#[test]
fn shows_every_suite_and_refusal() {
    let output = Command::new(env!("CARGO_BIN_EXE_demo"))
        .output()
        .expect("the demonstration starts");
    assert!(output.status.success());
    let text = String::from_utf8(output.stdout).expect("it prints text");
    for suite in Suite::ALL {
        assert!(text.contains(&suite.to_string()), "{suite}");
    }
    for refusal in Refusal::ALL {
        let line = format!("{:>4}  {refusal}\n", refusal.number());
        assert!(text.contains(&line), "{line}");
    }
}
