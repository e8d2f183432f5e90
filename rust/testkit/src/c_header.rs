// SPDX-License-Identifier: MIT
//! What the C headers say.

/// The sentences of a header's function that tells what an answer says: those of
/// the refusals, in their order.
///
/// # Panics
///
/// Where the function does not begin with the text of 0 and end with that of an
/// unknown number.
pub fn answer_texts<'a>(header: &'a str, function: &str) -> Vec<&'a str> {
    let named = format!("*{function}(");
    let (_, body) = header.split_once(&named).expect("the header has it");
    let (body, _) = body.split_once("\n}\n").expect("a function ends");
    let mut texts: Vec<&str> = body
        .split("return \"")
        .skip(1)
        .map(|text| text.split_once("\";").expect("a text ends").0)
        .collect();
    assert_eq!(texts.pop(), Some("unknown answer"));
    assert_eq!(texts.remove(0), "done");
    texts
}
