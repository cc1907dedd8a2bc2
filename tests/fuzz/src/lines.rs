//! The tool's answers to lines of each form, with the bytes of an input.
use crate::input::Input;
use diff::compare::{answers_of_tool, Outcome};
use diff::forms::hex_of;
use std::io;

/// Compares the tool with the original on each input.
pub fn ask(tool: &str, inputs: &[Vec<u8>]) -> io::Result<Outcome> {
    let lines: Vec<Vec<u8>> = inputs
        .iter()
        .filter_map(|input| Input::new(input))
        .flat_map(|input| lines(&input))
        .collect();
    answers_of_tool(tool, move || lines.clone().into_iter(), true)
}

/// Makes a line of each form.
fn lines(input: &Input<'_>) -> Vec<Vec<u8>> {
    let hex = hex_of(input.bytes, false);
    let chains = ["exts6", "exts4", "rewrite6", "rewriteall6"];
    let mut lines: Vec<String> = chains
        .iter()
        .map(|form| format!("{form} {} {hex}", input.start))
        .collect();
    lines.extend(["packet", "dissect"].map(|form| format!("{form} {hex}")));
    lines.into_iter().map(String::into_bytes).collect()
}
