//! The example of the module's page is that of docs/rust.md.

use std::fs;
use std::io::{stderr, Write};

const PAGE: &str = include_str!("../src/lib.rs");

/// The lines from `use dymelor` to the end of the code block.
fn example(lines: impl Iterator<Item = String>) -> Vec<String> {
    lines
        .skip_while(|line| !line.starts_with("use dymelor::"))
        .take_while(|line| line != "```" && !line.starts_with("assert"))
        .filter(|line| !line.is_empty())
        .collect()
}

#[test]
fn the_example_of_the_page_is_that_of_docs() {
    let docs = concat!(env!("CARGO_MANIFEST_DIR"), "/../../docs/rust.md");
    let docs = match fs::read_to_string(docs) {
        Ok(docs) => docs,
        // What `println!` writes isn't shown of a test that passes.
        Err(why) => {
            return writeln!(stderr(), "docs/rust.md: {why}; nothing was compared")
                .expect("there is a standard error")
        }
    };
    let page = PAGE.lines().filter_map(|line| line.strip_prefix("//!"));
    let page = example(page.map(|line| line.strip_prefix(' ').unwrap_or(line).to_string()));
    assert!(page.len() > 10);
    assert_eq!(example(docs.lines().map(str::to_string)), page);
}
