//! The C headers, for the tests that hold numbers and words of this crate to them.

use std::path::Path;

use crate::refusal::Refusal;

pub(crate) fn header(name: &str) -> String {
    let path = Path::new(env!("CARGO_MANIFEST_DIR")).join("../include").join(name);
    std::fs::read_to_string(path).unwrap()
}

/// A number of a header: its name without SLATEDB_, and its comment.
pub(crate) struct Definition<'a> {
    pub name: &'a str,
    pub number: u64,
    pub comment: &'a str,
}

fn definition(line: &str) -> Option<Definition<'_>> {
    let (name, rest) = line.strip_prefix("#define SLATEDB_")?.split_once(' ')?;
    let (number, comment) = rest.split_once(' ').unwrap_or((rest, ""));
    Some(Definition {
        name,
        // a header's other macros are no numbers
        number: number.parse().ok()?,
        comment: comment.trim().trim_start_matches("/* ").trim_end_matches(" */"),
    })
}

pub(crate) fn definitions(header: &str) -> Vec<Definition<'_>> {
    header.lines().filter_map(definition).collect()
}

pub(crate) fn defined<'a>(definitions: &'a [Definition<'a>], name: &str) -> &'a Definition<'a> {
    let found = definitions.iter().find(|definition| definition.name == name);
    found.unwrap_or_else(|| panic!("no {name}"))
}

/// EmptyKey is EMPTY_KEY.
pub(crate) fn spelled_out(refusal: Refusal) -> String {
    let mut name = String::new();
    for letter in format!("{refusal:?}").chars() {
        if letter.is_uppercase() && !name.is_empty() {
            name.push('_');
        }
        name.push(letter.to_ascii_uppercase());
    }
    name
}
