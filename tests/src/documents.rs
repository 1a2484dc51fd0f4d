//! Holds docs/ASSURANCE.md against the tree: every file that it names is there, and in the list of document 01's sentences every name stands in the file that it is cited from.
//! And holds the table of the image in docs/INTERFACE.md against the definition's list of fields.
use crate::tally::{Comparison, Tally};
use std::path::PathBuf;

const LIST: &str = "## Where each sentence of document 01 is";

fn top() -> PathBuf {
    PathBuf::from(concat!(env!("CARGO_MANIFEST_DIR"), "/.."))
}

/// A file or a folder of the tree, as the documents name it.
fn is_path(word: &str) -> bool {
    ["crates/", "docs/", "host/", "tests/", "include/", "bench/"].iter().any(|folder| word.starts_with(folder))
}

/// A name of the code or of a definition, and not a piece of either.
fn is_name(word: &str) -> bool {
    word.starts_with(|c: char| c.is_ascii_alphabetic()) && word.chars().all(|c| c.is_ascii_alphanumeric() || "_-'".contains(c))
}

/// The names in backticks and the paths of a text, in their order.
fn words(text: &str) -> Vec<String> {
    let mut found = Vec::new();
    for (i, piece) in text.split('`').enumerate() {
        if i % 2 == 1 {
            found.push(piece.to_string());
            continue;
        }
        let paths = piece.split([' ', ',', ';', '|', '(', ')']).map(|w| w.trim_end_matches([':', '.'])).filter(|w| is_path(w));
        found.extend(paths.map(str::to_string));
    }
    found
}

/// Whether a name stands in a text, with nothing of a name on either side.
fn stands(name: &str, text: &str) -> bool {
    let part = |c: char| c.is_alphanumeric() || "_-'".contains(c);
    text.match_indices(name).any(|(at, _)| {
        let before = text[..at].chars().next_back();
        let after = text[at + name.len()..].chars().next();
        !before.is_some_and(part) && !after.is_some_and(part)
    })
}

fn paths(tally: &mut Tally, document: &str) {
    let mut c = Comparison::default();
    for path in words(document).into_iter().filter(|word| is_path(word)) {
        c.same(|| format!("{path} is there"), top().join(&path).exists(), true);
    }
    c.claim(tally, "documents: every file and folder that ASSURANCE.md names is there");
}

fn names(tally: &mut Tally, list: &str) {
    let mut c = Comparison::default();
    for cell in list.lines().filter(|line| line.starts_with('|')).flat_map(|line| line.split(['|', ';'])) {
        let mut pending: Vec<String> = Vec::new();
        for word in words(cell) {
            if !is_path(&word) {
                pending.push(word);
                continue;
            }
            let text = std::fs::read_to_string(top().join(&word)).unwrap_or_default();
            for name in pending.drain(..).filter(|name| is_name(name)) {
                c.same(|| format!("{name} stands in {word}"), stands(&name, &text), true);
            }
        }
    }
    c.claim(tally, "documents: every name in the list of document 01's sentences stands in its file");
}

/// The widths of the fields of a session's image, in their order, as the definition lists them: `field "name" width ..` or `word "name" ..`, a word being 8 bytes.
fn image_fields() -> Vec<u64> {
    let text = std::fs::read_to_string(top().join("crates/session_image/specs/Image.antt")).unwrap_or_default();
    let entry = |line: &str| {
        let mut words = line.trim_start_matches(['∷', ' ']).split(' ');
        match (words.next(), words.next(), words.next()) {
            (Some("field"), Some(name), Some(width)) if name.starts_with('"') => width.parse().ok(),
            (Some("word"), Some(name), _) if name.starts_with('"') => Some(8),
            _ => None,
        }
    };
    text.lines().filter_map(|line| entry(line.trim())).collect()
}

/// The first and the last byte of each row of a table that begins with places, such as `| 9 to 16 | ..`.
fn places(table: &str) -> Vec<(u64, u64)> {
    let number = |word: &str| word.replace(',', "").parse::<u64>().ok();
    let row = |line: &str| {
        let cell = line.strip_prefix("| ")?.split(" | ").next()?;
        let mut ends = cell.split(" to ");
        let first = number(ends.next()?)?;
        Some((first, ends.next().map_or(Some(first), number)?))
    };
    table.lines().filter_map(row).collect()
}

fn image_table(tally: &mut Tally) {
    let interface = std::fs::read_to_string(top().join("docs/INTERFACE.md")).unwrap_or_default();
    let (_, behind) = interface.split_once("## The image of a session").unwrap_or_default();
    let table = behind.split("\n## ").next().unwrap_or_default();
    let mut at = 0;
    let mut expected = Vec::new();
    for width in image_fields() {
        expected.push((at, at + width - 1));
        at += width;
    }
    let mut c = Comparison::default();
    c.same(|| "the places of the image's fields".to_string(), places(table), expected);
    c.same(|| "the length of an image".to_string(), at, 4297);
    c.claim(tally, "documents: the table of the image in INTERFACE.md is that of the definition's list of fields");
}

pub fn run(tally: &mut Tally) {
    image_table(tally);
    let document = std::fs::read_to_string(top().join("docs/ASSURANCE.md")).unwrap_or_default();
    paths(tally, &document);
    let list = document.find(LIST).map_or("", |at| &document[at..]);
    names(tally, list);
}
