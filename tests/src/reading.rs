//! Holds docs/READING.md against the tree: it lists every file of definitions that the exported contracts and the claims reach, each with its number of lines, and no file that only helps the proofs.
use crate::tally::{Comparison, Tally};
use std::collections::BTreeSet;
use std::path::{Path, PathBuf};

fn top() -> PathBuf {
    PathBuf::from(concat!(env!("CARGO_MANIFEST_DIR"), "/.."))
}

fn read(path: &str) -> String {
    std::fs::read_to_string(top().join(path)).unwrap_or_default()
}

/// The files of a folder with this ending, as paths of the tree.
fn files(folder: &str, ending: &str) -> Vec<String> {
    let entries = std::fs::read_dir(top().join(folder)).into_iter().flatten().flatten();
    let names = entries.filter_map(|entry| entry.file_name().into_string().ok());
    names.filter(|name| name.ends_with(ending)).map(|name| format!("{folder}/{name}")).collect()
}

fn is_import(line: &str) -> bool {
    let mut words = line.split_whitespace().skip_while(|word| ["ghost", "pub", "unfoldable"].contains(word));
    words.next() == Some("use")
}

/// The file of definitions that an import names: `Rattle.codec.specs.Bytes.{..}` is crates/codec/specs/Bytes.antt. What Rattle declares itself, of types of the code, has no file,
/// and what the kit's libraries define has none in this tree.
fn imported(line: &str) -> Option<String> {
    let (_, behind) = line.split_once("use Rattle.")?;
    let (name, rest) = behind.split_once(".specs.")?;
    let file = rest.split(['.', ' ', ';']).next()?;
    let path = format!("crates/{name}/specs/{file}.antt");
    Path::new(&top().join(&path)).exists().then_some(path)
}

/// All that is reached by imports from these files.
fn reached(from: &[String]) -> BTreeSet<String> {
    let mut found = BTreeSet::new();
    let mut open: Vec<String> = from.to_vec();
    while let Some(path) = open.pop() {
        for next in read(&path).lines().filter(|line| is_import(line)).filter_map(imported) {
            if found.insert(next.clone()) {
                open.push(next);
            }
        }
    }
    found
}

/// The lines that are neither blank, nor a comment, nor an import.
fn lines(path: &str) -> usize {
    let text = read(path);
    text.lines().map(str::trim).filter(|line| !line.is_empty() && !line.starts_with("--") && !is_import(line)).count()
}

/// The rows `| `path` | lines | .. |` of a text.
fn rows(text: &str) -> Vec<(String, usize)> {
    let row = |line: &str| {
        let (path, rest) = line.strip_prefix("| `crates/")?.split_once("` | ")?;
        Some((format!("crates/{path}"), rest.split(" | ").next()?.parse().ok()?))
    };
    text.lines().filter_map(row).collect()
}

fn number(word: &str) -> Option<usize> {
    word.replace(',', "").parse().ok()
}

/// The number in a text before a word.
fn number_before(text: &str, word: &str) -> Option<usize> {
    let (before, _) = text.split_once(word)?;
    number(before.split_whitespace().next_back()?)
}

pub fn run(tally: &mut Tally) {
    let page = read("docs/READING.md");
    let listed = rows(&page);
    let claims = files("crates/claims/specs", ".antt");
    let claims: Vec<String> = claims.into_iter().filter(|path| !path.ends_with("/Lib.antt")).collect();
    let mut roots = files("crates/jackdawnail/src", ".rt");
    roots.extend(claims.clone());
    let mut expected = reached(&roots);
    expected.extend(claims);
    let mut c = Comparison::default();
    let names: BTreeSet<String> = listed.iter().map(|row| row.0.clone()).collect();
    c.same(|| "the files that contracts and claims reach".to_string(), names, expected);
    c.same(|| "no file is listed twice".to_string(), listed.len(), listed.iter().map(|row| &row.0).collect::<BTreeSet<_>>().len());
    c.same(|| "a file that only helps the proofs".to_string(), listed.iter().any(|row| row.0.ends_with("/Internal.antt")), false);
    c.claim(tally, "reading: READING.md lists the definitions that contracts and claims reach, and no others");

    let mut c = Comparison::default();
    for (path, told) in &listed {
        c.same(|| format!("lines of {path}"), *told, lines(path));
    }
    let total: usize = listed.iter().map(|row| row.1).sum();
    c.same(|| "lines in all".to_string(), number_before(&page, " lines in "), Some(total));
    for part in page.split("\n## ").skip(1) {
        let title = part.lines().next().unwrap_or_default();
        let sum: usize = rows(part).iter().map(|row| row.1).sum();
        c.same(|| format!("lines of the part {title}"), number_before(title, " lines"), Some(sum));
    }
    c.claim(tally, "reading: READING.md's numbers of lines are those of the files");
}
