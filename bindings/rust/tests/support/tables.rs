//! The texts of the library's own tests.
//!
//! Their files have tables, with a text before the arrow of each row, and whole texts. How they are written, and what the
//! marks of a row stand for, is said at `crates/rows/src/lib.rt`.
use std::fs;
use std::path::{Path, PathBuf};

/// A path of the repository.
pub fn path(inside: &str) -> PathBuf {
    Path::new(env!("CARGO_MANIFEST_DIR"))
        .join("../..")
        .join(inside)
}

/// All texts of the tables, and what their files hold besides.
pub fn texts() -> Vec<String> {
    let mut texts = Vec::new();
    let of_programs = files(&path("tests/tables"))
        .into_iter()
        .filter(|file| file.extension().is_some_and(|end| end == "rows"));
    for file in files(&path("crates/conformance/data/tables"))
        .into_iter()
        .chain(files(&path("crates/conformance_tools/data/tables")))
        .chain(of_programs)
    {
        for table in fs::read_to_string(file).unwrap().split("\n== ") {
            let (_, inside) = table.split_once('\n').unwrap();
            texts.extend(rows(inside));
            texts.extend(inside.split("\n⇒\n").map(str::to_owned));
        }
    }
    texts
}

fn files(folder: &Path) -> Vec<PathBuf> {
    let mut found = Vec::new();
    for entry in fs::read_dir(folder).unwrap() {
        let path = entry.unwrap().path();
        if path.is_dir() {
            found.extend(files(&path));
        } else {
            found.push(path);
        }
    }
    found.sort();
    found
}

/// The rows of a table whose answers stand between quotes: each text, and its answer.
pub fn answers(file: &str, call: &str) -> Vec<(String, String)> {
    let path = path("crates/conformance_tools/data/tables").join(file);
    let source = fs::read_to_string(path).unwrap();
    let (_, rest) = source.split_once(&format!("== {call}\n")).unwrap();
    let (table, _) = rest.split_once("\n== ").unwrap_or((rest, ""));
    let table = table.replace("\n  ", " ");
    let rows = table.lines().filter(|line| !line.starts_with("-- "));
    rows.filter_map(|line| {
        let (text, answer) = line.split_once(" ⇒ '")?;
        let answer = answer.strip_suffix('\'').unwrap();
        Some((meant(text), meant(answer)))
    })
    .collect()
}

// The texts before the arrows of a table.
fn rows(table: &str) -> impl Iterator<Item = String> + '_ {
    let rows = table.lines().filter(|line| !line.starts_with("-- "));
    rows.filter_map(|line| {
        line.split_once(" ⇒")
            .map(|(text, _)| meant(text.trim_end()))
    })
}

// What a text with marks stands for.
fn meant(text: &str) -> String {
    let mut parts = text.split('⟨');
    let mut out = plain(parts.next().unwrap_or_default());
    for part in parts {
        match part.split_once('⟩') {
            Some((inside, rest)) => out += &(inside_brackets(inside) + &plain(rest)),
            None => out += &("⟨".to_owned() + &plain(part)),
        }
    }
    out
}

/// A text, with the characters that its marks stand for.
pub fn plain(text: &str) -> String {
    let mark = |c| match c {
        '␊' => '\n',
        '␍' => '\r',
        '␉' => '\t',
        '␠' => ' ',
        other => other,
    };
    text.chars().map(mark).collect()
}

// How often a text is repeated at most: a list of a hundred thousand items shows no more than one of a thousand.
const LARGEST_COUNT: usize = 1_000;

// A text that is repeated, the number of a character, or a text.
fn inside_brackets(inside: &str) -> String {
    if let Some((count, text)) = inside.split_once('×') {
        if let Ok(count) = count.parse::<usize>() {
            let numbered = |index: usize| plain(&text.replace('№', &index.to_string()));
            return (0..count.min(LARGEST_COUNT)).map(numbered).collect();
        }
    }
    match u32::from_str_radix(inside, 16)
        .ok()
        .and_then(char::from_u32)
    {
        Some(c) => c.to_string(),
        None => plain(inside),
    }
}
