//! Writes edited copies of the Rust of `docs/src` to `OUT_DIR`; `edits.txt` lists the edits.
//! Stops where an edit does not apply exactly as often as it says, and where a function of the
//! library that has a stand-in is still called.

use std::collections::BTreeMap;
use std::path::{Path, PathBuf};
use std::{env, fs};

const FILES: [&str; 4] = ["route.rs", "layout.rs", "graph.rs", "svg.rs"];

/// The library's functions that have a stand-in; none may be left.
const REPLACED: [&str; 19] = [
    ".sqrt(", ".hypot(", ".midpoint(", ".rem_euclid(", ".sin(", ".cos(", ".sin_cos(", ".tan(",
    ".atan(", ".atan2(", ".min(", ".max(", ".round(", ".mul_add(", ".sum(", "f64::min", "f64::max",
    "f64::midpoint", "f64::hypot",
];

enum Edit {
    Replace { times: usize, old: String, new: String },
    Keep(Vec<String>),
    Copy(String),
}

fn main() {
    let root = PathBuf::from(env::var("CARGO_MANIFEST_DIR").unwrap());
    let src = match env::var("MURSHOGI_SRC") {
        Ok(dir) => root.join("..").join(dir),
        Err(_) => root.join("../../shared/docs/src"),
    };
    let out = PathBuf::from(env::var("OUT_DIR").unwrap());
    println!("cargo:rerun-if-env-changed=MURSHOGI_SRC");
    println!("cargo:rerun-if-changed=build.rs");
    println!("cargo:rerun-if-changed=edits.txt");
    link_port(&root);
    let mut texts: BTreeMap<String, String> = BTreeMap::new();
    for file in FILES {
        let path = src.join(file);
        println!("cargo:rerun-if-changed={}", path.display());
        let text = fs::read_to_string(&path)
            .unwrap_or_else(|e| panic!("{}: {e}; MURSHOGI_SRC names the folder", path.display()));
        texts.insert(file.to_string(), text);
    }
    for (line, file, edit) in edits(&root.join("edits.txt")) {
        if let Edit::Copy(from) = &edit {
            let text = texts[from].clone();
            texts.insert(file, text);
            continue;
        }
        let text = texts
            .get_mut(&file)
            .unwrap_or_else(|| panic!("edits.txt:{line}: no file {file}"));
        match edit {
            Edit::Replace { times, old, new } => {
                let found = text.matches(&old).count();
                assert!(
                    found == times,
                    "edits.txt:{line}: {file} has the old text {found} times, not {times}"
                );
                *text = text.replace(&old, &new);
            }
            Edit::Keep(items) => {
                let kept: Vec<String> = items.iter().map(|i| item(text, &file, i)).collect();
                *text = kept.join("\n");
            }
            Edit::Copy(_) => unreachable!("a copy is made above"),
        }
    }
    for (file, text) in texts {
        let code: Vec<&str> = text
            .lines()
            .filter(|l| !l.trim_start().starts_with("//"))
            .collect();
        for name in REPLACED {
            let left = code.iter().find(|l| l.contains(name));
            assert!(left.is_none(), "{file} still calls {name}): {}", left.unwrap());
        }
        // A module beside these, wherever they are taken in: the Rust is compiled over several float functions.
        fs::write(out.join(file), text.replace("crate::", "super::")).unwrap();
    }
}

/// Links the port's archives that `MURSHOGI_LIB` names, with a colon between two. What compares the
/// calls is built with libmurshogi.a, what times a function below them with libprobes.a.
fn link_port(root: &Path) {
    println!("cargo:rerun-if-env-changed=MURSHOGI_LIB");
    println!("cargo:rustc-check-cfg=cfg(port, values(\"murshogi\", \"probes\"))");
    let Ok(archives) = env::var("MURSHOGI_LIB") else {
        return;
    };
    for archive in archives.split(':') {
        let archive = fs::canonicalize(root.join("..").join(archive))
            .unwrap_or_else(|e| panic!("{archive}: {e}; a path is taken from the repository's root"));
        let name = archive.file_stem().unwrap().to_str().unwrap().strip_prefix("lib").unwrap();
        println!("cargo:rerun-if-changed={}", archive.display());
        println!("cargo:rustc-link-search=native={}", archive.parent().unwrap().display());
        println!("cargo:rustc-link-lib=static={name}");
        println!("cargo:rustc-cfg=port=\"{name}\"");
    }
}

/// The item whose first line begins with `start`, with the comments and attributes above it.
fn item(text: &str, file: &str, start: &str) -> String {
    let lines: Vec<&str> = text.lines().collect();
    let found: Vec<usize> = (0..lines.len())
        .filter(|&i| lines[i].starts_with(start))
        .collect();
    assert!(found.len() == 1, "{file} has {} items `{start}`", found.len());
    let mut first = found[0];
    let mut last = found[0];
    while first > 0 && (lines[first - 1].starts_with("///") || lines[first - 1].starts_with("#[")) {
        first -= 1;
    }
    while !(lines[last] == "}" || (last == found[0] && lines[last].ends_with(';'))) {
        last += 1;
    }
    lines[first..=last].join("\n") + "\n"
}

/// The edits of the list, each with its line and file.
fn edits(path: &Path) -> Vec<(usize, String, Edit)> {
    let text = fs::read_to_string(path).unwrap();
    let mut list: Vec<(usize, String, Edit)> = Vec::new();
    let mut fresh = (true, true);
    for (i, line) in text.lines().enumerate() {
        let at = i + 1;
        if line.is_empty() || line.starts_with('#') {
            continue;
        }
        let (mark, rest) = (line.as_bytes()[0], line.get(2..).unwrap_or(""));
        if mark == b'@' {
            let (file, times) = rest.split_once(' ').unwrap();
            let edit = match times {
                "keep" => Edit::Keep(Vec::new()),
                n if n.starts_with("copy ") => Edit::Copy(n[5..].to_string()),
                n => Edit::Replace {
                    times: n.parse().unwrap(),
                    old: String::new(),
                    new: String::new(),
                },
            };
            list.push((at, file.to_string(), edit));
            fresh = (true, true);
            continue;
        }
        let (_, _, edit) = list.last_mut().expect("edits.txt begins with an edit");
        match (mark, edit) {
            (b'-', Edit::Replace { old, .. }) => join(old, rest, &mut fresh.0),
            (b'+', Edit::Replace { new, .. }) => join(new, rest, &mut fresh.1),
            (b'=', Edit::Keep(items)) => items.push(rest.to_string()),
            _ => panic!("edits.txt:{at}: {line}"),
        }
    }
    list
}

fn join(text: &mut String, line: &str, first: &mut bool) {
    if !*first {
        text.push('\n');
    }
    text.push_str(line);
    *first = false;
}
