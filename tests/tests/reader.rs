//! README's reading order against the definitions: it lists every file that a reader has to
//! believe, with its lines, and none of them rests on what only functions work with.

mod common;

use common::files::{file, text};
use std::collections::BTreeMap;
use std::path::Path;

const WORKINGS: &str = "Workings";

/// Every file of definitions below a folder, named from the project's root.
fn definitions_in(folder: &str, found: &mut Vec<String>) {
    for entry in std::fs::read_dir(file(folder)).unwrap() {
        let name = entry.unwrap().file_name().into_string().unwrap();
        let path = format!("{folder}/{name}");
        if file(&path).is_dir() {
            definitions_in(&path, found);
        } else if name.ends_with(".antt") && name != "Lib.antt" {
            found.push(path);
        }
    }
}

/// The files that a reader has to believe: all definitions but the workings.
fn believed() -> Vec<String> {
    let mut found = Vec::new();
    for entry in std::fs::read_dir(file("crates")).unwrap() {
        let name = entry.unwrap().file_name().into_string().unwrap();
        let folder = format!("crates/{name}/specs");
        if Path::new(&file(&folder)).is_dir() {
            definitions_in(&folder, &mut found);
        }
    }
    found.retain(|path| !path.contains(WORKINGS));
    assert!(found.len() > 20, "{found:?}");
    found
}

fn is_import(line: &str) -> bool {
    ["use ", "pub use ", "unfoldable pub use "]
        .iter()
        .any(|start| line.starts_with(start))
}

/// Lines that are read: neither imports nor blank.
fn lines_of(path: &str) -> usize {
    text(path)
        .lines()
        .filter(|line| !line.trim().is_empty() && !is_import(line))
        .count()
}

/// The rows of README's tables that name a file of definitions, with the lines they say.
fn listed() -> Vec<(String, usize)> {
    let readme = text("README.md");
    let rows = readme.lines().filter_map(|line| {
        let cells: Vec<&str> = line.split('|').map(str::trim).collect();
        let name = cells.get(1)?.strip_prefix('`')?.strip_suffix(".antt`")?;
        let (name, lines) = (format!("crates/{name}.antt"), cells.get(2)?);
        Some((name, lines.parse().unwrap()))
    });
    rows.collect()
}

#[test]
fn the_reading_order_lists_every_definition_with_its_lines() {
    let rows = listed();
    let said: BTreeMap<String, usize> = rows.iter().cloned().collect();
    assert_eq!(said.len(), rows.len(), "a file stands there twice");
    let counted: BTreeMap<String, usize> = believed()
        .into_iter()
        .map(|path| (path.clone(), lines_of(&path)))
        .collect();
    assert_eq!(said, counted);
}

/// Each part of the list has its sum before its files.
#[test]
fn the_parts_are_summed() {
    let readme = text("README.md");
    let mut said = Vec::new();
    let mut summed: Vec<usize> = Vec::new();
    for line in readme.lines() {
        let cells: Vec<&str> = line.split('|').map(str::trim).collect();
        if cells.len() != 5 {
            continue;
        }
        let (name, lines) = (cells[1], cells[2].parse::<usize>());
        if let (true, Ok(lines)) = (name.starts_with("**"), &lines) {
            said.push(*lines);
            summed.push(0);
        } else if let (true, Ok(lines)) = (name.ends_with(".antt`"), lines) {
            *summed.last_mut().unwrap() += lines;
        }
    }
    assert_eq!(said.len(), 4);
    assert_eq!(said, summed);
}

/// "Rattle.sheet.specs.Limits" names a file of `sheet`.
fn imported(line: &str) -> Option<String> {
    let (_, path) = line.split_once("use Rattle.")?;
    let (name, rest) = path.split_once(".specs.")?;
    let file = rest.split(['.', ' ', ';']).next()?;
    Some(format!("crates/{name}/specs/{file}.antt"))
}

#[test]
fn each_names_only_those_above_it() {
    let order: Vec<String> = listed().into_iter().map(|(path, _)| path).collect();
    let place = |path: &String| order.iter().position(|listed| listed == path);
    let mut found = 0;
    for (at, path) in order.iter().enumerate() {
        for line in text(path).lines().filter(|line| is_import(line)) {
            if let Some(below) = imported(line).as_ref().and_then(place) {
                assert!(below < at, "{path}: {line}");
                found += 1;
            }
        }
    }
    assert!(found > 100, "{found}");
}

#[test]
fn what_is_believed_rests_on_no_workings() {
    for path in believed() {
        for line in text(&path).lines().filter(|line| is_import(line)) {
            assert!(!line.contains(WORKINGS), "{path}: {line}");
        }
    }
}
