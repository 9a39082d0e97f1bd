//! The commands that README and docs/TOOL.md show, run over the samples: each prints what the page says.

use crate::support::{said, Folder};
use std::fs;
use std::path::Path;
use std::process::{Command, Stdio};

/// Files that the pages speak of and the project does not have.
const ABSENT: &str = "freedoom";

/// A folder with the samples in it, as the project's own, and an index, which the page shows before it shows how it is made.
fn folder() -> Folder {
    let folder = Folder::new();
    fs::create_dir(folder.file("samples")).expect("a folder");
    for (name, bytes) in generator::samples() {
        fs::write(folder.file("samples").join(name), bytes).expect("a sample");
    }
    assert_eq!(folder.run(&["index", "samples/accepted.wad", "-o", "accepted.wix", "-q"]).status, 0);
    folder
}

/// The commands of a page that are shown with what they print.
fn shown(page: &str) -> Vec<(&str, Vec<&str>)> {
    let mut commands: Vec<(&str, Vec<&str>)> = Vec::new();
    let mut is_open = false;
    for line in page.lines() {
        match (line.strip_prefix("    "), commands.last_mut()) {
            (Some(line), _) if line.starts_with("$ ") => {
                commands.push((&line[2..], Vec::new()));
                is_open = true;
            }
            (Some(line), Some((_, lines))) if is_open => lines.push(line),
            _ => is_open = false,
        }
    }
    commands
}

/// Runs a line of the shell in which the tool is known by its name.
fn run(folder: &Folder, line: &str) -> Vec<String> {
    let tools = Path::new(env!("CARGO_BIN_EXE_meshpigeon")).parent().expect("a folder");
    let path = format!("{}:{}", tools.display(), std::env::var("PATH").unwrap_or_default());
    let mut shell = Command::new("sh");
    let shell = shell.args(["-c", line]).env("PATH", path).env("LC_ALL", "C").current_dir(folder.file(".")).stdin(Stdio::null());
    said(shell.output().expect("the shell runs")).out.lines().map(str::to_string).collect()
}

/// Asserts that a page tells the truth, and how many commands it shows.
fn holds(page: &str, least: usize) {
    let (folder, mut count) = (folder(), 0);
    for (line, lines) in shown(page).into_iter().filter(|(line, _)| !line.contains(ABSENT) && !line.contains(" map01.wad")) {
        assert_eq!(run(&folder, line), lines, "{line}");
        count += 1;
    }
    assert!(count >= least, "{count}");
}

#[test]
fn the_page_of_the_tool_shows_what_it_prints() {
    holds(include_str!("../../../../docs/TOOL.md"), 20);
}

#[test]
fn the_page_of_the_spool_shows_what_it_prints() {
    holds(include_str!("../../../../docs/OPERATING.md"), 10);
}

#[test]
fn the_readme_shows_what_the_tool_prints() {
    let page = include_str!("../../../../README.md");
    holds(page, 7);
    let all = run(&folder(), "meshpigeon judge samples/*.wad");
    assert!(all.iter().all(|line| page.contains(&format!("\n    {line}\n"))), "{all:?}");
}

#[test]
fn the_line_for_sending_sends_only_maps() {
    let page = include_str!("../../../../README.md");
    let line =
        page.lines().find_map(|line| line.strip_prefix("    ").filter(|it| it.ends_with("&& send map.wad"))).expect("the line");
    let folder = folder();
    for (sample, sends) in [("accepted", true), ("hexen", true), ("loop", false), ("picture", false), ("text", false)] {
        fs::copy(folder.file("samples").join(format!("{sample}.wad")), folder.file("map.wad")).expect("a copy");
        let line = line.replace("send map.wad", "echo sent");
        let is_sent = run(&folder, &line).last().is_some_and(|last| last == "sent");
        assert_eq!(is_sent, sends, "{sample}");
    }
    fs::remove_file(folder.file("map.wad")).expect("the copy");
    assert!(run(&folder, &line.replace("send map.wad", "echo sent")).is_empty());
}
