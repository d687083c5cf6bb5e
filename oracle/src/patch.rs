//! patch PATCHES FOLDER: makes the changes listed in PATCHES to the files of FOLDER. Stops where
//! an old text doesn't stand exactly once in its file.

use std::process::exit;

#[derive(Default)]
struct Change {
    file: String,
    old: String,
    new: Vec<String>,
}

fn stop(why: String) -> ! {
    eprintln!("patch: {why}");
    exit(1)
}

fn read(path: &str) -> String {
    std::fs::read_to_string(path).unwrap_or_else(|e| stop(format!("{path}: {e}")))
}

fn changes(list: &str) -> Vec<Change> {
    let mut changes: Vec<Change> = vec![];
    for line in list.lines().filter(|line| !line.is_empty() && !line.starts_with('#')) {
        let (word, rest) = line.split_once(' ').unwrap_or((line, ""));
        let rest = rest.trim().to_string();
        match (word, changes.last_mut()) {
            ("file", _) => changes.push(Change { file: rest, ..Change::default() }),
            ("why", Some(_)) => (),
            ("old", Some(change)) if change.old.is_empty() => change.old = rest,
            ("new", Some(change)) => change.new.push(rest),
            _ => stop(format!("no such line: {line}")),
        }
    }
    changes
}

fn main() {
    let arguments: Vec<String> = std::env::args().collect();
    let [_, patches, folder] = &arguments[..] else { stop("patch PATCHES FOLDER".into()) };
    for change in changes(&read(patches)) {
        let path = format!("{folder}/{}", change.file);
        let text = read(&path);
        let times = text.matches(&change.old).count();
        if change.old.is_empty() || change.new.is_empty() || times != 1 {
            stop(format!("{} stands {times} times in {}", change.old, change.file));
        }
        let text = text.replace(&change.old, &change.new.join("\n"));
        std::fs::write(&path, text).unwrap_or_else(|e| stop(format!("{path}: {e}")));
    }
}
