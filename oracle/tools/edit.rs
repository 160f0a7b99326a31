//! `edit EDITS ROOT`: makes the edits of a list in the files under a folder. An edit whose text
//! doesn't stand there as often as the list says stops everything.
use std::{env, fs, process::exit};

struct Edit {
    file: String,
    why: String,
    times: usize,
    old: String,
    new: String,
}

fn fail(text: String) -> ! {
    eprintln!("oracle: {text}");
    exit(1)
}

fn field<'a>(lines: &[&'a str], name: &str) -> &'a str {
    let found = lines.iter().find_map(|l| l.strip_prefix(name)?.strip_prefix(' '));
    found.unwrap_or_else(|| fail(format!("an edit has no {name}: {lines:?}"))).trim_start()
}

fn parse(text: &str) -> Vec<Edit> {
    let mut edits = Vec::new();
    for stanza in text.split("\n\n") {
        let lines: Vec<&str> = stanza.lines().filter(|l| !l.starts_with('#')).collect();
        if lines.iter().all(|l| l.is_empty()) {
            continue;
        }
        let times = field(&lines, "times");
        edits.push(Edit {
            file: field(&lines, "file").into(),
            why: field(&lines, "why").into(),
            times: times.parse().unwrap_or_else(|_| fail(format!("times {times} is no number"))),
            old: field(&lines, "old").into(),
            new: field(&lines, "new").into(),
        });
    }
    edits
}

fn apply(root: &str, e: &Edit) {
    let path = format!("{root}/{}", e.file);
    let text = fs::read_to_string(&path).unwrap_or_else(|x| fail(format!("{path}: {x}")));
    let found = text.matches(&e.old).count();
    if found != e.times {
        fail(format!(
            "the given text isn't what an edit expects\n  file     {}\n  edit     {}\n  text     {}\n  expected {} times, found {found}",
            e.file, e.why, e.old, e.times
        ));
    }
    if let Err(x) = fs::write(&path, text.replace(&e.old, &e.new)) {
        fail(format!("{path}: {x}"));
    }
}

fn main() {
    let args: Vec<String> = env::args().collect();
    let [_, edits, root] = args.as_slice() else { fail("usage: edit EDITS ROOT".into()) };
    let text = fs::read_to_string(edits).unwrap_or_else(|x| fail(format!("{edits}: {x}")));
    for e in parse(&text) {
        apply(root, &e);
    }
}
