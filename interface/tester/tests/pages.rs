//! The pages show what the tool prints: each `$ tester` in a fenced block, with the lines below it.

mod run;

use std::fs;

use run::{root, run_in};

/// The commands of a page's fenced blocks, each with the lines shown below it.
fn shown(page: &str) -> Vec<(String, String)> {
    let mut list: Vec<(String, String)> = Vec::new();
    for block in page.split("```").skip(1).step_by(2) {
        for line in block.lines().skip(1) {
            match (line.strip_prefix("$ "), list.last_mut()) {
                (Some(command), _) => list.push((command.into(), String::new())),
                (None, Some((_, lines))) => *lines += &format!("{line}\n"),
                (None, None) => {}
            }
        }
    }
    list
}

#[test]
fn pages_show_what_the_tool_prints() {
    for (page, least) in [("README.md", 0), ("docs/TESTING.md", 12)] {
        let text = fs::read_to_string(root().join(page)).expect("the page");
        let commands = shown(&text);
        assert!(commands.len() >= least, "{page}: {} commands", commands.len());
        for (command, lines) in commands {
            let printed = match command.split_once(' ') {
                Some(("tester", words)) => run_in(&root(), words, &[]).out,
                Some(("cat", file)) => fs::read_to_string(root().join(file)).expect("the file"),
                _ => panic!("{page}: {command}"),
            };
            assert_eq!(printed, lines, "{page}: {command}");
        }
    }
}
