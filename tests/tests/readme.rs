// The examples of README.md, run: its commands print what it says they print, and its C program
// compiles, links and prints what stands below it.
use std::fs;
use std::path::{Path, PathBuf};
use std::process::Command;

fn root() -> PathBuf {
    Path::new(env!("CARGO_MANIFEST_DIR")).join("..")
}

fn readme() -> String {
    fs::read_to_string(root().join("README.md")).expect("README.md is there")
}

/// What a command of the shell writes to both its outputs, in the order in which it does.
fn printed(command: &str) -> String {
    let output = Command::new("sh")
        .args(["-c", &format!("{{ {command}\n}} 2>&1")])
        .current_dir(root())
        .output()
        .expect("a shell is there");
    String::from_utf8(output.stdout).expect("the examples print text")
}

/// The indented lines after one that begins with `$`, as far as the next.
fn examples(text: &str) -> Vec<(String, String)> {
    let mut examples: Vec<(String, String)> = Vec::new();
    let mut open = false;
    for line in text.lines() {
        let indented = line.strip_prefix("    ");
        match (indented.and_then(|code| code.strip_prefix("$ ")), indented) {
            (Some(command), _) => examples.push((command.to_string(), String::new())),
            (None, Some(code)) if open => {
                examples.last_mut().expect("a command came before").1 += &format!("{code}\n");
            }
            _ => {}
        }
        open = open && indented.is_some() || indented.is_some_and(|code| code.starts_with("$ "));
    }
    examples
}

#[test]
fn the_commands_print_what_the_readme_shows() {
    let examples = examples(&readme());
    assert!(examples.len() >= 7, "{} examples only", examples.len());
    for (command, shown) in examples {
        assert_eq!(printed(&command), shown, "{command}");
    }
}

#[test]
fn the_c_example_compiles_and_prints_what_the_readme_shows() {
    let text = readme();
    let (_, from_code) = text.split_once("```c\n").expect("a C example is there");
    let (code, after) = from_code.split_once("```\n").expect("the example ends");
    let shown = after.trim_start().lines().next().expect("its output is shown");
    fs::create_dir_all(root().join("build")).unwrap();
    fs::write(root().join("build/readme.c"), code).unwrap();
    let compile = "gcc -std=c11 -Wall -Wextra -Werror -Iinclude -o build/readme build/readme.c \
                   target/staticlib/libwsprcard.a && build/readme";
    assert_eq!(printed(compile), format!("{shown}\n"));
}
