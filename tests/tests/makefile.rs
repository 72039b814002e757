// The Makefile's own recipes, run in folders of their own: `make test` and linking with stand-ins for
// rt and the compiler, so that nothing is proved, and `make install` to a folder that isn't the
// system's.
use std::fs;
use std::os::unix::fs::PermissionsExt;
use std::path::{Path, PathBuf};
use std::process::{Command, Output};

use wsprcard_tests::child::in_repository;

/// An empty folder of this name.
fn folder(name: &str) -> PathBuf {
    let folder = Path::new(env!("CARGO_TARGET_TMPDIR")).join(name);
    if folder.exists() {
        fs::remove_dir_all(&folder).unwrap();
    }
    fs::create_dir_all(&folder).unwrap();
    folder
}

/// The Makefile run in this folder, without what a make around the tests was called with.
fn make(folder: &Path, arguments: &[&str], path: &str) -> Output {
    Command::new("make")
        .arg("-f")
        .arg(fs::canonicalize(in_repository("Makefile")).unwrap())
        .args(arguments)
        .current_dir(folder)
        .env_remove("MAKEFLAGS")
        .env_remove("MAKELEVEL")
        .env("PATH", path)
        .output()
        .expect("make is there")
}

/// A program of the shell in this folder.
fn stand_in(folder: &Path, name: &str, program: &str) {
    let path = folder.join(name);
    fs::write(&path, format!("#!/bin/sh\n{program}\n")).unwrap();
    fs::set_permissions(&path, fs::Permissions::from_mode(0o755)).unwrap();
}

/// Whether `make test` goes on to its end behind a gate that does this. `true` stands for the make
/// of the outside tests.
fn passes(turn: usize, gate: &str) -> bool {
    let folder = folder(&format!("gate_{turn}"));
    stand_in(&folder, "rt", gate);
    let path = format!("{}:/usr/bin:/bin", folder.display());
    let output = make(&folder, &["test", "MAKE=true"], &path);
    let printed = String::from_utf8(output.stdout).unwrap();
    let is_last = printed.ends_with("true outside\ntail -n 1 build/gate.log\n7 passed, 0 failed\n");
    assert_eq!(output.status.success(), is_last, "{gate}: {printed}");
    is_last
}

/// With exit status 0 and the right last line, and with nothing else.
#[test]
fn the_gate_passes_by_its_status_and_its_last_line() {
    let gates = [
        (true, "echo 7 passed, 0 failed"),
        (true, "echo 8 passed, 1 failed; echo 7 passed, 0 failed; exit 0"),
        (true, "echo 'rt: ok; must-fail edits: 5 refused; so'; echo 7 passed, 0 failed"),
        (false, "echo 'rt: ok; must-fail edits: 5 refused, 1 bad; so'; echo 7 passed, 0 failed"),
        (false, "echo 7 passed, 0 failed; exit 1"),
        (false, "echo 7 passed, 0 failed; exit 3"),
        (false, "echo 7 passed, 0 failed; kill -9 $$"),
        (false, "echo 7 passed, 1 failed"),
        (false, "echo 7 passed, 10 failed"),
        (false, "echo 7 passed, 0 failed; echo more"),
        (false, "echo passed, 0 failed"),
        (false, "echo no line says how many have passed, 0 failed"),
        (false, "exit 0"),
        (false, "exit 1"),
    ];
    for (turn, (right, gate)) in gates.into_iter().enumerate() {
        assert_eq!(passes(turn, gate), right, "{gate}");
    }
}

/// A library that rt has just written is linked in the same run of make. The library here is the
/// text of a file, and linking copies it.
#[test]
fn what_is_linked_with_a_new_library_is_linked_anew() {
    let folder = folder("linked");
    let path = format!("{}:/usr/bin:/bin", folder.display());
    fs::create_dir_all(folder.join("crates/wsprcard")).unwrap();
    stand_in(&folder, "rt", "mkdir -p out; cp ../../text out/libwsprcard.a");
    stand_in(&folder, "gcc", "cp target/staticlib/libwsprcard.a build/wsprcard");
    fs::create_dir(folder.join("include")).unwrap();
    fs::write(folder.join("include/wsprcard.h"), "").unwrap();
    for text in ["first", "second", "third"] {
        fs::write(folder.join("text"), text).unwrap();
        assert!(make(&folder, &["build/wsprcard"], &path).status.success());
        assert_eq!(fs::read_to_string(folder.join("build/wsprcard")).unwrap(), text);
    }
}

/// What is installed, and the files that it is made of.
const INSTALLED: [(&str, &str, u32); 5] = [
    ("bin/wsprcard", "build/wsprcard", 0o755),
    ("bin/telemetry_lines", "target/bin/telemetry_lines", 0o755),
    ("share/man/man1/wsprcard.1", "host/wsprcard.1", 0o644),
    ("include/wsprcard.h", "include/wsprcard.h", 0o644),
    ("lib/libwsprcard.a", "target/staticlib/libwsprcard.a", 0o644),
];

#[test]
fn install_puts_all_that_was_built_under_its_prefix() {
    let destination = folder("installed");
    let given = format!("DESTDIR={}", destination.display());
    let output = make(&in_repository(""), &["install", &given, "PREFIX=/opt"], "/usr/bin:/bin");
    assert!(output.status.success(), "{}", String::from_utf8_lossy(&output.stderr));
    for (installed, made, mode) in INSTALLED {
        let installed = destination.join("opt").join(installed);
        let is_same = fs::read(&installed).unwrap() == fs::read(in_repository(made)).unwrap();
        assert!(is_same, "{installed:?} isn't {made}");
        let found = fs::metadata(&installed).unwrap().permissions().mode();
        assert_eq!(found & 0o777, mode, "{installed:?}");
    }
}

/// Where a program wasn't built nothing is installed.
#[test]
fn install_needs_both_programs() {
    let programs = ["build/wsprcard", "target/bin/telemetry_lines"];
    for (built, name) in
        [(&programs[..0], "none"), (&programs[..1], "one"), (&programs[1..], "other")]
    {
        let folder = folder(&format!("built_{name}"));
        for program in built {
            let path = folder.join(program);
            fs::create_dir_all(path.parent().unwrap()).unwrap();
            fs::copy(in_repository(program), path).unwrap();
        }
        let output = make(&folder, &["install", "DESTDIR=installed"], "/usr/bin:/bin");
        assert!(!output.status.success(), "{built:?}");
        assert_eq!(String::from_utf8_lossy(&output.stderr).lines().next(), Some("run make first"));
        assert!(!folder.join("installed").exists(), "{built:?}");
    }
}
