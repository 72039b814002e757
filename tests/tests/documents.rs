// What README.md, docs/GUARANTEES.md and docs/DECISIONS.md name is there: each file; each name
// between backquotes, as that of a definition, a law, a function, a clause or an edit; each name that
// they say stands in a file, in that file; and each clause at its function.
use std::collections::HashSet;
use std::fs;
use std::path::{Path, PathBuf};

const DOCUMENTS: [&str; 3] = ["README.md", "docs/GUARANTEES.md", "docs/DECISIONS.md"];

/// Where the names stand.
const SOURCES: [&str; 5] = ["crates", "host", "include", "tests", "bench"];

/// Of the languages, the toolchain and the C library, and of the documents' own example of a clause.
const FOREIGN: [&str; 23] = [
    "i32", "requires", "ensures", "match", "while", "len", "use", "pub", "memcpy", "memset", "rt",
    "lib", "mathlib", "check", "std", "f", "clause", "specs", "proofs", "Result", "Option",
    "arrayvec", "itoa",
];

fn root() -> PathBuf {
    Path::new(env!("CARGO_MANIFEST_DIR")).join("..")
}

fn read(path: &str) -> String {
    fs::read_to_string(root().join(path)).unwrap_or_else(|error| panic!("{path}: {error}"))
}

/// The files below a folder, by their paths from the root.
fn files(folder: &str) -> Vec<String> {
    let mut found = Vec::new();
    for entry in fs::read_dir(root().join(folder)).expect("the folder is there") {
        let entry = entry.expect("an entry");
        let path = format!("{folder}/{}", entry.file_name().to_string_lossy());
        if entry.path().is_dir() {
            if !path.ends_with("/target") && !path.ends_with("/out") {
                found.extend(files(&path));
            }
        } else {
            found.push(path);
        }
    }
    found
}

/// Letters, digits and what else a name may hold.
fn in_name(c: char) -> bool {
    c.is_alphanumeric() || matches!(c, '_' | '-' | '\'')
}

/// The name that a line of antt gives a type, if it does: `pub name : ..`, `pub record Name (..) ..`.
fn antt_name(line: &str) -> Option<&str> {
    let keywords = ["pub", "unfoldable", "abbrev", "record", "data"];
    let mut words = line.split_whitespace().skip_while(|word| keywords.contains(word));
    let name = words.next().filter(|word| word.chars().all(in_name))?;
    (line.contains(" : ") || line.ends_with(" :")).then_some(name)
}

/// The names that a line of Rattle, Rust or C declares: of functions, types, constants and clauses.
fn code_names(line: &str) -> Vec<&str> {
    let declares = ["fn", "struct", "enum", "const", "mod", "ensures"];
    let words: Vec<&str> =
        line.split(|c: char| !in_name(c)).filter(|word| !word.is_empty()).collect();
    let after = words.windows(2).filter(|pair| declares.contains(&pair[0])).map(|pair| pair[1]);
    after.collect()
}

fn is_comment(line: &str) -> bool {
    ["--", "//", "#", "*", "/*"].iter().any(|start| line.trim_start().starts_with(start))
}

/// What a file declares; of the header, whatever stands outside its comments.
fn declared(path: &str) -> HashSet<String> {
    let Ok(text) = fs::read_to_string(root().join(path)) else { return HashSet::new() };
    let lines = text.lines().filter(|line| !is_comment(line));
    let names: Vec<&str> = match path.rsplit('.').next() {
        Some("antt") => lines.filter_map(antt_name).collect(),
        Some("rt" | "rs") => lines.flat_map(code_names).collect(),
        Some("h") => lines.flat_map(|line| line.split(|c: char| !in_name(c))).collect(),
        _ => Vec::new(),
    };
    names.into_iter().map(str::to_string).collect()
}

/// Whatever is declared, and the names of files without their endings and of folders.
fn names() -> HashSet<String> {
    let mut names: HashSet<String> = FOREIGN.iter().map(|name| name.to_string()).collect();
    for path in SOURCES.iter().flat_map(|folder| files(folder)) {
        names
            .extend(path.split('/').map(|part| part.split('.').next().unwrap_or(part).to_string()));
        names.extend(declared(&path));
    }
    names
}

/// What stands between backquotes, outside of the blocks that three of them fence.
fn quoted(text: &str) -> Vec<&str> {
    let outside = text.split("\n```").step_by(2);
    outside.flat_map(|part| part.split('`').skip(1).step_by(2)).collect()
}

/// The modules, the name and the clause of `frame::read_word: answer`; none for what is no name.
fn parts(quoted: &str) -> Vec<&str> {
    let (path, clause) = quoted.split_once(": ").unwrap_or((quoted, ""));
    let parts: Vec<&str> =
        path.split("::").chain([clause]).filter(|part| !part.is_empty()).collect();
    let is_name = |part: &&str| part.starts_with(char::is_alphabetic) && part.chars().all(in_name);
    if parts.iter().all(is_name) {
        parts
    } else {
        Vec::new()
    }
}

fn missing(document: &str, names: &HashSet<String>) -> Vec<String> {
    let named = |quoted: &&str| parts(quoted).iter().all(|part| names.contains(*part));
    quoted(document).into_iter().filter(|quoted| !named(quoted)).map(str::to_string).collect()
}

/// The names of `a`, `b` in crates/.../File.antt and of `a`, `b` (crates/.../File.antt), with the file.
fn cited(document: &str) -> Vec<(String, String)> {
    let mut found = Vec::new();
    for (at, _) in document.match_indices("crates/") {
        let path: String =
            document[at..].chars().take_while(|&c| in_name(c) || matches!(c, '/' | '.')).collect();
        let path = path.trim_end_matches('.');
        let before = document[..at].trim_end_matches('(').trim_end().trim_end_matches(" in");
        let mut rest = before;
        while let Some(shorter) = rest.strip_suffix('`') {
            let Some((start, name)) = shorter.rsplit_once('`') else { break };
            if path.ends_with(".antt") && parts(name).len() == 1 {
                found.push((name.to_string(), path.to_string()));
            }
            rest = start.trim_end().trim_end_matches(',').trim_end_matches(" and");
        }
    }
    found
}

/// Whether a function, of the crate or the module that is named or of any, has the clause.
fn has_clause(path: &[&str], clause: &str) -> bool {
    let begins = match path[..path.len() - 1] {
        [] => "crates/".to_string(),
        [layer] => format!("crates/{layer}/src/"),
        [layer, ref modules @ ..] => format!("crates/{layer}/src/{}.rt", modules.join("/")),
    };
    let opens = format!("fn {}(", path[path.len() - 1]);
    let sources = files("crates")
        .into_iter()
        .filter(|file| file.starts_with(&begins) && file.ends_with(".rt"))
        .map(|file| read(&file));
    let mut heads = sources
        .filter_map(|text| Some(text.split_once(&opens)?.1.split("\n{").next()?.to_string()));
    heads.any(|head| head.contains(&format!("ensures {clause} ")))
}

#[test]
fn every_name_in_the_documents_is_that_of_something() {
    let names = names();
    for document in DOCUMENTS {
        assert_eq!(missing(&read(document), &names), Vec::<String>::new(), "{document}");
    }
}

#[test]
fn a_name_that_is_nowhere_is_missed() {
    let names = names();
    let document = "`frame::read_word: answer`, `index_at_place_of`, `first_place`, `frame::allWords`, `frame::read_word: seventh`";
    assert_eq!(
        missing(document, &names),
        ["first_place", "frame::allWords", "frame::read_word: seventh"]
    );
}

#[test]
fn every_name_stands_in_the_file_that_is_named_for_it() {
    for document in DOCUMENTS {
        for (name, path) in cited(&read(document)) {
            assert!(declared(&path).contains(&name), "{document}: {name} isn't in {path}");
        }
    }
    let rows = cited(&read("docs/GUARANTEES.md"));
    assert!(rows.len() > 100, "{} names with a file only", rows.len());
}

#[test]
fn every_clause_in_the_documents_is_one_of_its_function() {
    let mut seen = 0;
    for document in DOCUMENTS {
        let text = read(document);
        for (path, clause) in quoted(&text).into_iter().filter_map(|quoted| quoted.split_once(": "))
        {
            let path: Vec<&str> = path.split("::").collect();
            if path != ["f"] && !parts(path[0]).is_empty() && clause.chars().all(in_name) {
                assert!(has_clause(&path, clause), "{document}: {path:?}: {clause}");
                seen += 1;
            }
        }
    }
    assert!(seen > 40, "{seen} clauses only");
    assert!(!has_clause(&["frame", "read_word"], "reads_back"));
    assert!(has_clause(&["interleaver", "table"], "inverse"));
    assert!(!has_clause(&["interleaver", "sync", "table"], "inverse"));
}

#[test]
fn every_file_in_the_documents_is_there() {
    let all: Vec<String> = SOURCES.iter().flat_map(|folder| files(folder)).collect();
    let ends =
        |c: char| c.is_whitespace() || matches!(c, '`' | '(' | ')' | ',' | ';' | '|' | ':' | '*');
    for document in DOCUMENTS {
        let text = read(document);
        let words = text.split(ends).map(|word| word.trim_end_matches(['.', '/']));
        for word in words.filter(|word| !word.contains("NAME")) {
            if SOURCES.iter().any(|folder| word.starts_with(&format!("{folder}/"))) {
                assert!(root().join(word).exists(), "{document}: {word}");
            } else if word.ends_with(".antt") {
                let there = all.iter().any(|path| path.ends_with(&format!("/{word}")));
                assert!(there, "{document}: {word}");
            }
        }
    }
}
