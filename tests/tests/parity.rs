// The form of the parity (02, L1), of which no contract speaks: no loop, call or table, and at most
// 16 operations, which its comments count.
use std::fs;

use wsprcard_tests::child::in_repository;

const OPERATIONS: [&str; 6] = ["&", "^", ">>", "*", "%", "as"];

/// What else may stand in a line, beside numbers and names.
const OTHERS: [&str; 7] = ["let", "=", ";", "(", ")", "u64", "u8"];

/// The lines of the function's body: what stands before each comment, and the numbers in it.
fn body() -> Vec<(Vec<String>, Vec<usize>)> {
    let source = fs::read_to_string(in_repository("crates/convolution/src/lib.rt")).unwrap();
    let (_, function) = source.split_once("\nfn masked_parity(").expect("the function is there");
    let (_, body) = function.split_once("\n{\n").expect("it has a body");
    let (body, _) = body.split_once("\n}\n").expect("which ends");
    body.lines().map(parts).collect()
}

fn parts(line: &str) -> (Vec<String>, Vec<usize>) {
    let (code, comment) = line.split_once("//").expect("each line counts its operations");
    let code = code.replace('(', " ( ").replace(')', " ) ").replace(';', " ; ");
    let numbers = comment.split(',').map(|number| number.trim().parse().expect("a number"));
    (code.split_whitespace().map(String::from).collect(), numbers.collect())
}

#[test]
fn the_parity_takes_the_operations_that_its_comments_count() {
    let mut counted = Vec::new();
    for (code, numbers) in body() {
        let operations = code.iter().filter(|part| OPERATIONS.contains(&part.as_str()));
        assert_eq!(operations.count(), numbers.len(), "{code:?}");
        counted.extend(numbers);
    }
    assert!(counted.iter().copied().eq(1..=counted.len()), "{counted:?}");
    assert!(counted.len() <= 16, "{counted:?}");
}

/// Beside operations there are only numbers, bindings, and names of parameters or bound above. No
/// name stands before a parenthesis, so none is called.
#[test]
fn the_parity_has_no_loop_call_or_table() {
    let mut names = vec!["mask".to_string(), "register".to_string()];
    for (code, _) in body() {
        if code[0] == "let" {
            names.push(code[1].clone());
        }
        for part in &code {
            let number = part.starts_with(|c: char| c.is_ascii_digit());
            let other = OPERATIONS.contains(&part.as_str()) || OTHERS.contains(&part.as_str());
            assert!(number || other || names.contains(part), "{part} in {code:?}");
        }
        let called = |two: &[String]| names.contains(&two[0]) && two[1] == "(";
        assert!(!code.windows(2).any(called), "a call in {code:?}");
    }
}
