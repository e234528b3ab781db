//! The bytes of `clients/golden.txt` and `clients/golden_watches.txt`, which the tests of each client read.

use crate::op::Op;
use crate::reply::{Label, Reply};
use crate::{ClientId, ClusterId};
use std::fs;

const PATHS: [&str; 2] = [
    concat!(env!("CARGO_MANIFEST_DIR"), "/../golden.txt"),
    concat!(env!("CARGO_MANIFEST_DIR"), "/../golden_watches.txt"),
];

/// The bytes of hex digits.
pub(crate) fn hex(text: &str) -> Vec<u8> {
    assert!(text.len().is_multiple_of(2), "{text}");
    let pairs = (0..text.len()).step_by(2);
    pairs
        .map(|at| u8::from_str_radix(&text[at..at + 2], 16).unwrap())
        .collect()
}

/// The hex digits of bytes.
pub(crate) fn text_of(bytes: &[u8]) -> String {
    bytes.iter().map(|byte| format!("{byte:02x}")).collect()
}

/// The lines of that kind, their words after it.
fn rows(text: &str, kind: &str) -> Vec<Vec<String>> {
    let lines = text.lines().map(|line| line.split(' '));
    lines
        .filter_map(|mut words| (words.next() == Some(kind)).then_some(words))
        .map(|words| words.map(str::to_owned).collect())
        .collect()
}

/// The label of the words CLUSTER SENDER CLIENT NUMBER.
fn label(words: &[String]) -> Label {
    Label {
        cluster: words[0].parse::<ClusterId>().unwrap().get(),
        client: words[2].parse::<ClientId>().unwrap().get(),
        number: words[3].parse().unwrap(),
    }
}

fn op(words: &[String]) -> Op {
    let number = |at: usize| words[at].parse().unwrap();
    match words[0].as_str() {
        "acquire" => Op::Acquire(words[1].clone()),
        "release" => Op::Release(words[1].clone(), number(2)),
        "ask" => Op::Ask(words[1].clone()),
        "check" => Op::Check(words[1].clone(), number(2)),
        "share" => Op::Share(words[1].clone()),
        "break" => Op::Break(words[1].clone(), number(2)),
        "join" => Op::Join(number(1) as u32, number(2) as u16),
        "leave" => Op::Leave(number(1) as u32),
        "raise" => Op::Raise,
        other => panic!("no op: {other}"),
    }
}

/// The rows of a kind, each checked; there have to be some.
pub(crate) fn each(kind: &str, check: impl Fn(&[String])) {
    let text = PATHS.map(|path| fs::read_to_string(path).unwrap()).concat();
    let rows = rows(&text, kind);
    assert!(!rows.is_empty(), "no row of {kind}");
    rows.iter().for_each(|words| check(words));
}

#[test]
fn each_request_has_its_bytes() {
    each("request", |words| {
        let bytes = label(&words[1..]).request(&op(&words[5..])).unwrap();
        assert_eq!(bytes, hex(&words[0]), "{words:?}");
    });
}

#[test]
fn each_answer_is_read() {
    each("answer", |words| {
        let Some(Reply::Answer(answer)) = label(&words[1..]).reply(&hex(&words[0])) else {
            panic!("no answer: {words:?}");
        };
        assert_eq!(answer.to_string(), words[5..].join(" "));
    });
}

#[test]
fn each_elsewhere_and_passed_is_read() {
    each("elsewhere", |words| {
        let (node, port) = (words[5].parse().unwrap(), words[6].parse().unwrap());
        let expected = Reply::Elsewhere { node, port };
        assert_eq!(label(&words[1..]).reply(&hex(&words[0])), Some(expected));
    });
    each("passed", |words| {
        let expected = Reply::Passed(words[5].parse().unwrap());
        assert_eq!(label(&words[1..]).reply(&hex(&words[0])), Some(expected));
    });
}

#[test]
fn all_else_is_dropped() {
    let label = Label {
        cluster: 5,
        client: 7,
        number: 1,
    };
    each("dropped", |words| {
        assert_eq!(label.reply(&hex(&words[0])), None, "{words:?}");
    });
}
