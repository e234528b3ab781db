//! Numbers, and the file that keeps them.

use super::{MAX_NUMBER, Numbers, Use, milliseconds};
use crate::{Error, StateFault};
use std::os::unix::fs::symlink;
use std::path::PathBuf;
use std::{env, fs, process};

/// A folder of the test's own, with a path of a state file in it.
struct Scratch(PathBuf);

impl Scratch {
    fn new(name: &str) -> Scratch {
        let folder = env::temp_dir().join(format!("locks-{}-{name}", process::id()));
        fs::create_dir_all(&folder).unwrap();
        Scratch(folder.join("number"))
    }

    fn with(name: &str, text: &str) -> Scratch {
        let scratch = Scratch::new(name);
        fs::write(&scratch.0, text).unwrap();
        scratch
    }

    fn beside(&self, name: &str) -> PathBuf {
        self.0.with_file_name(name)
    }

    fn text(&self) -> String {
        fs::read_to_string(&self.0).unwrap()
    }
}

impl Drop for Scratch {
    fn drop(&mut self) {
        let _ = fs::remove_dir_all(self.0.parent().unwrap());
    }
}

fn next(numbers: &mut Numbers) -> u64 {
    numbers.take(Use::Request).unwrap()
}

#[test]
fn numbers_rise_from_the_first() {
    let mut numbers = Numbers::from_first(9).unwrap();
    assert_eq!([next(&mut numbers), next(&mut numbers)], [9, 10]);
    assert!(matches!(Numbers::from_first(0), Err(Error::Malformed(_))));
}

#[test]
fn a_number_near_the_last_is_refused_before_it_is_used() {
    for first in [1 << 48, (1 << 48) - 1, (1 << 48) - (1 << 32) + 1, u64::MAX] {
        assert!(matches!(
            Numbers::from_first(first),
            Err(Error::Malformed(_))
        ));
        let mut numbers = Numbers::from_first(1).unwrap();
        assert!(matches!(numbers.skip_to(first), Err(Error::Malformed(_))));
        assert_eq!(next(&mut numbers), 1);
    }
    let mut last = Numbers::from_first(MAX_NUMBER).unwrap();
    assert!(matches!(last.take(Use::Request), Err(Error::OutOfNumbers)));
    assert_eq!(last.take(Use::Freeing).unwrap(), MAX_NUMBER);
    assert!(matches!(last.take(Use::Freeing), Err(Error::OutOfNumbers)));
}

#[test]
fn a_file_near_the_last_number_is_left_as_it_is() {
    let text = format!("{}\n", MAX_NUMBER - 10);
    let scratch = Scratch::with("end", &text);
    let mut numbers = Numbers::kept_in(&scratch.0).unwrap();
    assert!(matches!(
        numbers.take(Use::Request),
        Err(Error::OutOfNumbers)
    ));
    assert_eq!(scratch.text(), text);
}

#[test]
fn numbers_rise_over_restarts() {
    let scratch = Scratch::with("restarts", "41\n");
    for first in [42, 44, 46] {
        let mut numbers = Numbers::kept_in(&scratch.0).unwrap();
        assert_eq!([next(&mut numbers), next(&mut numbers)], [first, first + 1]);
        assert_eq!(scratch.text(), format!("{}\n", first + 999));
        drop(numbers);
        assert_eq!(scratch.text(), format!("{}\n", first + 1));
    }
}

#[test]
fn numbers_rise_over_a_kill() {
    let scratch = Scratch::with("kill", "41\n");
    for first in [42, 1042] {
        let mut numbers = Numbers::kept_in(&scratch.0).unwrap();
        assert_eq!(next(&mut numbers), first);
        numbers.state = None; // so that nothing is given back
    }
}

#[test]
fn a_file_is_written_once_for_many_numbers() {
    let scratch = Scratch::with("block", "41\n");
    let mut numbers = Numbers::kept_in(&scratch.0).unwrap();
    assert_eq!(next(&mut numbers), 42);
    let mut texts = vec![scratch.text()];
    for number in 43..42 + 2_000 {
        assert_eq!(next(&mut numbers), number);
        assert!(number <= scratch.text().trim().parse().unwrap());
        texts.push(scratch.text());
    }
    texts.dedup();
    assert!(texts.len() <= 3, "{texts:?}");
}

#[test]
fn a_file_that_cannot_be_written_leaves_numbers_to_free_locks() {
    let scratch = Scratch::with("full", "41\n");
    let mut numbers = Numbers::kept_in(&scratch.0).unwrap();
    let mut last = next(&mut numbers);
    fs::create_dir(scratch.beside("number.new")).unwrap(); // so that nothing can be written there
    let refused = loop {
        match numbers.take(Use::Request) {
            Ok(number) => last = number,
            Err(error) => break error,
        }
    };
    assert!(matches!(
        refused,
        Error::State {
            fault: StateFault::Io(_),
            ..
        }
    ));
    assert_eq!(numbers.take(Use::Freeing).unwrap(), last + 1);
    fs::remove_dir(scratch.beside("number.new")).unwrap();
    assert_eq!(next(&mut numbers), last + 2);
}

#[test]
fn a_new_file_begins_with_the_first_number() {
    let scratch = Scratch::new("begun");
    let now = milliseconds();
    for (first, expected) in [(now, now), (1, now + 1), (now + 9_000, now + 9_000)] {
        let mut numbers = Numbers::begun_in(&scratch.0, first).unwrap();
        assert_eq!(next(&mut numbers), expected);
    }
}

#[test]
fn numbers_skip_forward_alone() {
    let scratch = Scratch::with("skip", "41\n");
    let mut numbers = Numbers::kept_in(&scratch.0).unwrap();
    assert_eq!(next(&mut numbers), 42);
    numbers.skip_to(7).unwrap();
    assert_eq!(next(&mut numbers), 43);
    numbers.skip_to(9_000).unwrap();
    assert_eq!(scratch.text(), "9999\n");
    assert_eq!(next(&mut numbers), 9_000);
}

const BEGIN: &str = "begin with a first number above all that this client used, as milliseconds()";

#[test]
fn a_damaged_file_is_refused_and_left_as_it_is() {
    let (long, great) = ("9".repeat(90), format!("{}\n", 1_u64 << 48));
    let rows = [
        ("", ""),
        ("176417", "176417"),
        ("abc\n", r"abc\n"),
        ("0\n", r"0\n"),
        ("17\n18\n", r"17\n18\n"),
        (long.as_str(), &long[..32]),
        (great.as_str(), r"281474976710656\n"),
    ];
    for (text, told) in rows {
        let scratch = Scratch::with("damaged", text);
        let path = scratch.0.display();
        let expected =
            format!("state file {path}: it keeps no number but b'{told}'; remove it, and {BEGIN}");
        let kept = Numbers::kept_in(&scratch.0).unwrap_err();
        let begun = Numbers::begun_in(&scratch.0, 1).unwrap_err();
        assert_eq!(
            [kept.to_string(), begun.to_string()],
            [expected.clone(), expected]
        );
        assert_eq!(scratch.text(), text);
    }
}

#[test]
fn a_missing_file_is_refused_and_none_is_made() {
    let scratch = Scratch::new("missing");
    let error = Numbers::kept_in(&scratch.0).unwrap_err().to_string();
    let path = scratch.0.display();
    let expected = "it is not there; if this client is new or the file was lost";
    assert_eq!(error, format!("state file {path}: {expected}, {BEGIN}"));
    let folder = scratch.0.parent().unwrap();
    assert_eq!(fs::read_dir(folder).unwrap().count(), 0);
}

#[test]
fn a_missing_folder_is_told() {
    let scratch = Scratch::new("folder");
    let path = scratch.beside("none/number");
    let kept = Numbers::kept_in(&path).unwrap_err().to_string();
    assert!(kept.contains("it is not there; "), "{kept}");
    let begun = Numbers::begun_in(&path, 1).unwrap_err().to_string();
    let head = format!("state file {}: ", path.display());
    assert!(begun.starts_with(&head), "{begun}");
    assert!(begun.ends_with("; see that its folder is there, may be written and has room"));
}

fn is_in_use(path: PathBuf) -> bool {
    let fault = |error| match error {
        Error::State { fault, .. } => Some(fault),
        _ => None,
    };
    matches!(
        Numbers::begun_in(path, 1).map_err(fault),
        Err(Some(StateFault::InUse))
    )
}

#[test]
fn a_file_with_two_paths_has_one_owner() {
    let scratch = Scratch::with("owner", "41\n");
    let folder = scratch.0.parent().unwrap();
    symlink("number", scratch.beside("link")).unwrap();
    symlink(folder, scratch.beside("folder")).unwrap();
    let mut owner = Numbers::kept_in(scratch.beside("link")).unwrap();
    assert!(is_in_use(scratch.0.clone()));
    assert!(is_in_use(scratch.beside("folder/link")));
    assert!(is_in_use(folder.join("../").join(folder).join("./number")));
    assert_eq!(next(&mut owner), 42);
    assert!(scratch.beside("link").is_symlink());
    assert_eq!(scratch.text(), "1041\n");
}

#[test]
fn a_link_to_a_missing_file_has_one_owner() {
    let scratch = Scratch::new("dangling");
    symlink("number", scratch.beside("link")).unwrap();
    let mut owner = Numbers::begun_in(scratch.beside("link"), 1).unwrap();
    assert!(is_in_use(scratch.0.clone()));
    assert_eq!(next(&mut owner), 1);
    assert_eq!(scratch.text(), "1000\n");
}

#[test]
fn a_file_with_two_names_and_a_folder_are_refused() {
    let scratch = Scratch::with("linked", "41\n");
    fs::hard_link(&scratch.0, scratch.beside("second")).unwrap();
    let error = Numbers::kept_in(&scratch.0).unwrap_err().to_string();
    assert!(error.ends_with("it has a second name (a hard link); remove that, and use one"));
    let folder = scratch.0.parent().unwrap();
    let error = Numbers::begun_in(folder, 1).unwrap_err();
    assert!(
        error
            .to_string()
            .ends_with("it is not a regular file; name another one")
    );
    assert_eq!(fs::read_dir(folder).unwrap().count(), 2); // and no lock file
}

#[test]
fn a_file_that_another_program_wrote_is_not_written_over() {
    let scratch = Scratch::with("changed", "41\n");
    let mut numbers = Numbers::kept_in(&scratch.0).unwrap();
    assert_eq!(next(&mut numbers), 42);
    fs::write(&scratch.0, "5000\n").unwrap();
    let refused = (0..2_000).find_map(|_| numbers.take(Use::Request).err());
    assert!(
        refused
            .unwrap()
            .to_string()
            .contains("another program has written it; ")
    );
    assert_eq!(scratch.text(), "5000\n");
}
