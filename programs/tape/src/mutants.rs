//! Lines that were changed, of which each fault is named.

use crate::export::export;
use crate::failure::TapeStatus;
use crate::import::import;
use crate::samples::{self, TempFile};
use rand::rngs::SmallRng;
use rand::{Rng, SeedableRng};
use regex::Regex;

const HEAD: &str = r#"{"kind":"Recording","version":1,"begun":0}"#;
const OPENED: &str = r#"{"connection":1,"time":0,"kind":"Opened","address":""}"#;

/// Imports lines, and gives the words of the fault.
fn fault(name: &str, lines: &[u8]) -> Option<String> {
    let (from, to) = (TempFile::with(name, lines), TempFile::new(&format!("{name}.to")));
    let failure = import(from.path(), to.path()).err()?;
    assert!(!to.path().exists());
    assert_eq!(failure.status, TapeStatus::Damaged, "{failure}");
    let words = failure.to_string();
    let words = words.strip_prefix(&format!("{}: ", from.path().display()))?;
    // A fault of JSON has its column too.
    Some(Regex::new("^(line [0-9]+), column [0-9]+").unwrap().replace(words, "$1").into_owned())
}

/// Lines, and the fault that they have after its line. `|` is between lines, and letters stand for some of them.
const FAULTS: [(&str, &str); 27] = [
    ("", "1: there is no line"),
    ("{}", "1: missing field `kind`"),
    ("[]", "1: invalid type: sequence, expected a line of a recording, which is an object"),
    (r#"{"kind":"Recording","version":2,"begun":0}"#, "1: the format has version 1 here"),
    ("O", "1: the first line isn't of the kind `Recording`"),
    ("H|H", "2: the recording has begun before"),
    ("H|O|O", "3: a connection is opened out of turn"),
    ("H|Q", "3: its connection isn't open"),
    ("H|O|{\"connection\":1,", "3: EOF while parsing a value"),
    (r#"H|O|{P,"kind":"Nothing"}"#, "3: a client has no message of the kind `Nothing`"),
    (
        r#"H|O|{"connection":1,"time":0,"side":"server","kind":"Query","query":""}"#,
        "3: a server has no message of the kind `Query`",
    ),
    (r#"H|O|{P,"kind":"Query"}"#, "3: missing field `query`"),
    (r#"H|O|{P,"kind":"Query","query":"","a":1}"#, "3: unknown field `a`, expected `query`"),
    (
        r#"H|O|{P,"kind":"Query","query":"","\u001b[2J\u009b\n":1}"#,
        r"3: unknown field `\x1b[2J\xc2\x9b\x0a`, expected `query`",
    ),
    (
        r#"H|O|{P,"kind":"\u001b]0;a\u0007"}"#,
        r"3: a client has no message of the kind `\x1b]0;a\x07`",
    ),
    (r#"H|O|{P,"kind":"Query","query":"a\u0000"}"#, "3: the message can't be written: "),
    (r#"H|O|{"connection":1,"time":0,"kind":"Query","query":""}"#, "3: missing field `side`"),
    (
        r#"H|O|{"time":0,"side":"client","kind":"Query","query":""}"#,
        "3: missing field `connection`",
    ),
    (
        r#"H|O|{"connection":1,"time":-1,"side":"client","kind":"Sync"}"#,
        "3: invalid value: integer `-1`, expected u64",
    ),
    (r#"H|O|{P,"side":"client","kind":"Sync"}"#, "3: duplicate field `side`"),
    (r#"H|O|{P,"here":6,"kind":"Sync"}"#, "3: all 5 bytes of the message are here"),
    (r#"H|O|{P,"here":2,"kind":"Sync"}"#, "4: the rest of the message before is missing: 3 bytes"),
    (r#"H|O|{P,"kind":"Continued"}"#, "3: no message of this side goes on"),
    (
        r#"H|O|{"connection":1,"time":0,"apart":true,"kind":"Encrypted"}"#,
        "3: a line of the kind `Encrypted` has no field `apart`",
    ),
    (
        r#"H|O|{"connection":1,"time":0,"kind":"Closed","by":"nobody"}"#,
        "3: unknown variant `nobody`, expected `client` or `server`",
    ),
    (r#"H|O|R|{"kind":"Cut","data":"a"}|R"#, "5: nothing follows a line of the kind `Cut`"),
    (r#"H|{"kind":"Cut","data":"a"}|O"#, "3: nothing follows a line of the kind `Cut`"),
];

/// Lines with what their letters stand for.
fn spelled(lines: &str) -> String {
    let lines = lines.split('|').map(|it| match it {
        "H" => HEAD.to_owned(),
        "O" => OPENED.to_owned(),
        "Q" => r#"{"connection":1,"time":1,"side":"client","kind":"Query","query":"a"}"#.to_owned(),
        "R" => r#"{"connection":1,"time":1,"side":"server","kind":"DataRow","values":["1"]}"#
            .to_owned(),
        it => it.replace("{P", r#"{"connection":1,"time":0,"side":"client""#),
    });
    lines.collect::<Vec<_>>().join("\n")
}

#[test]
fn each_fault_is_named_by_its_line() {
    for (at, (lines, wanted)) in FAULTS.into_iter().enumerate() {
        let found = fault(&format!("fault{at}"), spelled(lines).as_bytes());
        assert!(
            found.as_deref().is_some_and(|it| it.starts_with(&format!("line {wanted}"))),
            "{wanted}, not {found:?}"
        );
    }
}

#[test]
fn a_record_that_no_reader_takes_is_a_fault() {
    let opened = |count| {
        format!("{HEAD}\n{}", OPENED.replace(r#""""#, &format!("\"{}\"", "x".repeat(count))))
    };
    assert_eq!(fault("most", opened(recording::MOST).as_bytes()), None);
    assert_eq!(
        fault("more", opened(recording::MOST + 1).as_bytes()).as_deref(),
        Some("line 2: a record holds 1048576 bytes at most, and 1048577 are to be in this one")
    );
}

#[test]
fn fields_may_stand_in_any_order() {
    let lines = [
        HEAD,
        OPENED,
        "",
        r#"{"query":"a","kind":"Query","side":"client","time":1,"connection":1}"#,
        r#"{"kind":"ErrorResponse","fields":{"severity":"ERROR","message":"b","code":"c"},"connection":1,"time":2,"side":"server"}"#,
    ];
    let (from, to, back) = (
        TempFile::with("order", lines.join("\n").as_bytes()),
        TempFile::new("order.to"),
        TempFile::new("order.back"),
    );
    import(from.path(), to.path()).unwrap();
    export(to.path(), Some(back.path())).unwrap();
    let wanted = [
        r#"{"connection":1,"time":1,"side":"client","kind":"Bytes","data":{"base64":"UQAAAAZhAA=="}}"#,
        r#"{"connection":1,"time":2,"side":"server","kind":"ErrorResponse","fields":{"severity":"ERROR","message":"b","code":"c"}}"#,
    ];
    let found = String::from_utf8(back.bytes()).unwrap();
    assert_eq!(found.lines().skip(2).collect::<Vec<_>>(), wanted);
    let twice = [
        HEAD,
        OPENED,
        r#"{"query":"a","query":"b","kind":"Query","side":"client","time":1,"connection":1}"#,
    ];
    assert!(fault("twice", twice.join("\n").as_bytes())
        .unwrap()
        .contains("duplicate field `query`"));
}

#[test]
fn lines_that_are_changed_at_random_are_a_recording_or_a_named_fault() {
    let tape = TempFile::with("mutants", &samples::recording(3, true));
    let lines = TempFile::new("mutants.jsonl");
    export(tape.path(), Some(lines.path())).unwrap();
    let lines = lines.bytes();
    let mut random = SmallRng::seed_from_u64(7);
    let mut named = 0;
    for _ in 0..500 {
        let mut changed = lines.clone();
        for _ in 0..random.gen_range(1..4) {
            let at = random.gen_range(0..changed.len().max(1));
            if changed.is_empty() {
                break;
            }
            match random.gen_range(0..4) {
                0 => changed[at] = random.gen(),
                1 => drop(changed.remove(at)),
                2 => changed.insert(at, b"\"{}[],:0-"[random.gen_range(0..9)]),
                _ => changed.truncate(at),
            }
        }
        named += usize::from(fault("mutant", &changed).is_some_and(|it| it.starts_with("line ")));
    }
    assert!(named > 350, "{named}");
}
