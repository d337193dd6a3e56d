//! Compares what the program writes with the answers stored in examples/items, byte for byte, and runs the examples of its help texts.
mod common;

use std::fs::{self, File};
use std::os::unix::fs::PermissionsExt;
use std::path::Path;
use std::process::Command;

use common::{command, root, stored, Done, Folder, ITEMS};

/// A call of the list, with its name, its exit status and the file that is its standard input.
struct Listed {
    name: String,
    status: i32,
    words: Vec<String>,
    input: Option<String>,
}

fn listed(line: &str) -> Listed {
    let (call, input) = match line.split_once(" <") {
        Some((call, input)) => (call, Some(input.to_string())),
        None => (line, None),
    };
    let mut words: Vec<String> = call.split_whitespace().map(str::to_string).collect();
    Listed {
        name: words.remove(0),
        status: words.remove(0).parse().expect("a status is a number"),
        words,
        input,
    }
}

/// The calls of the list.
fn calls() -> Vec<Listed> {
    let list = fs::read_to_string(root().join("examples/items/calls")).expect("the list can be read");
    let lines = list.lines().filter(|line| !line.is_empty() && !line.starts_with('#'));
    lines.map(listed).collect()
}

/// The call of this name.
fn call_named(name: &str) -> Listed {
    calls().into_iter().find(|call| call.name == name).expect("the list has the call")
}

fn answered(call: &Listed) -> Done {
    let mut run = command(&call.words);
    if let Some(input) = &call.input {
        run.stdin(File::open(root().join(input)).expect("the input can be read"));
    }
    run.output().expect("the program runs").into()
}

#[test]
fn every_answer_is_the_stored_one() {
    let calls = calls();
    assert!(calls.len() > 60, "the list has {} calls", calls.len());
    for call in calls {
        let done = answered(&call);
        let wanted = (
            call.status,
            stored(&format!("{}.out", call.name)),
            stored(&format!("{}.err", call.name)),
        );
        assert_eq!((done.status, done.out, done.err), wanted, "{}", call.name);
        assert_ne!(wanted.1, "", "{} has no stored answer", call.name);
    }
}

#[test]
fn every_stored_file_is_used() {
    let calls = calls();
    for entry in fs::read_dir(root().join("examples/items")).expect("the folder can be read") {
        let file = entry
            .expect("the folder can be read")
            .file_name()
            .into_string()
            .expect("a name is UTF-8");
        let (name, kind) = file.split_once('.').unwrap_or((&file, ""));
        let path = format!("examples/items/{file}");
        let used = match kind {
            "" => ["calls", "make"].contains(&name),
            "out" | "err" => calls.iter().any(|call| call.name == name),
            _ => calls
                .iter()
                .any(|call| call.input.as_ref() == Some(&path) || call.words.contains(&path)),
        };
        assert!(used, "{path} is not used");
    }
}

/// What stands behind a line's front.
fn line_with<'o>(done: &'o Done, front: &str) -> &'o str {
    done.out
        .lines()
        .find_map(|line| line.strip_prefix(front))
        .unwrap_or_else(|| panic!("no line {front} in {}", done.out))
}

/// The breakdowns of BOLT 11's examples, as its text has them.
#[test]
fn the_answers_say_what_bolt_11_says() {
    let hash = "0001020304050607080900010203040506070809000102030405060708090102";
    for (name, front, wanted) in [
        ("donation", "amount: ", "none asked"),
        ("donation", "field d, description: ", "\"Please consider supporting this project\""),
        ("coffee", "prefix: ", "lnbc, mainnet"),
        ("coffee", "amount: ", "250000000 msat, 250000 sat"),
        ("coffee", "time: ", "1496314658 seconds, 2017-06-01 10:57:38 UTC"),
        ("coffee", "expiry: ", "60 seconds, until 2017-06-01 10:58:38 UTC"),
        ("coffee", "field d, description: ", "\"1 cup coffee\""),
        ("list", "amount: ", "2000000000 msat, 2000000 sat"),
        ("testnet", "prefix: ", "lntb, testnet"),
        ("list", "field h, description hash: ", "3925b6f67e2c340036ed12093dd44e0368df1b6ea26c53dbe4811f58fd5db8c1"),
        (
            "route",
            "  hop 1: ",
            "key 029e03a901b85534ff1e92c43c74431f7ce72046060fcf7a95c37e148f78c77255, channel 66051x263430x1800 (72623859790382856), fee 20 msat, \
             delta 3 blocks",
        ),
        ("p2wpkh", "field f, fallback: version 0, witness program, ", "751e76e8199196d454941c45d1b3a323f1433bd6"),
    ] {
        let done = answered(&call_named(name));
        assert_eq!(line_with(&done, front), wanted, "{name}");
        assert_eq!(line_with(&done, "field p, payment hash: "), format!("{hash}, this one counts"), "{name}");
    }
}

/// The rules that the examples of a till break, as document 02 has them.
#[test]
fn the_answers_say_what_the_rules_say() {
    for (name, rules) in [
        ("clean", &[][..]),
        ("passed_over", &[]),
        ("till_coffee", &[]),
        ("two_hashes", &[1]),
        ("no_description", &[2]),
        ("two_descriptions", &[2]),
        ("two_expiries", &[3]),
        ("padding", &[4]),
        ("spare_group", &[4]),
        ("zero_group", &[5]),
        ("long_amount", &[6]),
        ("all_rules", &[1, 2, 3, 4, 5, 6]),
    ] {
        let done = answered(&call_named(name));
        let broken: Vec<u8> = done.out.lines().filter_map(broken_rule).collect();
        assert_eq!(broken, rules, "{name}");
        assert_eq!(
            (done.status, done.out == "invoice 1 clean\n"),
            (i32::from(!rules.is_empty()), rules.is_empty()),
            "{name}"
        );
    }
}

/// The rule that a line says the first invoice breaks.
fn broken_rule(line: &str) -> Option<u8> {
    let (number, _) = line.strip_prefix("invoice 1 breaks ")?.split_once(": ")?;
    Some(number.parse().expect("a rule is a number"))
}

/// The examples of a help text: the lines below `Examples:`, and the status that each has to end with.
fn examples(help: &str) -> Vec<(String, i32)> {
    let (_, lines) = help.split_once("\nExamples:\n").expect("the help has examples");
    let lines = lines.lines().filter(|line| line.starts_with("    tockplover "));
    let status = |line: &str| {
        line.split_once("# exit status ")
            .map_or(0, |(_, status)| status.parse().expect("a status is a number"))
    };
    lines.map(|line| (line.trim().to_string(), status(line))).collect()
}

/// A folder with a command `tockplover` that hands its words to the program.
fn command_folder() -> Folder {
    let folder = Folder::new("command");
    let command = folder.file("tockplover", format!("#!/bin/sh\nexec '{ITEMS}' \"$@\"\n").as_bytes());
    fs::set_permissions(command, fs::Permissions::from_mode(0o755)).expect("rights can be given");
    folder
}

#[test]
fn the_examples_of_the_help_run() {
    let folder = command_folder();
    let path = format!("{}:{}", folder.0.display(), std::env::var("PATH").unwrap_or_default());
    for name in ["invoice", "till", "stream", "message", "tables"] {
        let help = fs::read_to_string(root().join(format!("docs/help/{name}.txt"))).expect("the help can be read");
        let examples = examples(&help);
        assert!(examples.len() >= 2, "{name} has {} examples", examples.len());
        for (line, status) in examples {
            let mut shell = Command::new("sh");
            let done: Done = shell
                .args(["-c", &line])
                .current_dir(root())
                .env("PATH", &path)
                .output()
                .expect("sh runs")
                .into();
            assert_eq!((done.status, done.err.as_str()), (status, ""), "{line}");
            assert_ne!(done.out, "", "{line}");
        }
    }
}

#[test]
fn the_list_is_made_anew_as_it_is_stored() {
    let folder = Folder::new("made");
    let made = folder.0.join("examples/items");
    fs::create_dir_all(&made).expect("a folder can be made");
    let copy = |from: &Path, into: &Path| {
        for entry in fs::read_dir(from).expect("the folder can be read") {
            let entry = entry.expect("the folder can be read");
            if entry.path().is_file() {
                fs::copy(entry.path(), into.join(entry.file_name())).expect("a file can be copied");
            }
        }
    };
    copy(&root().join("examples"), &folder.0.join("examples"));
    copy(&root().join("examples/items"), &made);
    let done: Done = Command::new(made.join("make")).arg(ITEMS).output().expect("make runs").into();
    assert_eq!((done.status, done.out.as_str(), done.err.as_str()), (0, "", ""));
    for call in calls() {
        for file in [format!("{}.out", call.name), format!("{}.err", call.name)] {
            assert_eq!(fs::read_to_string(made.join(&file)).unwrap_or_default(), stored(&file), "{file}");
        }
    }
}
