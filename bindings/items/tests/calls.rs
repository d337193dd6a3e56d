//! Calls that have no answer or an odd one: inputs that cannot be read, outputs that cannot be written, and wrong words.
mod common;

use std::ffi::OsString;
use std::fs::{self, File, OpenOptions, Permissions};
use std::io::{ErrorKind, Write};
use std::os::unix::ffi::OsStringExt;
use std::os::unix::fs::{MetadataExt, PermissionsExt};
use std::os::unix::process::CommandExt;
use std::process::{Command, Stdio};
use std::thread;
use std::time::Duration;

use common::{assert_fault, command, run, run_on, stored, Done, Folder, COFFEE, ITEMS};

/// A table whose type 1 is an integer.
const TABLE: &[u8] = b"row 0 1 2 8\n";

/// The answer about the stream `0101 2a` with that table.
const ANSWER: &str = "stream in namespace 0: 1 record, 1 known\ntype 1 length 1: known, an integer of at most 8 bytes, 2a = 42\n";

/// What is said where standard input has a byte-order mark in front.
const MARK_SAID: &str = "tockplover: a byte-order mark in front is passed over\n";

/// What is said where a text has `lightning:` in front.
const SCHEME_SAID: &str = "tockplover: lightning: in front is passed over; places count from behind it\n";

/// A user without rights.
const NOBODY: u32 = 65_534;

/// Asserts that an item is refused with this number, and that the answer has this line.
#[track_caller]
fn assert_refused(done: &Done, number: u8, line: &str) {
    assert_eq!((done.status, done.err.as_str()), (1, ""));
    assert!(done.out.starts_with(&format!("refused {number}: ")), "{}", done.out);
    assert!(done.out.lines().any(|found| found == line), "{}", done.out);
}

// ---- wrong words

#[test]
fn wrong_calls() {
    for (words, wanted) in [
        (&["invoice", "--jsn"][..], "invoice has no option '--jsn' (tockplover invoice --help says how to call it)"),
        (&["invoice", "--json=1"], "invoice --json takes no value (tockplover invoice --help says how to call it)"),
        (&["invoice", "-x\n"], r"invoice has no option '-x\n' (tockplover invoice --help says how to call it)"),
        (&["invoice", "--table", "x"], "invoice has no option '--table' (tockplover invoice --help says how to call it)"),
        (&["invoice", "a", "b"], "invoice takes one TEXT (tockplover invoice --help says how to call it)"),
        (&["invoice", "-", "b"], "invoice takes one TEXT (tockplover invoice --help says how to call it)"),
        (&["till", "--jsn"], "till has no option '--jsn' (tockplover till --help says how to call it)"),
        (&["till", "--json=1", COFFEE], "till --json takes no value (tockplover till --help says how to call it)"),
        (&["till", "--table", "x"], "till has no option '--table' (tockplover till --help says how to call it)"),
        (&["till", COFFEE, "-"], "till takes - for standard input alone, with no INVOICE beside it (tockplover till --help says how to call it)"),
        (&["till", "-", "-"], "till takes - for standard input alone, with no INVOICE beside it (tockplover till --help says how to call it)"),
        (&["stream", "-1"], "stream has no option '-1' (tockplover stream --help says how to call it)"),
        (&["stream", "00", "-"], "stream takes - for standard input alone, with no HEX beside it (tockplover stream --help says how to call it)"),
        (&["stream", "--table"], "stream --table needs a FILE (tockplover stream --help says how to call it)"),
        (&["stream", "00", "--namespace"], "stream --namespace needs a number (tockplover stream --help says how to call it)"),
        (&["stream", "--table=a", "--table=b"], "stream takes one --table (tockplover stream --help says how to call it)"),
        (
            &["stream", "--namespace", "x", "00"],
            "stream --namespace takes a number: 'x' is not a number (tockplover stream --help says how to call it)",
        ),
        (
            &["stream", "--namespace=", "00"],
            "stream --namespace takes a number: '' is not a number (tockplover stream --help says how to call it)",
        ),
        (
            &["stream", "--namespace", "18446744073709551616", "00"],
            "stream --namespace takes a number: '18446744073709551616' is over 18446744073709551615 (tockplover stream --help says how to call it)",
        ),
        (&["message", "--namespace", "1"], "message has no option '--namespace' (tockplover message --help says how to call it)"),
        (&["tables"], "tables takes two files, OLD and NEW (tockplover tables --help says how to call it)"),
        (&["tables", "a"], "tables takes two files, OLD and NEW (tockplover tables --help says how to call it)"),
        (&["tables", "a", "b", "c"], "tables takes two files, OLD and NEW (tockplover tables --help says how to call it)"),
        (&["tables", "--json", "a", "b"], "tables has no option '--json' (tockplover tables --help says how to call it)"),
        (&["mend"], "there is no command 'mend' (tockplover help lists them)"),
        (&[], "there is no command '' (tockplover help lists them)"),
    ] {
        assert_fault(&run(words), 4, wanted);
    }
}

#[test]
fn options_stand_anywhere_and_end_at_two_dashes() {
    assert_eq!(
        run(&["invoice", COFFEE, "--json"]).out,
        run(&["invoice", "--json", "--", COFFEE]).out
    );
    let refused = run(&["invoice", "--", "--json"]);
    assert_eq!((refused.status, refused.out.ends_with("\n--json\n")), (1, true));
    assert_eq!(
        run(&["till", COFFEE, "--json", "x"]).out,
        run(&["till", "--json", "--", COFFEE, "x"]).out
    );
    assert_eq!(run(&["till", "--", COFFEE, "--json"]).out.lines().count(), 2);
    assert_fault(
        &run(&["stream", "--", "--json"]),
        3,
        "HEX word 1, character 1: '-' is not a hexadecimal digit",
    );
    assert_eq!(
        run(&["stream", "0100", "--namespace", "0x3f"]).out,
        run(&["stream", "--namespace=63", "0100"]).out
    );
}

// ---- digits

#[test]
fn digits_that_spell_no_bytes() {
    for (words, wanted) in [
        (
            &["stream", "010"][..],
            "HEX word 1, character 3: a digit alone in a word of 3; a byte has two",
        ),
        (
            &["stream", "01", "00 1"],
            "HEX word 2, character 4: a digit alone in a word of 1; a byte has two",
        ),
        (&["stream", "01 0g"], "HEX word 1, character 5: 'g' is not a hexadecimal digit"),
        (
            &["stream", "0x0100"],
            "HEX word 1, character 1: 0x is no part of the bytes; give the digits alone",
        ),
        (
            &["message", "00", "0X12"],
            "HEX word 2, character 1: 0x is no part of the bytes; give the digits alone",
        ),
        (
            &["message", "é"],
            "HEX word 1, character 1: the byte 0xc3 is not a hexadecimal digit",
        ),
    ] {
        assert_fault(&run(words), 3, wanted);
    }
    let done = run_on(&["stream"], b"01\n00 0x03\n");
    assert_fault(
        &done,
        3,
        "standard input, line 2, character 4: 0x is no part of the bytes; give the digits alone",
    );
    assert_fault(
        &run_on(&["message", "-"], b"0012\n000"),
        3,
        "standard input, line 2, character 3: a digit alone in a word of 3; a byte has two",
    );
}

#[test]
fn digits_in_words_and_on_standard_input_are_the_same() {
    let wanted = run(&["message", "001200080000"]);
    assert_eq!((wanted.status, wanted.err.as_str()), (0, ""));
    assert_eq!(run(&["message", "0012", "0008 00", "", "00"]).out, wanted.out);
    for input in ["001200080000", "00 12\r\n00 08\t0000\r\n\n", "\n001200080000\n"] {
        assert_eq!(run_on(&["message"], input.as_bytes()).out, wanted.out);
        assert_eq!(run_on(&["message", "-"], input.to_uppercase().as_bytes()).out, wanted.out);
    }
    let marked = run_on(&["message"], b"\xef\xbb\xbf001200080000");
    assert_eq!((marked.out, marked.err.as_str()), (wanted.out, MARK_SAID));
}

// ---- an invoice as people paste it

#[test]
fn an_invoice_with_its_line_end_or_its_scheme() {
    let wanted = run(&["invoice", COFFEE]);
    assert_eq!((wanted.status, wanted.err.as_str()), (0, ""));
    let input = |text: String| run_on(&["invoice"], text.as_bytes());
    for done in [
        input(COFFEE.to_string()),
        input(format!("{COFFEE}\n")),
        input(format!("{COFFEE}\r\n")),
        input(COFFEE.to_uppercase()),
    ] {
        assert_eq!((done.status, &done.out, done.err.as_str()), (0, &wanted.out, ""));
    }
    let schemes = [
        format!("lightning:{COFFEE}"),
        format!("LIGHTNING:{}", COFFEE.to_uppercase()),
        format!("Lightning:{COFFEE}"),
    ];
    for text in schemes {
        let done = run(&["invoice", &text]);
        assert_eq!((done.status, &done.out, done.err.as_str()), (0, &wanted.out, SCHEME_SAID));
    }
    let done = input(format!("\u{feff}lightning:{COFFEE}\n"));
    assert_eq!(
        (done.status, done.out, done.err),
        (0, wanted.out, format!("{MARK_SAID}{SCHEME_SAID}"))
    );
}

#[test]
fn no_more_than_one_line_end_is_taken_off() {
    let done = run_on(&["invoice"], format!("{COFFEE}\n\n").as_bytes());
    let place = format!("at character {}: a line end", COFFEE.len());
    assert_refused(&done, 31, &place);
    assert_refused(&run(&["invoice", &format!("{COFFEE}\n")]), 31, &place);
}

#[test]
fn texts_that_are_no_invoice() {
    let bytes = |bytes: &[u8]| OsString::from_vec(bytes.to_vec());
    for (text, number, caret) in [
        (bytes(b""), 33, None),
        (bytes(b"lnbc"), 33, None),
        (bytes(b"lightning"), 33, None),
        (bytes(&[b'q'; 4_097]), 30, None),
        (bytes(b"\xef\xbb\xbflnbc1"), 31, Some("???lnbc1\n^\n")),
        (bytes(b"lnbc\x1b[2J1"), 31, Some("lnbc?[2J1\n    ^\n")),
        (bytes(b"lnbc \xff"), 31, Some("lnbc ?\n    ^\n")),
    ] {
        let done = run(&[OsString::from("invoice"), text]);
        assert_eq!((done.status, done.err.as_str()), (1, ""));
        assert!(done.out.starts_with(&format!("refused {number}: ")), "{}", done.out);
        assert_eq!(done.out.contains('^'), caret.is_some(), "{}", done.out);
        assert!(done.out.ends_with(caret.unwrap_or("\n")), "{}", done.out);
        assert!(!done.out.contains('\x1b'), "{}", done.out);
    }
}

// ---- invoices of a till

/// An invoice that breaks rules 1 to 6, and the answer about the cup of coffee and this one.
fn broken_and_answer() -> (String, String) {
    let rules = tockplover::till::Rule::ALL;
    let breaks = rules.map(|rule| format!("invoice 2 breaks {}: {}\n", rule.number(), rule.meaning()));
    (stored("all_rules.invoice"), format!("invoice 1 clean\n{}", breaks.concat()))
}

#[test]
fn invoices_in_words_and_on_standard_input_are_the_same() {
    let (broken, wanted) = broken_and_answer();
    let (coffee, broken) = (COFFEE, broken.trim_end());
    for done in [
        run(&["till", coffee, broken]),
        run(&["till", &coffee.to_uppercase(), &broken.to_uppercase()]),
        run_on(&["till"], format!("{coffee}\n{broken}\n").as_bytes()),
        run_on(&["till", "-"], format!("{coffee}\n{broken}").as_bytes()),
        run_on(&["till", "--"], format!("\r\n\n{coffee}\r\n \t\r\n{broken}\r\n\n").as_bytes()),
    ] {
        assert_eq!((done.status, done.out.as_str(), done.err.as_str()), (1, wanted.as_str(), ""));
    }
    for done in [run(&["till", coffee]), run_on(&["till"], coffee.as_bytes())] {
        assert_eq!((done.status, done.out.as_str(), done.err.as_str()), (0, "invoice 1 clean\n", ""));
    }
}

#[test]
fn what_stands_in_front_of_invoices_is_said_once() {
    let (broken, wanted) = broken_and_answer();
    let texts = [
        format!("lightning:{COFFEE}"),
        format!("LIGHTNING:{}", broken.trim_end().to_uppercase()),
    ];
    let done = run(&["till", &texts[0], &texts[1]]);
    assert_eq!(
        (done.status, done.out.as_str(), done.err.as_str()),
        (1, wanted.as_str(), SCHEME_SAID)
    );
    let done = run_on(&["till"], format!("\u{feff}{}\n{}\n", texts[0], texts[1]).as_bytes());
    assert_eq!((done.status, done.out, done.err), (1, wanted, format!("{MARK_SAID}{SCHEME_SAID}")));
}

#[test]
fn a_refused_invoice_among_others() {
    let tail = |text: &str| format!("{}{text}", &COFFEE[..COFFEE.len() - 1]);
    for (text, refusal) in [
        (tail("q"), "refused 35 at 0: the checksum does not hold"),
        (
            tail("b"),
            &*format!(
                "refused 34 at {}: a character is outside the alphabet, or a group or a field's type is above 31",
                COFFEE.len() - 1
            ),
        ),
        (format!(" {COFFEE}"), "refused 31 at 0: a byte of the text is outside 33 to 126"),
        (
            "lnbc".to_string(),
            "refused 33 at 0: the text has no separator, nothing before it, or under 117 characters after it",
        ),
    ] {
        let wanted = format!("invoice 1 clean\ninvoice 2 {refusal}\ninvoice 3 clean\n");
        for done in [
            run(&["till", COFFEE, &text, COFFEE]),
            run_on(&["till"], format!("{COFFEE}\n{text}\n{COFFEE}\n").as_bytes()),
        ] {
            assert_eq!((done.status, done.out.as_str(), done.err.as_str()), (1, wanted.as_str(), ""));
        }
    }
    // a word may be empty; a line may not
    let done = run(&["till", ""]);
    assert_eq!(
        (done.status, done.out.starts_with("invoice 1 refused 33 at 0: ")),
        (1, true),
        "{}",
        done.out
    );
}

#[test]
fn a_standard_input_without_an_invoice() {
    let wanted = "standard input has no invoice";
    for input in ["", "\n", "\r\n", " \t\r\n\n"] {
        assert_fault(&run_on(&["till"], input.as_bytes()), 3, wanted);
        assert_fault(&run_on(&["till", "--json", "-"], input.as_bytes()), 3, wanted);
    }
    let done = run_on(&["till"], b"\xef\xbb\xbf\n");
    assert_eq!(
        (done.status, done.out.as_str(), done.err),
        (3, "", format!("{MARK_SAID}tockplover: {wanted}\n"))
    );
}

#[test]
fn as_many_invoices_as_are_read() {
    let line = format!("{COFFEE}\n");
    let count = (1 << 20) / line.len();
    let done = run_on(&["till"], line.repeat(count).as_bytes());
    let wanted: String = (1..=count).map(|number| format!("invoice {number} clean\n")).collect();
    assert_eq!((done.status, done.out == wanted, done.err.as_str()), (0, true, ""));
    let long = "standard input has over 1048576 bytes; it is not read further";
    assert_fault(&run_on(&["till"], line.repeat(count + 1).as_bytes()), 3, long);
}

// ---- what is cut short

#[test]
fn what_is_cut_short_lacks_bytes() {
    for (digits, number, line) in [
        ("fd", 1, "at byte 0: the type lacks 2 bytes"),
        ("0100 fd01", 1, "at byte 2: the type lacks 1 byte"),
        ("01", 4, "at byte 0, type 1: the length lacks 1 byte"),
        ("01 ff00", 4, "at byte 0, type 1: the length lacks 7 bytes"),
        ("0105", 6, "at byte 0, type 1: the value lacks 5 bytes"),
        ("0105 01020304", 6, "at byte 0, type 1: the value lacks 1 byte"),
        (
            "09ffffffffffffffffff",
            6,
            "at byte 0, type 9: the value lacks 18446744073709551615 bytes",
        ),
    ] {
        assert_refused(&run(&["stream", digits]), number, line);
    }
    let nested = ["stream", "--table", "examples/day.txt", "--namespace", "5", "06 02 08 05 08 00"];
    assert_refused(&run(&nested), 6, "at byte 2, type 8: the value lacks 5 bytes");
    assert_refused(
        &run(&["message", "0013 0000 03 09"]),
        6,
        "at byte 4, type 3: the value lacks 9 bytes",
    );
    // A payload that is cut short, and a record that is whole but wrong, lack nothing.
    assert_refused(&run(&["message", "0013 00"]), 20, "message type 19");
    assert_refused(&run(&["stream", "fd0001 00"]), 2, "at byte 0");
}

// ---- inputs that cannot be read

#[test]
fn an_input_without_an_end() {
    for name in ["invoice", "till", "stream", "message"] {
        let done: Done = command(&[name])
            .stdin(File::open("/dev/zero").expect("/dev/zero opens"))
            .output()
            .expect("the program runs")
            .into();
        assert_fault(&done, 3, "standard input has over 1048576 bytes; it is not read further");
    }
    let long = "'/dev/zero' has over 1048576 bytes; it is not read further";
    assert_fault(&run(&["stream", "--table", "/dev/zero", "00"]), 3, long);
    assert_fault(&run(&["tables", "examples/day.txt", "/dev/zero"]), 3, long);
}

#[test]
fn the_longest_input_is_read() {
    let blanks = |count: usize| [b" ".repeat(count), b"0100".to_vec()].concat();
    let done = run_on(&["stream"], &blanks((1 << 20) - 4));
    assert_eq!(
        (done.status, done.out.as_str()),
        (0, "stream in namespace 0: 1 record, 0 known\ntype 1 length 0: passed over, empty\n")
    );
    assert_fault(
        &run_on(&["stream"], &blanks((1 << 20) - 3)),
        3,
        "standard input has over 1048576 bytes; it is not read further",
    );
    let bytes = "00 ".repeat(24) + "...";
    assert_refused(&run_on(&["stream"], "00".repeat(65_536).as_bytes()), 14, &bytes);
    assert_refused(&run_on(&["message"], "00".repeat(65_536).as_bytes()), 21, &bytes);
}

#[test]
fn files_that_cannot_be_read() {
    let folder = Folder::new("faults");
    let read = |name: &str| run(&["stream", "--table", name, "00"]);
    assert_fault(&read("no such file"), 3, "there is no file 'no such file'");
    assert_fault(&read("a\n\x1b[2J\u{202e}b"), 3, r"there is no file 'a\n\u{1b}[2J\u{202e}b'");
    assert_fault(&read(""), 3, "there is no file ''");
    assert_fault(&read("examples"), 3, "'examples' is a folder");
    assert_fault(&read("README.md/x"), 3, "'README.md/x' cannot be read: Not a directory");
    assert_fault(&read("/proc/self/mem"), 3, "'/proc/self/mem' cannot be read: Input/output error");
    assert_fault(&run(&["tables", "examples/day.txt", "none"]), 3, "there is no file 'none'");
    assert_fault(&run(&["tables", "none", "examples/day.txt"]), 3, "there is no file 'none'");
    for name in ["invoice", "till"] {
        let done: Done = command(&[name])
            .stdin(File::open(&folder.0).expect("a folder opens"))
            .output()
            .expect("the program runs")
            .into();
        assert_fault(&done, 3, "standard input cannot be read: Is a directory");
    }
}

/// A file that its user may not read; root may read all, so that root's run is somebody else's.
#[test]
fn a_file_without_rights() {
    let folder = Folder::new("rights");
    let table = folder.file("locked", TABLE);
    fs::set_permissions(&table, Permissions::from_mode(0o000)).expect("rights can be taken");
    let program = folder.0.join("items");
    fs::copy(ITEMS, &program).expect("the program can be copied");
    let mut run = Command::new(program);
    run.args(["stream", "--table", "locked", "0101", "2a"]).current_dir(&folder.0);
    if fs::metadata(&table).expect("the file is there").uid() == 0 {
        fs::set_permissions(&folder.0, Permissions::from_mode(0o755)).expect("rights can be given");
        run.uid(NOBODY).gid(NOBODY);
    }
    // while another test starts a program, that one may hold the copy open for writing for a moment
    let done = loop {
        match run.output() {
            Err(e) if e.kind() == ErrorKind::ExecutableFileBusy => thread::sleep(Duration::from_millis(10)),
            ended => break ended.expect("the program runs"),
        }
    };
    assert_fault(&done.into(), 3, "'locked' cannot be read: Permission denied");
}

#[test]
fn names_of_every_kind() {
    let folder = Folder::new("names");
    let run_there = |words: &[&str]| -> Done { command(words).current_dir(&folder.0).output().expect("the program runs").into() };
    for name in ["a table", "two\nlines", "-dash", "--json", "--", "'quoted'", "é", "="] {
        folder.file(name, TABLE);
        for words in [
            &["stream", "--table", name, "01012a"][..],
            &["stream", "01012a", &format!("--table={name}")],
        ] {
            let done = run_there(words);
            assert_eq!((done.status, done.out.as_str(), done.err.as_str()), (0, ANSWER, ""));
        }
        let done = run_there(&["tables", "--", name, name]);
        assert_eq!(
            (done.status, done.err.as_str(), done.out.lines().count()),
            (0, "", 3),
            "{}",
            done.out
        );
    }
    let done = run_there(&["tables", "two\nlines", "a table"]);
    assert!(
        done.out.starts_with("older: 'two\\nlines', 1 row\nnewer: 'a table', 1 row\n"),
        "{}",
        done.out
    );
}

// ---- tables

#[test]
fn texts_that_are_no_table() {
    let folder = Folder::new("texts");
    for (text, wanted) in [
        (
            &b"# ok\n\nrow 0 1 2\n"[..],
            ", line 3: a row has four numbers, namespace, type, form and parameter; here are 3",
        ),
        (
            b"row 0 1 2 8 9",
            ", line 1: a row has four numbers, namespace, type, form and parameter; here are 5",
        ),
        (b"row 0 -1 2 8", ", line 1: '-1' is not a number"),
        (
            b"row 0 1 2 0x10000000000000000",
            ", line 1: '0x10000000000000000' is over 18446744073709551615",
        ),
        (
            b"rows 0 1 2 8",
            ", line 1: there is no item 'rows' (there are row, stream, message, invoice, invoice-hex)",
        ),
        (
            b"\x7fELF",
            r", line 1: there is no item '\u{7f}ELF' (there are row, stream, message, invoice, invoice-hex)",
        ),
    ] {
        let table = folder.file("table", text);
        let done = run(&["stream", "--table", table.to_str().expect("a name"), "00"]);
        assert_fault(&done, 3, &format!("'{}'{wanted}", table.display()));
    }
}

#[test]
fn texts_and_books_that_are_tables() {
    let folder = Folder::new("tables");
    let book = [
        &[0, 1][..],
        &[0; 8],
        &[0, 0, 0, 0, 0, 0, 0, 1],
        &[0, 0, 0, 0, 0, 0, 0, 2],
        &[0, 0, 0, 0, 0, 0, 0, 8],
        &[0; 6],
    ]
    .concat();
    for text in [
        TABLE,
        b"row 0 1 2 8",
        b"\xef\xbb\xbfrow 0x0 0X1 2 8 # \xff\r\nstream 0 zz\r\nmessage\r\ninvoice lnbc\r\n",
        &book,
    ] {
        let table = folder.file("table", text);
        let done = run(&["stream", "--table", table.to_str().expect("a name"), "01012a"]);
        assert_eq!((done.status, done.out.as_str(), done.err.as_str()), (0, ANSWER, ""));
    }
    let empty = folder.file("empty", b"");
    let done = run(&["stream", "--table", empty.to_str().expect("a name"), "0100"]);
    assert_eq!(done.out, run(&["stream", "0100"]).out);
}

#[test]
fn books_that_are_refused() {
    let folder = Folder::new("books");
    let rows = |count: u16| [&count.to_be_bytes()[..], &vec![0; 32 * usize::from(count) + 6]].concat();
    for (book, number) in [
        (vec![0], 70),
        (vec![1, 0], 70),
        (rows(2)[..71].to_vec(), 70),
        (rows(600)[..900].to_vec(), 70),
        (vec![0; 9], 71),
        (vec![0; 65_536], 72),
    ] {
        let table = folder.file("book", &book);
        let name = table.to_str().expect("a name");
        let done = run(&["stream", "--table", name, "00"]);
        assert_refused(&done, number, &format!("the book '{name}'"));
        assert_eq!(run(&["tables", "examples/day.txt", name]).out, done.out);
    }
    for count in [257, 600] {
        let table = folder.file("book", &rows(count));
        let name = table.to_str().expect("a name");
        assert_refused(
            &run(&["stream", "--table", name, "00"]),
            60,
            &format!("row 257 of '{name}': 0 0 0 0"),
        );
    }
}

// ---- outputs that cannot be written

#[test]
fn a_full_output() {
    let full = || OpenOptions::new().write(true).open("/dev/full").expect("/dev/full opens");
    let calls = [
        &["invoice", COFFEE][..],
        &["invoice", "--json", COFFEE],
        &["invoice", "no invoice"],
        &["till", COFFEE],
        &["till", "--json", "no invoice"],
        &["stream", "0100"],
        &["message", "0015"],
        &["tables", "examples/old_table.txt", "examples/new_table.txt"],
    ];
    for words in calls {
        let done: Done = command(words).stdout(full()).output().expect("the program runs").into();
        assert_fault(&done, 3, "standard output cannot be written: No space left on device");
    }
    // the status stays where standard error cannot be written either
    let done: Done = command(&["invoice", COFFEE])
        .stdout(full())
        .stderr(full())
        .output()
        .expect("the program runs")
        .into();
    assert_eq!((done.status, done.err.as_str()), (3, ""));
    let done: Done = command(&["invoice", "--no"])
        .stderr(full())
        .output()
        .expect("the program runs")
        .into();
    assert_eq!(done.status, 4);
}

#[test]
fn a_reader_that_went_away() {
    for name in ["invoice", "till"] {
        let mut child = command(&[name])
            .stdin(Stdio::piped())
            .stdout(Stdio::piped())
            .stderr(Stdio::piped())
            .spawn()
            .expect("the program runs");
        drop(child.stdout.take());
        let mut input = child.stdin.take().expect("standard input is a pipe");
        input.write_all(COFFEE.as_bytes()).expect("the program reads");
        drop(input);
        assert_fault(
            &child.wait_with_output().expect("the program ends").into(),
            3,
            "standard output cannot be written: Broken pipe",
        );
    }
}

#[test]
fn an_output_that_is_open_for_reading_only() {
    let read_only = File::open("/dev/null").expect("/dev/null opens");
    let done: Done = command(&["invoice", COFFEE])
        .stdout(read_only)
        .output()
        .expect("the program runs")
        .into();
    assert_fault(&done, 3, "standard output cannot be written: Bad file descriptor");
}

/// Rust's runtime opens /dev/null in the place of a closed output before the program begins, so that it ends as with that output; only its
/// caller can tell. What is said on standard error is no panic.
#[test]
fn a_closed_output() {
    let closed = |redirection: &str, words: &[&str]| -> Done {
        let line = format!("exec \"$0\" \"$@\" {redirection}");
        Command::new("sh")
            .args(["-c", &line, ITEMS])
            .args(words)
            .output()
            .expect("sh runs")
            .into()
    };
    for (words, status) in [
        (&["invoice", COFFEE][..], 0),
        (&["invoice", "lnbc1"], 1),
        (&["invoice", "--no"], 4),
        (&["till", COFFEE], 0),
        (&["till", COFFEE, "lnbc1"], 1),
    ] {
        let done = closed(">&-", words);
        assert_eq!((done.status, done.out.as_str(), done.err.contains("panic")), (status, "", false));
        let done = closed(">&- 2>&- <&-", words);
        assert_eq!((done.status, done.out.as_str(), done.err.as_str()), (status, "", ""));
    }
}
