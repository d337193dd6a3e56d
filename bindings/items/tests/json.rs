//! Reads the JSON that the program writes with a small reader of its own, strictly, and compares it with the text and the documents.
mod common;

use std::fs;

use common::{root, run, run_on, stored, Done, COFFEE};
use tockplover::till::Rule;

/// A JSON value.
#[derive(Debug, Clone, PartialEq)]
enum Value {
    Null,
    Bool(bool),
    Number(u64),
    Text(String),
    List(Vec<Value>),
    Object(Vec<(String, Value)>),
}

/// Reads JSON from its front, without blanks between its parts, as the program writes it.
struct Reader<'j> {
    rest: &'j str,
}

impl Reader<'_> {
    fn take(&mut self, word: &str) -> bool {
        let found = self.rest.strip_prefix(word);
        self.rest = found.unwrap_or(self.rest);
        found.is_some()
    }

    fn next(&mut self) -> char {
        let c = self.rest.chars().next().expect("the value goes on");
        self.rest = &self.rest[c.len_utf8()..];
        c
    }

    fn value(&mut self) -> Value {
        match self.rest.as_bytes()[0] {
            b'"' => Value::Text(self.text()),
            b'[' => Value::List(self.parts('[', ']', Reader::value)),
            b'{' => Value::Object(self.parts('{', '}', Reader::pair)),
            b'n' if self.take("null") => Value::Null,
            b't' if self.take("true") => Value::Bool(true),
            b'f' if self.take("false") => Value::Bool(false),
            _ => Value::Number(self.number()),
        }
    }

    /// A whole number without a sign or a leading zero.
    fn number(&mut self) -> u64 {
        let end = self.rest.find(|c: char| !c.is_ascii_digit()).unwrap_or(self.rest.len());
        let (digits, rest) = self.rest.split_at(end);
        assert!(digits == "0" || !digits.starts_with('0'), "a number begins with zero: {digits}");
        self.rest = rest;
        digits.parse().expect("a number")
    }

    fn text(&mut self) -> String {
        assert!(self.take("\""), "a string begins with a quote: {}", self.rest);
        let mut units = Vec::new();
        loop {
            match self.next() {
                '"' => return String::from_utf16(&units).expect("the escapes are whole characters"),
                '\\' => units.push(self.escape()),
                c => {
                    assert!(!c.is_control(), "a control character stands in a string");
                    units.extend(c.encode_utf16(&mut [0; 2]).iter());
                }
            }
        }
    }

    fn escape(&mut self) -> u16 {
        match self.next() {
            'n' => 10,
            'r' => 13,
            't' => 9,
            'u' => {
                let digits: String = (0..4).map(|_| self.next()).collect();
                u16::from_str_radix(&digits, 16).expect("four digits")
            }
            c @ ('"' | '\\') => c as u16,
            c => panic!("no such escape: {c}"),
        }
    }

    fn parts<T>(&mut self, open: char, close: char, part: fn(&mut Self) -> T) -> Vec<T> {
        assert_eq!(self.next(), open);
        let mut parts = Vec::new();
        if self.take(&close.to_string()) {
            return parts;
        }
        loop {
            parts.push(part(self));
            match self.next() {
                ',' => {}
                c => {
                    assert_eq!(c, close);
                    return parts;
                }
            }
        }
    }

    fn pair(&mut self) -> (String, Value) {
        let key = self.text();
        assert!(self.take(":"), "a key has a value");
        (key, self.value())
    }
}

/// The one value of a text with a line end.
fn parsed(text: &str) -> Value {
    let line = text.strip_suffix('\n').expect("a line end");
    let mut reader = Reader { rest: line };
    let value = reader.value();
    assert_eq!(reader.rest, "", "nothing stands behind the value");
    value
}

impl Value {
    /// The value at a path of keys and of places in lists.
    fn at(&self, path: &str) -> &Value {
        path.split('.').fold(self, |value, key| match value {
            Value::List(parts) => &parts[key.parse::<usize>().expect("a place")],
            Value::Object(pairs) => {
                &pairs
                    .iter()
                    .find(|(name, _)| name == key)
                    .unwrap_or_else(|| panic!("no key {key} in {value:?}"))
                    .1
            }
            _ => panic!("{key} of {value:?}"),
        })
    }

    fn word(&self) -> &str {
        match self {
            Value::Text(word) => word,
            _ => panic!("{self:?} is no string"),
        }
    }

    fn keys(&self) -> Vec<&str> {
        match self {
            Value::Object(pairs) => pairs.iter().map(|(key, _)| key.as_str()).collect(),
            _ => panic!("{self:?} is no object"),
        }
    }

    /// Asks every object inside for keys that stand once, and every number for an exact one in any reader.
    fn assert_plain(&self) {
        match self {
            Value::Object(pairs) => {
                let mut keys = self.keys();
                keys.sort_unstable();
                keys.dedup();
                assert_eq!(keys.len(), pairs.len(), "a key stands twice");
                pairs.iter().for_each(|(_, value)| value.assert_plain());
            }
            Value::List(parts) => parts.iter().for_each(Value::assert_plain),
            Value::Number(number) => assert!(*number <= 1 << 53, "{number} is over 2^53"),
            Value::Null | Value::Bool(_) | Value::Text(_) => {}
        }
    }
}

fn text(word: &str) -> Value {
    Value::Text(word.to_string())
}

fn value(done: &Done) -> Value {
    assert_eq!(done.err, "");
    parsed(&done.out)
}

#[test]
fn every_stored_object_is_json() {
    let mut count = 0;
    for entry in fs::read_dir(root().join("examples/items")).expect("the folder can be read") {
        let path = entry.expect("the folder can be read").path();
        if path.to_string_lossy().ends_with("_json.out") {
            let text = fs::read_to_string(&path).expect("the text can be read");
            for line in text.split_inclusive('\n') {
                parsed(line).assert_plain();
                count += 1;
            }
        }
    }
    assert!(count >= 15, "{count} objects");
}

#[test]
fn an_invoice() {
    let invoice = value(&run(&["invoice", "--json", COFFEE]));
    let keys = "prefix network amount msat sat time date expiry expiry_is_default expires expires_date min_final_cltv_expiry \
                min_final_cltv_expiry_is_default payment_hash fields signature recovery_id";
    assert_eq!(invoice.keys(), keys.split_whitespace().collect::<Vec<_>>());
    for (path, wanted) in [
        ("amount", text("2500u")),
        ("msat", text("250000000")),
        ("sat", text("250000")),
        ("time", Value::Number(1_496_314_658)),
        ("date", text("2017-06-01T10:57:38Z")),
        ("expiry", text("60")),
        ("expiry_is_default", Value::Bool(false)),
        ("expires", text("1496314718")),
        ("min_final_cltv_expiry", text("9")),
        ("min_final_cltv_expiry_is_default", Value::Bool(true)),
        ("fields.0.letter", text("p")),
        ("fields.1.text", text("1 cup coffee")),
        ("fields.2.seconds", text("60")),
        ("recovery_id", Value::Number(1)),
    ] {
        assert_eq!(invoice.at(path), &wanted, "{path}");
    }
    assert_eq!(invoice.at("fields.0.hex"), invoice.at("payment_hash"));
}

#[test]
fn strange_fields() {
    let invoice = value(&run_on(&["invoice", "--json"], stored("fields.invoice").as_bytes()));
    assert_eq!(invoice.at("sat"), &Value::Null);
    assert_eq!(
        invoice.at("fields.1.text"),
        &text("Café \"Plover\"\nrow 2\t\u{1b}[31m\u{202e} \\ ☕")
    );
    assert_eq!(invoice.at("fields.17.text"), &Value::Null);
    assert_eq!(invoice.at("fields.17.hex"), &text("fffe20636f66666565"));
    assert_eq!(invoice.at("fields.15.letters"), &text("qpzr"));
    assert_eq!(invoice.at("fields.2.hex"), invoice.at("payment_hash"));
    assert_eq!(letters_with(&invoice, "passed_over"), "pnhxffr2q");
    assert_eq!(letters_with(&invoice, "counts"), "pxc");
    assert_eq!(
        [8, 10].map(|at| invoice.at(&format!("fields.{at}.counts"))),
        [&Value::Bool(true); 2]
    );
}

/// The letters of an invoice's fields that have a key with the value true.
fn letters_with(invoice: &Value, key: &str) -> String {
    let Value::List(fields) = invoice.at("fields") else {
        panic!("the fields are a list")
    };
    let has = |field: &&Value| field.keys().contains(&key) && field.at(key) == &Value::Bool(true);
    fields.iter().filter(has).map(|field| field.at("letter").word()).collect()
}

#[test]
fn the_longest_numbers_are_digits() {
    let invoice = value(&run_on(&["invoice", "--json"], stored("far.invoice").as_bytes()));
    let long = text(&((1_u64 << 60) - 1).to_string());
    assert_eq!([invoice.at("expiry"), invoice.at("min_final_cltv_expiry")], [&long, &long]);
    assert_eq!(invoice.at("expires"), &text(&((1_u64 << 60) + (1 << 35) - 2).to_string()));
    assert_eq!(invoice.at("expires_date"), &Value::Null);
    assert_eq!(invoice.at("msat"), &text("2100000000000000000"));
    let stream = value(&run(&["stream", "--json", "ffffffffffffffffff 00"]));
    assert_eq!(stream.at("records.0.type"), &text("18446744073709551615"));
    let stream = value(&run(&[
        "stream",
        "--json",
        "--table",
        "examples/streams.txt",
        "--namespace",
        "1",
        "0108ffffffffffffffff",
    ]));
    assert_eq!(stream.at("records.0.integer"), &text("18446744073709551615"));
}

#[test]
fn invoices_of_a_till() {
    let all_rules = stored("all_rules.invoice");
    let texts = [COFFEE, all_rules.trim_end(), &COFFEE[1..]];
    let done = run(&[&["till", "--json"][..], &texts].concat());
    assert_eq!((done.status, done.err.as_str()), (1, ""));
    let answers: Vec<Value> = done.out.split_inclusive('\n').map(parsed).collect();
    let numbers: Vec<&Value> = answers.iter().map(|answer| answer.at("number")).collect();
    assert_eq!(numbers, [&Value::Number(1), &Value::Number(2), &Value::Number(3)]);
    let [clean, broken, refused] = &answers[..] else {
        panic!("{} answers", answers.len())
    };
    assert_eq!(clean.keys(), ["number", "clean", "rules"]);
    assert_eq!(
        (clean.at("clean"), clean.at("rules")),
        (&Value::Bool(true), &Value::List(Vec::new()))
    );
    assert_eq!(broken.keys(), clean.keys());
    assert_eq!(broken.at("clean"), &Value::Bool(false));
    for (at, rule) in Rule::ALL.into_iter().enumerate() {
        let listed = broken.at(&format!("rules.{at}"));
        assert_eq!(listed.keys(), ["number", "meaning", "advice"]);
        assert_eq!(listed.at("number"), &Value::Number(rule.number().into()));
        assert_eq!(
            (listed.at("meaning"), listed.at("advice")),
            (&text(rule.meaning()), &text(rule.advice()))
        );
    }
    assert_eq!(refused.keys(), ["number", "refused"]);
    let alone = value(&run(&["invoice", "--json", texts[2]]));
    assert_eq!(refused.at("refused"), alone.at("refused"));
}

#[test]
fn a_stream() {
    let stream = value(&run(&[
        "stream",
        "--json",
        "--table",
        "examples/day.txt",
        "--namespace",
        "5",
        "0101070308000000100000002006030101080902aabb",
    ]));
    assert_eq!(stream.keys(), ["namespace", "count", "known_count", "records"]);
    for (path, wanted) in [
        ("namespace", Value::Number(5)),
        ("count", Value::Number(4)),
        ("known_count", Value::Number(3)),
        ("records.0.integer", text("7")),
        ("records.1.items.1", text("00000020")),
        ("records.2.form", Value::Number(5)),
        ("records.2.parameter", Value::Number(5)),
        ("records.2.records.0.integer", text("8")),
        ("records.3.known", Value::Bool(false)),
        ("records.3.value", text("aabb")),
        ("records.3.length", Value::Number(2)),
    ] {
        assert_eq!(stream.at(path), &wanted, "{path}");
    }
    assert_eq!(stream.at("records.3").keys(), ["type", "length", "known", "value"]);
}

#[test]
fn messages() {
    let init = value(&run(&["message", "--json", "0010 0001 01 0002 0280 03 01 ff"]));
    let keys = "type name passed_over globalfeatures features joined_features address extension";
    assert_eq!(init.keys(), keys.split_whitespace().collect::<Vec<_>>());
    assert_eq!(init.at("joined_features"), &text("0281"));
    assert_eq!(init.at("extension.records.0.name"), &text("remote_addr"));
    let ping = value(&run(&["message", "--json", "0012fffb000100"]));
    assert_eq!(
        (ping.at("wanted"), ping.at("pong_due")),
        (&Value::Number(65_531), &Value::Bool(true))
    );
    assert_eq!(ping.at("filler"), &Value::Number(1));
    let ping = value(&run(&["message", "--json", "0012fffc0000"]));
    assert_eq!(
        (ping.at("wanted"), ping.at("pong_due")),
        (&Value::Number(65_532), &Value::Bool(false))
    );
    let odd = value(&run(&["message", "--json", "8001"]));
    assert_eq!(
        (odd.at("type"), odd.at("passed_over")),
        (&Value::Number(32_769), &Value::Bool(true))
    );
    assert_eq!(odd.keys(), ["type", "name", "passed_over"]);
}

#[test]
fn addresses() {
    for (digits, kind, rest, words) in [
        ("03 07 017f0000012607", 1, "7f0000012607", "IPv4 127.0.0.1:9735"),
        ("03 05 05 01 1b 0050", 5, "011b0050", r"DNS name \x1b:80"),
        ("03 04 09010203", 9, "010203", "type 9, 3 bytes: 010203"),
        ("03 01 ff", 255, "", "type 255, no bytes"),
    ] {
        let init = value(&run(&["message", "--json", "0010 0000 0000", digits]));
        for path in ["address", "extension.records.0.address"] {
            let address = init.at(path);
            assert_eq!(address.keys(), ["type", "rest", "words"]);
            assert_eq!(
                [address.at("type"), address.at("rest"), address.at("words")],
                [&Value::Number(kind), &text(rest), &text(words)]
            );
        }
        assert_eq!(init.at("extension.records.0.form"), &Value::Number(6));
    }
    let none = value(&run(&["message", "--json", "0010 0000 0000 c9 00"]));
    assert_eq!(none.at("address"), &Value::Null);
    let pong = value(&run(&["message", "--json", "0013 0000 03 07 017f0000012607"]));
    assert!(!pong.keys().contains(&"address"));
    assert_eq!(pong.at("extension.records.0.known"), &Value::Bool(false));
    let refused = run(&["message", "--json", "0010 0000 0000 03 02 0500"]);
    assert_eq!((refused.status, value(&refused).at("refused.number")), (1, &Value::Number(8)));
}

/// The numbers of document 01's own refused lines.
#[test]
fn refusals() {
    let table = ["stream", "--json", "--table", "examples/streams.txt", "--namespace", "1"];
    for (digits, number, place, kind, missing) in [
        ("010100", 9, 0, "1", "0"),
        ("1200", 7, 0, "18", "0"),
        ("0ffd26", 4, 0, "15", "1"),
        ("fd0101", 4, 0, "257", "1"),
        ("1f000f012a", 3, 2, "15", "0"),
        ("0000", 7, 0, "0", "0"),
        // document 02 (v)
        ("fe00", 1, 0, "0", "3"),
        ("0105", 6, 0, "1", "5"),
        ("0fffffffffffffffffff", 6, 0, "15", "18446744073709551615"),
    ] {
        let done = run(&[&table[..], &[digits]].concat());
        let refused = value(&done);
        assert_eq!(done.status, 1);
        assert_eq!(refused.keys(), ["refused"]);
        assert_eq!(
            refused.at("refused").keys(),
            ["number", "place", "type", "missing", "meaning", "advice"]
        );
        assert_eq!(refused.at("refused.number"), &Value::Number(number));
        assert_eq!(refused.at("refused.place"), &Value::Number(place));
        assert_eq!(refused.at("refused.type"), &text(kind));
        assert_eq!(refused.at("refused.missing"), &text(missing));
    }
    let refused = value(&run(&["stream", "--json", "--table", "examples/table_order.txt", "0100"]));
    assert_eq!(
        (refused.at("refused.row"), refused.at("refused.line")),
        (&Value::Number(2), &Value::Number(4))
    );
    let refused = value(&run(&["stream", "--json", "--table", "examples/table_order.book", "0100"]));
    assert_eq!(
        (refused.at("refused.row"), refused.at("refused.line")),
        (&Value::Number(2), &Value::Null)
    );
}

/// The words of a refusal are the crate's, in the text and in the JSON.
#[test]
fn the_words_of_a_refusal() {
    let refusal = tockplover::stream::count(&[], 0, &[0x12, 0]).expect_err("an unknown even type");
    let refused = value(&run(&["stream", "--json", "1200"]));
    assert_eq!(refused.at("refused.meaning"), &text(refusal.meaning()));
    assert_eq!(refused.at("refused.advice"), &text(refusal.advice()));
    let advice = match refusal.advice() {
        "" => String::new(),
        advice => format!("what to do: {advice}\n"),
    };
    let wanted = format!("refused 7: {}\nat byte 0, type 18\n{advice}12 00\n^\n", refusal.meaning());
    assert_eq!(run(&["stream", "1200"]).out, wanted);
}
