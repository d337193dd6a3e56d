//! `tockplover till`: which rules of the till profile invoices break.
use std::ffi::OsString;
use std::os::unix::ffi::OsStrExt;

use tockplover::till::{self, Broken, Rule};

use crate::answer::{shown, Answer, Item};
use crate::call::{Call, Takes};
use crate::fault::Fault;
use crate::input;
use crate::json::Json;
use crate::pasted::{without_line_end, Scheme};
use crate::refused::Refused;

/// An invoice that was judged.
struct Judged {
    /// Its number among those of the call, from 1.
    number: usize,
    /// The rules that it breaks, or the refusal where it is no invoice.
    answer: Result<Broken, Refused>,
}

/// Judges an invoice.
fn judged(number: usize, text: &[u8]) -> Judged {
    Judged {
        number,
        answer: till::profile(text).map_err(|refusal| Refused::of_text(refusal, text)),
    }
}

/// A broken rule's object.
fn rule_json(rule: Rule) -> Json {
    Json::Object(vec![
        ("number", Json::Number(rule.number().into())),
        ("meaning", Json::Text(rule.meaning().to_string())),
        ("advice", Json::Text(rule.advice().to_string())),
    ])
}

impl Judged {
    /// Whether it is an invoice and breaks no rule.
    fn is_clean(&self) -> bool {
        self.answer.as_ref().is_ok_and(Broken::is_clean)
    }
}

impl Item for Judged {
    fn lines(&self) -> String {
        let number = self.number;
        match &self.answer {
            Ok(broken) if broken.is_clean() => format!("invoice {number} clean\n"),
            Ok(broken) => {
                let line = |rule: Rule| format!("invoice {number} breaks {}: {}\n", rule.number(), rule.meaning());
                broken.rules().map(line).collect()
            }
            Err(refused) => format!("invoice {number} {}\n", refused.line()),
        }
    }

    fn json(&self) -> Json {
        let mut pairs = vec![("number", Json::count(self.number))];
        match &self.answer {
            Ok(broken) => {
                pairs.push(("clean", Json::Bool(broken.is_clean())));
                pairs.push(("rules", Json::List(broken.rules().map(rule_json).collect())));
            }
            Err(refused) => pairs.push(refused.pair()),
        }
        Json::Object(pairs)
    }
}

/// The texts on standard input: its lines that are not blank.
fn input_texts() -> Result<Vec<Vec<u8>>, Fault> {
    let input = input::standard("invoices, one to a line,")?;
    let lines = input.split_inclusive(|&byte| byte == b'\n').map(without_line_end);
    let texts: Vec<Vec<u8>> = lines.filter(|line| !line.trim_ascii().is_empty()).map(<[u8]>::to_vec).collect();
    if texts.is_empty() {
        return Err(Fault::no_output("standard input has no invoice".to_string()));
    }
    Ok(texts)
}

/// The texts that a call gives.
fn call_texts(call: &Call) -> Result<Vec<Vec<u8>>, Fault> {
    if call.is_all_on_input("till", "INVOICE")? {
        return input_texts();
    }
    Ok(call.words.iter().map(|word| word.as_bytes().to_vec()).collect())
}

/// Runs the command.
pub fn run(words: impl Iterator<Item = OsString>) -> Result<Answer, Fault> {
    let call = Call::read("till", &[Takes::Json], words)?;
    let texts = call_texts(&call)?;
    let mut scheme = Scheme::default();
    let judge = |(at, text): (usize, &Vec<u8>)| judged(at + 1, scheme.passed_over(text));
    let invoices: Vec<Judged> = texts.iter().enumerate().map(judge).collect();
    Ok(Answer {
        text: invoices.iter().map(|invoice| shown(invoice, call.json)).collect(),
        status: u8::from(!invoices.iter().all(Judged::is_clean)),
    })
}
