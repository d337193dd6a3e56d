//! `tockplover invoice`: one BOLT 11 invoice, as people paste it.
use std::ffi::OsString;
use std::os::unix::ffi::OsStrExt;

use tockplover::invoice::{self, Field, Invoice, Prefix};
use tockplover::money::{to_sat, Msat};

use crate::answer::{answer, Answer, Item, Stop};
use crate::call::{Call, Takes};
use crate::date;
use crate::fault::Fault;
use crate::field::{self, FieldItem};
use crate::hex;
use crate::input;
use crate::json::Json;
use crate::pasted::{without_line_end, Scheme};
use crate::refused::Refused;
use crate::shown::count;

/// An invoice that was read.
struct InvoiceItem {
    prefix: Prefix,
    /// The amount's characters, in lower case.
    amount: String,
    msat: Option<Msat>,
    time: u64,
    expiry: u64,
    delta: u64,
    fields: Vec<FieldItem>,
    payment_hash: Vec<u8>,
    /// 64 bytes.
    signature: Vec<u8>,
    recovery_id: u8,
}

/// The signature and the recovery id, which is the last byte of its groups.
fn signature(read: &Invoice) -> (Vec<u8>, u8) {
    let groups = read.signature();
    let size = groups.len() as u64;
    let mut bytes = field::bytes(groups, Field::new(0, 0, size));
    let recovery_id = bytes.pop().unwrap_or(0);
    (bytes, recovery_id)
}

/// What is shown of an invoice.
fn item(read: &Invoice) -> InvoiceItem {
    let (signature, recovery_id) = signature(read);
    InvoiceItem {
        prefix: read.prefix,
        amount: String::from_utf8_lossy(read.amount).to_lowercase(),
        msat: read.msat,
        time: read.time,
        expiry: read.expiry,
        delta: read.delta,
        fields: field::of(read),
        payment_hash: field::bytes(read.groups(), read.payment_hash()),
        signature,
        recovery_id,
    }
}

impl InvoiceItem {
    /// Whether no field of this type counts, so that a default stands in.
    fn is_default(&self, kind: u64) -> bool {
        !self.fields.iter().any(|field| field.is_counted(kind))
    }

    /// The second when the invoice expires; the expiry has at most 60 bits and the time 35.
    fn expires(&self) -> u64 {
        self.time + self.expiry
    }

    /// The amount in both units; in satoshi only where it is whole.
    fn amount_words(&self) -> String {
        let Some(msat) = self.msat else {
            return "none asked".to_string();
        };
        let sat = to_sat(msat).map_or("no whole number of sat".to_string(), |sat| format!("{} sat", sat.0));
        format!("{} msat, {sat}", msat.0)
    }

    /// What stands behind a number where it is the default.
    fn default_words(&self, kind: u64) -> &'static str {
        if self.is_default(kind) {
            " (the default)"
        } else {
            ""
        }
    }
}

impl Item for InvoiceItem {
    fn lines(&self) -> String {
        let mut lines = format!("prefix: {}, {}\n", self.prefix.letters(), self.prefix.network());
        lines += &format!("amount: {}\n", self.amount_words());
        lines += &format!("time: {}, {}\n", count(self.time, "second"), date::words(&date::utc(self.time)));
        let (expires, default) = (date::words(&date::utc(self.expires())), self.default_words(field::EXPIRY));
        lines += &format!("expiry: {}{default}, until {expires}\n", count(self.expiry, "second"));
        let default = self.default_words(field::MIN_FINAL_CLTV);
        lines += &format!("min_final_cltv_expiry: {}{default}\n", count(self.delta, "block"));
        lines.extend(self.fields.iter().map(FieldItem::lines));
        lines += &format!("signature, not checked: {}\n", hex::digits(&self.signature));
        lines + &format!("recovery id: {:02x}\n", self.recovery_id)
    }

    fn json(&self) -> Json {
        let sat = self.msat.and_then(|msat| to_sat(msat).ok());
        let stamp = |seconds| Json::text(date::utc(seconds).map(|date| date.stamp()));
        Json::Object(vec![
            ("prefix", Json::Text(self.prefix.letters().to_string())),
            ("network", Json::Text(self.prefix.network().to_string())),
            ("amount", Json::text(self.msat.map(|_| self.amount.as_str()))),
            ("msat", self.msat.map_or(Json::Null, |msat| Json::digits(msat.0))),
            ("sat", sat.map_or(Json::Null, |sat| Json::digits(sat.0))),
            ("time", Json::Number(self.time)),
            ("date", stamp(self.time)),
            ("expiry", Json::digits(self.expiry)),
            ("expiry_is_default", Json::Bool(self.is_default(field::EXPIRY))),
            ("expires", Json::digits(self.expires())),
            ("expires_date", stamp(self.expires())),
            ("min_final_cltv_expiry", Json::digits(self.delta)),
            (
                "min_final_cltv_expiry_is_default",
                Json::Bool(self.is_default(field::MIN_FINAL_CLTV)),
            ),
            ("payment_hash", Json::hex(&self.payment_hash)),
            ("fields", Json::List(self.fields.iter().map(FieldItem::json).collect())),
            ("signature", Json::hex(&self.signature)),
            ("recovery_id", Json::Number(self.recovery_id.into())),
        ])
    }
}

/// The text that a call gives.
fn call_text(call: &Call) -> Result<Vec<u8>, Fault> {
    match &call.words[..] {
        _ if call.is_on_input() => Ok(without_line_end(&input::standard("the invoice")?).to_vec()),
        [text] => Ok(text.as_bytes().to_vec()),
        _ => Err(Fault::wrong_call("invoice", "invoice takes one TEXT".to_string())),
    }
}

/// Reads the invoice of a call.
fn ask(call: &Call) -> Result<InvoiceItem, Stop> {
    let given = call_text(call)?;
    let text = Scheme::default().passed_over(&given);
    let (mut groups, mut index) = (vec![0; text.len()], vec![0; text.len()]);
    let read = invoice::read(text, &mut groups, &mut index).map_err(|refusal| Refused::of_text(refusal, text))?;
    Ok(item(&read))
}

/// Runs the command.
pub fn run(words: impl Iterator<Item = OsString>) -> Result<Answer, Fault> {
    let call = Call::read("invoice", &[Takes::Json], words)?;
    answer(ask(&call), call.json)
}
