//! Invoices as people paste them: with a line end behind them, or with `lightning:` in front.
use crate::output::say;

/// What wallets and links put in front of an invoice, in any case.
const SCHEME: &[u8] = b"lightning:";

/// A text without the line end behind it.
pub fn without_line_end(text: &[u8]) -> &[u8] {
    match text.strip_suffix(b"\n") {
        Some(line) => line.strip_suffix(b"\r").unwrap_or(line),
        None => text,
    }
}

/// Passes over `lightning:` in front of texts, and says so once.
#[derive(Default)]
pub struct Scheme {
    is_said: bool,
}

impl Scheme {
    /// A text without `lightning:` in front.
    pub fn passed_over<'t>(&mut self, text: &'t [u8]) -> &'t [u8] {
        match text.split_at_checked(SCHEME.len()) {
            Some((front, rest)) if front.eq_ignore_ascii_case(SCHEME) => {
                if !self.is_said {
                    say("lightning: in front is passed over; places count from behind it");
                    self.is_said = true;
                }
                rest
            }
            _ => text,
        }
    }
}

#[cfg(test)]
mod tests {
    use super::*;

    #[test]
    fn one_line_end_goes() {
        for (text, wanted) in [
            (&b"a\n"[..], &b"a"[..]),
            (b"a\r\n", b"a"),
            (b"a\n\n", b"a\n"),
            (b"a\r", b"a\r"),
            (b"\r\n", b""),
            (b"", b""),
        ] {
            assert_eq!(without_line_end(text), wanted);
        }
    }
}
