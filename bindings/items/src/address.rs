//! An address descriptor, in words and as an object.
use tockplover::address::{self, Address};

use crate::json::Json;

/// The address in an accepted value of form 6.
fn read(value: &[u8]) -> Address<'_> {
    address::read(value).expect("an accepted value of form 6 is an address descriptor")
}

/// The address in words.
pub fn words(value: &[u8]) -> String {
    read(value).to_string()
}

/// The address's object.
pub fn json(value: &[u8]) -> Json {
    let address = read(value);
    Json::Object(vec![
        ("type", Json::Number(address.kind.into())),
        ("rest", Json::hex(address.rest)),
        ("words", Json::Text(address.to_string())),
    ])
}
