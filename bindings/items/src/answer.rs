//! What a command answers, in lines for people or as JSON.
use crate::fault::Fault;
use crate::json::Json;
use crate::refused::Refused;

/// Something that can be shown.
pub trait Item {
    /// In lines for people, each with its line end.
    fn lines(&self) -> String;

    /// As a JSON object.
    fn json(&self) -> Json;
}

/// What goes to standard output, and the exit status.
pub struct Answer {
    pub text: String,
    pub status: u8,
}

/// Why a question has no item for an answer.
pub enum Stop {
    /// The library refused.
    Refused(Refused),
    /// There is no answer at all.
    Fault(Fault),
}

impl From<Refused> for Stop {
    fn from(refused: Refused) -> Self {
        Stop::Refused(refused)
    }
}

impl From<Fault> for Stop {
    fn from(fault: Fault) -> Self {
        Stop::Fault(fault)
    }
}

/// An item in the form that was asked for.
pub fn shown(item: &impl Item, json: bool) -> String {
    if json {
        format!("{}\n", item.json())
    } else {
        item.lines()
    }
}

/// The answer to a question: the item with status 0, or the refusal with status 1.
pub fn answer(asked: Result<impl Item, Stop>, json: bool) -> Result<Answer, Fault> {
    match asked {
        Ok(item) => Ok(Answer {
            text: shown(&item, json),
            status: 0,
        }),
        Err(Stop::Refused(refused)) => Ok(Answer {
            text: shown(&refused, json),
            status: 1,
        }),
        Err(Stop::Fault(fault)) => Err(fault),
    }
}
