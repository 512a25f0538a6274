//! The save that a command looks at: the one that the ledger shows, with what is not
//! saved yet, or another, so many steps back. For the second no ledger is needed and none
//! is changed, so that nobody who looks is in the way of one who records.

use crate::arguments::Arguments;
use crate::failure::Failure;
use crate::reasons::{refused, Asked};
use crate::session::{Lent, Session};
use crate::surroundings::Surroundings;

pub fn open(given: &Arguments, around: &mut Surroundings) -> Result<Session, Failure> {
    match given.option_number("--back")? {
        None => Session::open(given.path(0), Lent::Kept, around),
        Some(k) => looking_back(given, k, around),
    }
}

fn looking_back(given: &Arguments, k: u32, around: &mut Surroundings) -> Result<Session, Failure> {
    let mut session = Session::open(given.path(0), Lent::Own, around)?;
    let (image, kinds, roles, ledger) = session.lent();
    match station::look_back(image, kinds, roles, ledger, k) {
        Ok(_) => Ok(session),
        Err(refusal) => Err(refused(refusal, &Asked::WholeDisc, &session)),
    }
}
