//! A refusal explained: the rule in the documents' words, who causes it, and what to do.

use station::Refusal;

use crate::advice;
use crate::arguments::Arguments;
use crate::failure::Done;
use crate::surroundings::{say, Surroundings};

pub fn explain(given: &Arguments, around: &mut Surroundings) -> Done {
    let number = given.operand_in(0, 1..=Refusal::ALL.len() as u64)?;
    // By their numbers, from 1 on.
    let refusal = Refusal::ALL[number as usize - 1];
    let (whose, todo) = (advice::whose(refusal), advice::of(refusal));
    say(
        around,
        format!("{refusal}\nIt is caused by {whose}.\n{todo}\n"),
    )
}
