//! A simulated power cut: "A cut keeps the first j of them, [...] the call's next
//! sector, if there is one, stays blank or has kind 3 with arbitrary bytes. The
//! ledger is lost."

use station::SECTOR;

use crate::arguments::{parse, Arguments, Asked};
use crate::closing::{announce, Closing};
use crate::failure::{Done, Failure};
use crate::form::{counted, number};
use crate::help;
use crate::kinds::UNREADABLE;
use crate::session::{Lent, Session};
use crate::storing::Storing;
use crate::surroundings::{say, Surroundings};
use crate::syntax::{Syntax, CLOSE_SESSION, COMMIT, STORE, WRITE};
use crate::writing::{Saving, Writing};

/// An unreadable sector, and how many of its bytes were recorded.
const TORN: (u8, usize) = (UNREADABLE, SECTOR / 2);

/// The call that is cut; of a store, one of its calls.
enum Call {
    Write(Writing),
    Store(Storing),
    Commit(Saving),
    CloseSession(Closing),
}

impl Call {
    fn of(name: &str, given: &Arguments, around: &mut Surroundings) -> Result<Call, Failure> {
        Ok(match name {
            "write" => Call::Write(Writing::of(given, around)?),
            "store" => Call::Store(Storing::of(given, around)?),
            "commit" => Call::Commit(Saving::of(given)?),
            _ => Call::CloseSession(Closing::of(given)?),
        })
    }

    /// The last block recorded.
    fn record(&mut self, session: &mut Session, watched: bool) -> Result<u32, Failure> {
        match self {
            Call::Write(writing) => writing.record(session),
            Call::Store(storing) => {
                storing.admit(session)?;
                storing.record(session, watched)
            }
            Call::Commit(saving) => saving.record(session),
            Call::CloseSession(closing) => closing.record(session),
        }
    }
}

/// Makes the calls whole in memory, and keeps of it what the cut leaves.
pub fn cut(given: &Arguments, around: &mut Surroundings) -> Done {
    let kept = given.number(0)? as usize;
    let torn = given.has("--torn");
    let command = cut_command(given)?;
    let inner = match parse(command, given.rest())? {
        Asked::Help => return say(around, help::told(command.help)),
        Asked::Run(inner) => inner,
    };
    let mut call = Call::of(command.name, &inner, around)?;
    let mut session = Session::open(inner.path(0), Lent::Kept, around)?;
    call.record(&mut session, around.watched)?;
    let sectors = session.disc.newly_recorded().count();
    check(command, kept, torn, sectors)?;
    // A closing that is kept whole closes the disc.
    if kept == sectors && matches!(call, Call::CloseSession(_)) {
        announce(inner.path(0), around)?;
    }
    session.keep_cut(kept, torn.then_some(TORN))?;
    let next = if torn { ", the next one torn" } else { "" };
    let (kept, sectors) = (number(kept), counted(sectors, "sector"));
    let text = format!("cut after {kept} of {sectors}{next}, ledger lost\n");
    say(around, text)
}

fn cut_command(given: &Arguments) -> Result<&'static Syntax, Failure> {
    let name = given.text(1);
    let found = [&WRITE, &STORE, &COMMIT, &CLOSE_SESSION]
        .into_iter()
        .find(|command| command.name == name);
    let fault = || format!("only write, store, commit and close-session can be cut, not {name}");
    found.ok_or_else(|| given.wrong(fault()))
}

fn check(command: &Syntax, kept: usize, torn: bool, sectors: usize) -> Done {
    let (name, records) = (command.name, counted(sectors, "sector"));
    let fault = if kept > sectors {
        format!("J is at most {sectors}: this {name} records {records}")
    } else if torn && kept == sectors {
        format!("with --torn J is below {sectors}: this {name} records {records}")
    } else {
        return Ok(());
    };
    Err(Failure::Usage(fault, "cut"))
}
