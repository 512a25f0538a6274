//! Each refusal explained: who causes it, and what to do about it, whichever command met
//! it. What a refused command itself says has the values at hand.

use station::Refusal;

/// "Refusals, by who causes them": of 16, whose time it is, and of 19, whether there ever
/// was a run.
pub fn whose(refusal: Refusal) -> &'static str {
    match refusal {
        Refusal::DiscSize | Refusal::LentLength | Refusal::LedgerUnfit => "the host program",
        Refusal::ReadOnly
        | Refusal::ChainEnded
        | Refusal::NotInUse
        | Refusal::AboveSize
        | Refusal::AboveLimit
        | Refusal::PartitionStart
        | Refusal::BeyondTheRun => "the operator",
        Refusal::DiscUnsound
        | Refusal::VatExists
        | Refusal::NoVat
        | Refusal::ChainBroken
        | Refusal::Unreadable
        | Refusal::SessionClosed => "the disc",
        Refusal::NoRoom | Refusal::WouldBeVat => "the recording",
        Refusal::BadTimestamp | Refusal::NotARun => "the operator, or the disc",
    }
}

/// What to do.
pub fn of(refusal: Refusal) -> &'static str {
    match refusal {
        Refusal::DiscSize => "Give a disc file of 1 to 360,000 whole sectors.",
        Refusal::LentLength => {
            "Give a block of exactly 2048 bytes, or fill up a shorter one with --pad; store takes a run of any length."
        }
        Refusal::DiscUnsound => {
            "Take another copy of the disc file: no recorder leaves a disc like this one."
        }
        Refusal::LedgerUnfit => {
            "Mount the disc, or begin it if it has no save yet; but if a wrong file was put in the place of the disc, put the right one back first."
        }
        Refusal::ReadOnly => {
            "Mount the disc to record again, if it is not closed; to look at an earlier save without this, give read, view, contents, space or map the option --back."
        }
        Refusal::VatExists => "Mount the disc: it has a save already.",
        Refusal::NoVat => {
            "Commit what is written here and not saved yet; if there is nothing, begin the disc, with --anyway if something was recorded on it before the first save; leave another deck's disc as it is."
        }
        Refusal::ChainBroken => {
            "Look back fewer steps: the saves before the broken one cannot be reached."
        }
        Refusal::ChainEnded => "Look back fewer steps: list shows how many saves there are.",
        Refusal::NotInUse => {
            "Choose a number that is in use: contents tells them, and contents --back those of an earlier save."
        }
        Refusal::Unreadable => {
            "Look for an older block of the number with read --back, or drive the run again."
        }
        Refusal::AboveSize => "Write the size itself as the next new number, or one below it.",
        Refusal::AboveLimit => {
            "Write the size itself as the next new number, or one below it; where all are taken, take another disc."
        }
        Refusal::NoRoom => {
            "Commit what is not saved yet, or close the disc if there is room for that, and take another one; the last finished save stays."
        }
        Refusal::WouldBeVat => {
            "Change the block, or pack the run, for example with gzip: as it is, it would pass for a save or for a closing."
        }
        Refusal::BadTimestamp => {
            "On a commit, give a real date from 1970 to 2099, a time up to 23:59:59 and a zone up to 24:00, or save without a time; when asking, list --times shows which saves carry one."
        }
        Refusal::SessionClosed => "Take another disc: this one is closed, and can only be read.",
        Refusal::PartitionStart => {
            "Look at the number behind --start again: no partition starts above block 400,000."
        }
        Refusal::NotARun => {
            "Read the number as a block, with read; if it was stored as a run, one of its sectors is unreadable: look for an older one with view --back, or drive the run again."
        }
        Refusal::BeyondTheRun => "Give a lower --offset: the run ends before this one; contents tells how long it is.",
    }
}
