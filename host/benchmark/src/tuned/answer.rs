//! "Each call answers an outcome (0 done, else a refusal) and a second number."

/// The second number, or the first refusal, in the order of tests, that applies.
pub type Answer = Result<u32, Refusal>;

/// "Refusals, by who causes them": each with its number in the documents.
#[derive(Clone, Copy)]
pub enum Refusal {
    DiscSize = 1,
    LentLength = 2,
    DiscUnsound = 3,
    LedgerUnfit = 4,
    ReadOnly = 5,
    VatExists = 6,
    NoVat = 7,
    ChainBroken = 8,
    ChainEnded = 9,
    NotInUse = 10,
    Unreadable = 11,
    AboveSize = 12,
    AboveLimit = 13,
    NoRoom = 14,
    WouldBeVat = 15,
    BadTimestamp = 16,
    SessionClosed = 17,
    PartitionStart = 18,
    NotARun = 19,
    BeyondTheRun = 20,
}

/// "the pair is one 64-bit number: outcome × 4,294,967,296 + second number";
/// "A refusal's second number is 0".
#[inline(always)]
pub fn packed(answer: Answer) -> u64 {
    match answer {
        Ok(second) => u64::from(second),
        Err(refusal) => (refusal as u64) << 32,
    }
}

/// One test of a call's ordered list of refusals.
#[inline(always)]
pub fn refuse(condition: bool, refusal: Refusal) -> Result<(), Refusal> {
    if condition {
        Err(refusal)
    } else {
        Ok(())
    }
}
