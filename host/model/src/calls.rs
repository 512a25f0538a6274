//! The thirteen calls on lent bytes.
//!
//! A call is a refusal or an [`Effect`]. [`effect`] alters nothing; [`perform`]
//! carries it out.

use crate::anchor::{has_pointer_tag, pointer_sector, Anchor, MOST_START};
use crate::answer::{refuse, Answer, Refusal};
use crate::disc::{Disc, Sector, BEFORE_TABLE};
use crate::effect::Effect;
use crate::ledger::{Volume, IDLE, LEDGER, READ_ONLY};
use crate::roles::Role;
use crate::run::MOST_VIEWED;
use crate::save::Save;
use crate::table::{LIMIT, NONE, SECTOR};
use crate::time::{Moment, Stamp, NO_STAMP, STAMP, TIME};

/// "the short disc's reserve grows from 8 to 16" (document 02): room for links and a
/// commit of the largest table.
const SHORT_RESERVE: u32 = 16;

/// "On discs of 1,000 sectors or more a write must leave 264" (document 02): room for
/// links and a closing.
const LONG_RESERVE: u32 = 264;
const LONG_DISC: u32 = 1000;

/// A call with its v or k, and with the other numbers that it is given.
#[derive(Clone, Copy, Debug, PartialEq, Eq)]
pub enum Call {
    Begin,
    Mount,
    Write(u32),
    /// "Blocks may be recorded without a number" (document 02).
    WriteUnnumbered,
    Release(u32),
    ClosePacket,
    Commit,
    /// "A second form of commit" (document 02).
    CommitAt,
    Read(u32),
    LookBack(u32),
    /// "A new call tells, for k saves back, the modification time" (document 02).
    TimeOf(u32),
    /// "Closing a session" (document 02).
    CloseSession(Anchor),
    /// "From a 64-bit offset it fills the lent buffer" (document 02): the viewer of
    /// runs.
    View {
        v: u32,
        offset: u64,
    },
}

impl Call {
    /// "Each call that alters disc or ledger is lent these bytes too" (document 02):
    /// the roles.
    pub fn is_lent_roles(self) -> bool {
        !self.only_tells() && !matches!(self, Call::Read(_))
    }

    /// "begin, mount or look back; a scan then gives the start" (document 02).
    pub fn scans(self) -> bool {
        matches!(self, Call::Begin | Call::Mount | Call::LookBack(_))
    }

    /// How long the buffer is that some calls are lent beside these: "write
    /// and read are lent a block too"; and by document 02 "a 12-byte ECMA-167
    /// timestamp", an answer that "is 8 lent bytes", and for a view "at most 65,536
    /// bytes".
    pub fn lent_length(self) -> Option<usize> {
        match self {
            Call::Write(_) | Call::WriteUnnumbered | Call::Read(_) => Some(SECTOR),
            Call::CommitAt => Some(STAMP),
            Call::TimeOf(_) => Some(TIME),
            Call::View { .. } => Some(MOST_VIEWED),
            _ => None,
        }
    }

    /// Whether such a buffer may have so many bytes: a view's may have fewer.
    fn may_be_lent(self, length: usize) -> bool {
        match (self, self.lent_length()) {
            (_, None) => true,
            (Call::View { .. }, Some(most)) => length <= most,
            (_, Some(right)) => length == right,
        }
    }

    /// The forms of commit; and "In the cut rule a closing counts as a commit"
    /// (document 02). Of each the table sector is the last that it records.
    pub fn is_commit(self) -> bool {
        matches!(self, Call::Commit | Call::CommitAt | Call::CloseSession(_))
    }

    /// "In the cut rule this and any later call that only tells counts as a
    /// refused one" (document 02).
    pub fn only_tells(self) -> bool {
        matches!(self, Call::TimeOf(_) | Call::View { .. })
    }
}

/// "Every call is lent image, kinds and ledger", ten of them the roles, and some one
/// more buffer: a block, a timestamp, an answer, or one for a part of a run. The
/// others do not look at these.
#[derive(Clone, Copy)]
pub struct Lent<'a> {
    pub image: &'a [u8],
    pub kinds: &'a [u8],
    pub roles: &'a [u8],
    pub ledger: &'a [u8],
    pub buffer: &'a [u8],
}

/// The first block that a write, commit or closing takes: behind its links.
fn next_data_block(volume: &Volume) -> u32 {
    volume.recorded + volume.links()
}

/// What the call would do, or the refusal that applies "first in the order of
/// tests".
pub fn effect(lent: &Lent, call: Call) -> Result<Effect, Refusal> {
    let disc = sound_disc(lent, call)?;
    match call {
        Call::Begin => begin_effect(&disc),
        Call::Mount => mount_effect(&disc),
        Call::LookBack(k) => look_back_effect(&disc, k),
        Call::Read(v) => read_effect(&disc, fitting_volume(lent, &disc)?, v),
        Call::Write(v) => write_effect(lent, &disc, writable_volume(lent, &disc)?, Some(v)),
        Call::WriteUnnumbered => write_effect(lent, &disc, writable_volume(lent, &disc)?, None),
        Call::Release(v) => release_effect(lent, writable_volume(lent, &disc)?, v),
        Call::ClosePacket => close_packet_effect(writable_volume(lent, &disc)?),
        Call::Commit => commit_effect(&disc, writable_volume(lent, &disc)?, &NO_STAMP),
        Call::CommitAt => commit_at_effect(lent, &disc, writable_volume(lent, &disc)?),
        Call::TimeOf(k) => time_effect(&disc, k),
        Call::CloseSession(anchor) => {
            close_session_effect(&disc, writable_volume(lent, &disc)?, &anchor)
        }
        Call::View { v, offset } => {
            view_effect(lent, &disc, &fitting_volume(lent, &disc)?, v, offset)
        }
    }
}

/// Refusals 1, 2 and 3, which every call has; where it is lent roles, "a lent role
/// buffer of another length than the kinds gives 2" (document 02).
fn sound_disc<'a>(lent: &Lent<'a>, call: Call) -> Result<Disc<'a>, Refusal> {
    let disc = Disc::lent(lent.image, lent.kinds)?;
    let right_lengths = call.may_be_lent(lent.buffer.len())
        && (!call.is_lent_roles() || lent.roles.len() == lent.kinds.len())
        && lent.ledger.len() == LEDGER;
    refuse(!right_lengths, Refusal::LentLength)?;
    refuse(!disc.is_sound(), Refusal::DiscUnsound)?;
    Ok(disc)
}

/// Refusal 4: "Begin, mount and look back do not read the ledger"; and when a
/// time is asked for "The ledger is not read" (document 02).
fn fitting_volume(lent: &Lent, disc: &Disc) -> Result<Volume, Refusal> {
    let volume = Volume::load(lent.ledger).ok_or(Refusal::LentLength)?;
    refuse(!volume.fits(disc), Refusal::LedgerUnfit)?;
    Ok(volume)
}

/// Refusal 5: "write, release, close packet or commit with mode 2"; and refusal
/// 17, "write, release, commit, close packet or closing on a closed disc, tested
/// directly after 5" (document 02).
fn writable_volume(lent: &Lent, disc: &Disc) -> Result<Volume, Refusal> {
    let volume = fitting_volume(lent, disc)?;
    refuse(volume.mode == READ_ONLY, Refusal::ReadOnly)?;
    refuse(disc.is_closed(), Refusal::SessionClosed)?;
    Ok(volume)
}

/// "Allowed on a disc with recorded sectors if none is a table sector."
fn begin_effect(disc: &Disc) -> Result<Effect, Refusal> {
    refuse(disc.newest_vat().is_some(), Refusal::VatExists)?;
    Ok(Effect::opened(0, disc, Volume::begun(disc)))
}

/// "Clean means that it is the last recorded sector"; "for mount 1 if clean
/// and 0 if dirty".
fn mount_effect(disc: &Disc) -> Result<Effect, Refusal> {
    let found = disc.newest_vat().ok_or(Refusal::NoVat)?;
    let clean = found.block + 1 == disc.recorded();
    let volume = Volume::showing(disc, &found, IDLE);
    Ok(Effect::opened(u32::from(clean), disc, volume))
}

/// "The ledger gets its map, recorded as it is now, that table as last, mode 2."
fn look_back_effect(disc: &Disc, k: u32) -> Result<Effect, Refusal> {
    let found = disc.walk_back(k)?;
    let volume = Volume::showing(disc, &found, READ_ONLY);
    Ok(Effect::opened(found.block, disc, volume))
}

/// "records one data sector with the lent block and sets entry v to it". Document
/// 02: "a number at or above the limit gives 13, even above size"; "13 comes
/// directly before 12"; and "Unnumbered writes are writes in all but the entry".
fn write_effect(
    lent: &Lent,
    disc: &Disc,
    mut volume: Volume,
    v: Option<u32>,
) -> Result<Effect, Refusal> {
    let data: [u8; SECTOR] = lent.buffer.try_into().map_err(|_| Refusal::LentLength)?;
    let needed = volume.links() + 1 + reserve(disc);
    let block = next_data_block(&volume);
    refuse(v.is_some_and(|v| v as usize >= LIMIT), Refusal::AboveLimit)?;
    refuse(v.is_some_and(|v| v > volume.size), Refusal::AboveSize)?;
    refuse(disc.blank() < needed, Refusal::NoRoom)?;
    refuse(would_pass(disc, &data, block), Refusal::WouldBeVat)?;
    let role = v.map_or(Role::Unnumbered, |_| Role::InUse);
    let before = v.and_then(|v| volume.block_of(v));
    if let Some(v) = v {
        volume.set(v, block);
    }
    let recorded = Effect::recorded(volume, vec![(Sector::data(data), role)]);
    Ok(recorded.letting_go(lent.roles, before))
}

/// What "a write must leave" (document 02).
fn reserve(disc: &Disc) -> u32 {
    if disc.sectors() >= LONG_DISC {
        LONG_RESERVE
    } else {
        SHORT_RESERVE
    }
}

/// Rule 15: "the lent block would be a table sector at the block it is about to
/// take", which "also covers every block with such a tag" as a closing's pointer
/// has (document 02).
fn would_pass(disc: &Disc, data: &[u8; SECTOR], block: u32) -> bool {
    disc.vat_if(data, block).is_some() || has_pointer_tag(data, block)
}

/// "sets the entry to unused. Size stays."
fn release_effect(lent: &Lent, mut volume: Volume, v: u32) -> Result<Effect, Refusal> {
    let before = volume.block_of(v).ok_or(Refusal::NotInUse)?;
    volume.map[v as usize] = NONE;
    Ok(Effect::unrecorded(0, volume).letting_go(lent.roles, Some(before)))
}

/// "mode 0 (also after an underrun). Nothing is recorded. Closing a closed
/// packet is done."
fn close_packet_effect(mut volume: Volume) -> Result<Effect, Refusal> {
    volume.mode = IDLE;
    Ok(Effect::unrecorded(0, volume))
}

/// "records the table sector, which becomes the last table", and before it what it
/// needs of sectors of the table's own.
fn commit_effect(disc: &Disc, volume: Volume, stamp: &Stamp) -> Result<Effect, Refusal> {
    save_effect(disc, volume, Vec::new(), stamp)
}

/// Data sectors, which only a closing has and which are "without a number"; then the
/// table's own sectors that are recorded, which at a closing "take the last of the
/// 255"; then the ICB. "Commit needs blank sectors for what it records", and "Closing
/// needs links + 257 blank sectors, else 14" (document 02).
fn save_effect(
    disc: &Disc,
    mut volume: Volume,
    mut before: Vec<Sector>,
    stamp: &Stamp,
) -> Result<Effect, Refusal> {
    let save = Save::of(disc, &volume);
    before.truncate(before.len().saturating_sub(save.own_recorded()));
    let first = next_data_block(&volume) + before.len() as u32;
    let tables = save.sectors(first, stamp);
    let end = first + tables.len() as u32;
    refuse(disc.blank() < end - volume.recorded, Refusal::NoRoom)?;
    volume.last_vat = end - 1;
    let unnumbered = before.into_iter().map(|data| (data, Role::Unnumbered));
    let tables = tables
        .into_iter()
        .map(|bytes| (Sector::data(bytes), Role::Table));
    Ok(Effect::recorded(volume, unnumbered.chain(tables).collect()))
}

/// "16, a timestamp given or found breaks these limits; it is tested after 5 on
/// a commit" (document 02).
fn commit_at_effect(lent: &Lent, disc: &Disc, volume: Volume) -> Result<Effect, Refusal> {
    let stamp: Stamp = lent.buffer.try_into().map_err(|_| Refusal::LentLength)?;
    refuse(Moment::told_by(&stamp).is_none(), Refusal::BadTimestamp)?;
    commit_effect(disc, volume, &stamp)
}

/// "Closing records, after links as usual, an Anchor Volume Descriptor Pointer,
/// 255 zero sectors and the table sector, all as data. [...] The second number and
/// ledger are as after a commit"; 18 is "tested directly after 17" (document 02). Own
/// sectors of the table take the place of the last zeros.
fn close_session_effect(disc: &Disc, volume: Volume, anchor: &Anchor) -> Result<Effect, Refusal> {
    refuse(anchor.partition_start > MOST_START, Refusal::PartitionStart)?;
    let pointer = pointer_sector(next_data_block(&volume), anchor);
    let mut data = vec![Sector::data([0; SECTOR]); BEFORE_TABLE as usize];
    data[0] = Sector::data(pointer);
    save_effect(disc, volume, data, &NO_STAMP)
}

/// "A new call tells, for k saves back, the modification time", and 16 is tested
/// "after 9 when asking" (document 02).
fn time_effect(disc: &Disc, k: u32) -> Result<Effect, Refusal> {
    let found = disc.walk_back(k)?;
    let moment = Moment::told_by(&found.vat.modified).ok_or(Refusal::BadTimestamp)?;
    Ok(Effect::told(0, moment.to_bytes().to_vec()))
}

/// "copies the 2048 bytes to the lent block; allowed with mode 2"
fn read_effect(disc: &Disc, volume: Volume, v: u32) -> Result<Effect, Refusal> {
    let (_, data) = numbered_block(disc, &volume, v)?;
    let mut effect = Effect::unrecorded(0, volume);
    effect.shown = Some(data.to_vec());
    Ok(effect)
}

/// Refusals 10 and 11, of a read and of a view: the block of number v, and its bytes.
fn numbered_block<'a>(
    disc: &Disc<'a>,
    volume: &Volume,
    v: u32,
) -> Result<(u32, &'a [u8; SECTOR]), Refusal> {
    let block = volume.block_of(v).ok_or(Refusal::NotInUse)?;
    let data = disc.data(block).ok_or(Refusal::Unreadable)?;
    Ok((block, data))
}

/// "From a 64-bit offset it fills the lent buffer [...] as far as the run goes; the
/// second number counts the bytes"; 19 is "tested after 11" and 20 "tested after 19"
/// (document 02).
fn view_effect(
    lent: &Lent,
    disc: &Disc,
    volume: &Volume,
    v: u32,
    offset: u64,
) -> Result<Effect, Refusal> {
    let (block, _) = numbered_block(disc, volume, v)?;
    let run = disc.run_at(block).ok_or(Refusal::NotARun)?;
    refuse(offset > run.length(), Refusal::BeyondTheRun)?;
    let shown = run.bytes_from(offset, lent.buffer.len());
    Ok(Effect::told(shown.len() as u32, shown))
}

/// Any of the thirteen, with the roles and the last buffer that some are lent. A
/// refusal "alters no lent byte".
pub fn perform(
    image: &mut [u8],
    kinds: &mut [u8],
    roles: &mut [u8],
    ledger: &mut [u8],
    buffer: &mut [u8],
    call: Call,
) -> Answer {
    let lent = Lent {
        image,
        kinds,
        roles,
        ledger,
        buffer,
    };
    match effect(&lent, call) {
        Err(refusal) => Answer::refused(refusal),
        Ok(effect) => {
            effect.carry_out(image, kinds, roles, ledger, buffer);
            Answer::done(effect.second)
        }
    }
}
