//! A new disc, and the calls of the core. Each answers only after its files are
//! kept and free for the next command.

use station::Refusal;

use crate::arguments::Arguments;
use crate::beginning;
use crate::closing::{self, Closing};
use crate::failure::Done;
use crate::form::counted;
use crate::ledger::Map;
use crate::making::make_disc;
use crate::reasons::{refused, Asked};
use crate::saves::newest;
use crate::session::{LedgerFile, Lent, Session};
use crate::storing::Storing;
use crate::surroundings::{say, say_done, waiting, Surroundings};
use crate::times::Time;
use crate::unsaved::Unsaved;
use crate::writing::{Saving, Writing};

/// Told where nothing is known of what is left out.
const REPLACED: &str = "The ledger beside it did not belong to this disc file, and is replaced.\n";

pub fn new(given: &Arguments, around: &mut Surroundings) -> Done {
    let sectors = given.sectors(1)?;
    let disc = given.path(0);
    make_disc(disc, 0, sectors, &mut waiting(disc, around), |_| Ok(()))?;
    let sectors = counted(sectors, "sector");
    say_done(around, format!("blank disc, {sectors}\n"))
}

pub fn begin(given: &Arguments, around: &mut Surroundings) -> Done {
    let mut session = Session::open(given.path(0), Lent::New, around)?;
    let (image, kinds, roles, ledger) = session.lent();
    let begun = station::begin(image, kinds, roles, ledger);
    begun.map_err(|refusal| refused(refusal, &Asked::WholeDisc, &session))?;
    beginning::check(given, &session)?;
    let left_out = left_out(&session, None);
    session.keep_ledger()?;
    say_done(around, format!("begun, size 0\n{left_out}"))
}

pub fn mount(given: &Arguments, around: &mut Surroundings) -> Done {
    let mut session = Session::open(given.path(0), Lent::New, around)?;
    let (image, kinds, roles, ledger) = session.lent();
    let mounted = station::mount(image, kinds, roles, ledger);
    let clean = mounted.map_err(|refusal| refused(refusal, &Asked::WholeDisc, &session))?;
    let map = Map::of(&session.ledger);
    let left_out = left_out(&session, Some(&map));
    let closed = closing::told(&session.disc);
    session.keep_ledger()?;
    let state = if clean { "clean" } else { "dirty" };
    let table = map.table;
    let text = format!("{state}, table at block {table}\n{map}\n{left_out}{closed}");
    say_done(around, text)
}

/// What the ledger that is replaced had and the newest save has not.
fn left_out(session: &Session, save: Option<&Map>) -> String {
    let Some(before) = session.kept_map() else {
        return match session.ledger_file {
            LedgerFile::Foreign => REPLACED.into(),
            _ => String::new(),
        };
    };
    let unsaved = Unsaved::of(&session.disc, &before);
    match save {
        None => unsaved.left_out(),
        Some(save) => unsaved.not_in(&before, save).left_out(),
    }
}

pub fn write(given: &Arguments, around: &mut Surroundings) -> Done {
    let writing = Writing::of(given, around)?;
    let mut session = Session::open(given.path(0), Lent::Kept, around)?;
    let block = writing.record(&mut session)?;
    session.keep_both()?;
    say_done(around, format!("block {block}\n"))
}

/// A run is stored as one: it is kept when all its calls are done, and until then the
/// files are as they were.
pub fn store(given: &Arguments, around: &mut Surroundings) -> Done {
    let mut storing = Storing::of(given, around)?;
    let mut session = Session::open(given.path(0), Lent::Kept, around)?;
    storing.admit(&mut session)?;
    storing.announce(around)?;
    let entry = storing.record(&mut session, around.watched)?;
    session.tell(storing.progress(around.watched));
    session.keep_both()?;
    let told = storing.told();
    say_done(around, format!("run of {told}, entry at block {entry}\n"))
}

pub fn release(given: &Arguments, around: &mut Surroundings) -> Done {
    let v = given.number_on_disc(1)?;
    let mut session = Session::open(given.path(0), Lent::Kept, around)?;
    let (image, kinds, roles, ledger) = session.lent();
    let released = station::release(image, kinds, roles, ledger, v);
    released.map_err(|refusal| refused(refusal, &Asked::Release(v), &session))?;
    session.keep_ledger()?;
    say_done(around, format!("released {v}\n"))
}

pub fn close(given: &Arguments, around: &mut Surroundings) -> Done {
    let mut session = Session::open(given.path(0), Lent::Kept, around)?;
    let (image, kinds, roles, ledger) = session.lent();
    let closed = station::close_packet(image, kinds, roles, ledger);
    closed.map_err(|refusal| refused(refusal, &Asked::WholeDisc, &session))?;
    session.keep_ledger()?;
    say_done(around, "packet closed\n".into())
}

/// Tells the time too, if the save carries one: nobody can change it any more.
pub fn commit(given: &Arguments, around: &mut Surroundings) -> Done {
    let saving = Saving::of(given)?;
    let mut session = Session::open(given.path(0), Lent::Kept, around)?;
    let table = saving.record(&mut session)?;
    let (image, kinds) = session.disc.lent();
    let time = match station::time_of(image, kinds, &session.ledger, 0) {
        Ok(told) => format!("{}\n", Time::of(&session.disc, table, told)),
        Err(_) => String::new(),
    };
    let saved = saved(&session);
    session.keep_both()?;
    let text = format!("saved, table at block {table}: {saved}\n{time}");
    say_done(around, text)
}

/// What a save has, and what of it is new: a write that a mount in between has left out
/// is in no save, whatever is committed.
fn saved(session: &Session) -> String {
    let in_use = Map::of(&session.ledger).used.len();
    let before = session.kept_map();
    let new = before.map(|before| Unsaved::of(&session.disc, &before).saved());
    let in_use = counted(in_use, "number");
    format!("{in_use} in use, {}", new.unwrap_or_default())
}

/// Announced when the closing is admitted and nothing of it is kept yet.
pub fn close_session(given: &Arguments, around: &mut Surroundings) -> Done {
    let closing = Closing::of(given)?;
    let mut session = Session::open(given.path(0), Lent::Kept, around)?;
    let table = closing.record(&mut session)?;
    let pointer = closing::pointer_before(table);
    let saved = saved(&session);
    closing::announce(given.path(0), around)?;
    session.keep_both()?;
    let text =
        format!("saved and closed, pointer at block {pointer}, table at block {table}: {saved}\n");
    say_done(around, text)
}

/// The newest save may have what the ledger did not come to know as saved, so it is asked
/// for where something is not saved.
pub fn look_back(given: &Arguments, around: &mut Surroundings) -> Done {
    let k = given.number(1)?;
    let mut session = Session::open(given.path(0), Lent::New, around)?;
    let (image, kinds, roles, ledger) = session.lent();
    let found = station::look_back(image, kinds, roles, ledger, k);
    let table = found.map_err(|refusal| refused(refusal, &Asked::WholeDisc, &session))?;
    let map = Map::of(&session.ledger);
    let left_out = match left_out(&session, None).as_str() {
        "" => String::new(),
        _ => left_out(&session, newest(&session.disc).as_ref()),
    };
    session.keep_ledger()?;
    let text = format!("looking only, {k} back, table at block {table}\n{map}\n{left_out}");
    say_done(around, text)
}

/// Roles and ledger are the command's own, and no file is changed.
pub fn time(given: &Arguments, around: &mut Surroundings) -> Done {
    let k = given.number(1)?;
    let mut session = Session::open(given.path(0), Lent::Own, around)?;
    let time = time_back(&mut session, k);
    let time = time.map_err(|refusal| refused(refusal, &Asked::Time(k), &session))?;
    drop(session);
    say(around, format!("{k} back: {time}\n"))
}

fn time_back(session: &mut Session, k: u32) -> Result<Time, Refusal> {
    let (image, kinds, roles, ledger) = session.lent();
    let told = station::time_of(image, kinds, ledger, k)?;
    let table = station::look_back(image, kinds, roles, ledger, k)?;
    Ok(Time::of(&session.disc, table, told))
}
