//! The core beside the model: each call is made on both, and the answer and
//! every byte of image, kinds, roles, ledger and the last buffer afterwards are
//! compared.
//!
//! While everything comes as the call before left it, since a begin, mount or look
//! back, the roles are also those worked out afresh from the history, and add up.

use std::cell::Cell;
use std::fmt::Write;

use station::recorded;
use station_model::answer::Answer;
use station_model::calls::{perform, Call};
use station_model::roles::Since;
use station_model::table::SECTOR;

use super::core::{unpacked, Core};
use super::guarded::Guarded;
use super::random::seed;
use super::roles::astray;
use super::station::Station;
use super::tally::Outcomes;

thread_local! {
    /// Calls compared by one test, which runs on a thread of its own.
    static COMPARED: Cell<usize> = const { Cell::new(0) };
}

/// An image up to this many sectors is compared whole after each call. Of a
/// larger one the sectors that the call recorded and those near them, some more in
/// turn, and the whole at the end.
const COMPARED_WHOLE: usize = 64;

/// Up to this many sectors the roles are worked out afresh after each call.
const WORKED_OUT: usize = 1000;

pub struct Pair {
    model: Station,
    core: Core,
    /// The block, timestamp or answer that some calls are lent.
    buffer: Vec<u8>,
    core_buffer: Guarded,
    case: Option<usize>,
    shift: usize,
    turn: usize,
    /// The history since a begin, mount or look back, if all was lent on from there.
    since: Option<Since>,
    pub outcomes: Outcomes,
}

/// What was lent, for the report: the buffers that are small.
struct Before {
    kinds: Vec<u8>,
    roles: Vec<u8>,
    ledger: Vec<u8>,
    buffer: Vec<u8>,
}

impl Pair {
    pub fn holding(station: &Station) -> Pair {
        Pair::shifted(station, 0)
    }

    /// The core's buffers at addresses that vary with the shift.
    pub fn shifted(station: &Station, shift: usize) -> Pair {
        Pair {
            model: station.clone(),
            core: Core::holding(station, shift),
            buffer: Vec::new(),
            core_buffer: Guarded::holding(&[], shift),
            case: None,
            shift,
            turn: 0,
            since: None,
            outcomes: Outcomes::default(),
        }
    }

    /// A pair that names its case where a difference shows.
    pub fn of_case(station: &Station, case: usize) -> Pair {
        let mut pair = Pair::shifted(station, case);
        pair.case = Some(case);
        pair
    }

    pub fn station(&self) -> &Station {
        &self.model
    }

    /// The last buffer as the last call left it.
    pub fn buffer(&self) -> &[u8] {
        &self.buffer
    }

    pub fn into_station(self) -> Station {
        self.compare_whole();
        self.model
    }

    /// Lends another ledger from now on.
    pub fn lend_ledger(&mut self, ledger: &[u8]) {
        self.since = None;
        lend(&mut self.core.ledger, ledger, self.shift);
        self.model.ledger.clear();
        self.model.ledger.extend_from_slice(ledger);
    }

    /// Lends other roles from now on.
    pub fn lend_roles(&mut self, roles: &[u8]) {
        self.since = None;
        lend(&mut self.core.roles, roles, self.shift / 2);
        self.model.roles.clear();
        self.model.roles.extend_from_slice(roles);
    }

    /// Changes one sector of both discs.
    pub fn put_sector(&mut self, block: u32, kind: u8, bytes: &[u8; SECTOR]) {
        self.since = None;
        self.model.put_sector(block, kind, bytes);
        self.core.kinds[block as usize] = kind;
        self.core.image[block as usize * SECTOR..][..SECTOR].copy_from_slice(bytes);
    }

    /// Takes back what a call did: the sectors that it recorded, the roles and the
    /// ledger become the given station's again.
    pub fn take_back(&mut self, station: &Station) {
        for (block, kind) in station.kinds.iter().enumerate() {
            if self.model.kinds[block] != *kind {
                self.put_sector(block as u32, *kind, station.sector(block as u32));
            }
        }
        self.lend_roles(&station.roles);
        self.lend_ledger(&station.ledger);
    }

    /// The call with a copy of the last buffer on either side. A difference
    /// ends the test with all that is needed to see it again.
    pub fn call(&mut self, call: Call, buffer: &[u8]) -> Answer {
        let before = Before {
            kinds: self.model.kinds.clone(),
            roles: self.model.roles.clone(),
            ledger: self.model.ledger.clone(),
            buffer: buffer.to_vec(),
        };
        self.lend_buffer(buffer);
        let Station {
            image,
            kinds,
            roles,
            ledger,
        } = &mut self.model;
        let expected = perform(image, kinds, roles, ledger, &mut self.buffer, call);
        let answer = self.core.perform(call, &mut self.core_buffer);
        self.note(call, expected);
        let difference = self.difference(&before, expected, answer);
        if let Some(difference) = difference.or_else(|| self.roles_astray()) {
            panic!("{}", self.report(call, &before, &difference));
        }
        COMPARED.with(|count| count.set(count.get() + 1));
        self.outcomes.count(call, expected);
        expected
    }

    fn lend_buffer(&mut self, buffer: &[u8]) {
        self.buffer.clear();
        self.buffer.extend_from_slice(buffer);
        lend(&mut self.core_buffer, buffer, self.shift / 7);
    }

    /// Notes the call for the history, which starts with a call that scans.
    fn note(&mut self, call: Call, answer: Answer) {
        if call.scans() && answer.is_done() {
            self.since.get_or_insert_default();
        }
        if let Some(since) = &mut self.since {
            since.feed(call, answer);
        }
    }

    /// How the roles differ from those worked out afresh, or do not add up.
    fn roles_astray(&self) -> Option<String> {
        let station = &self.model;
        let since = self.since.as_ref()?;
        if station.roles.len() > WORKED_OUT {
            return None;
        }
        astray(&station.disc(), &station.volume(), &station.roles, since)
    }

    fn difference(&mut self, before: &Before, expected: Answer, answer: u64) -> Option<String> {
        if answer != expected.packed() {
            let core = unpacked(answer);
            return Some(format!("the model answers {expected:?}, the core {core:?}"));
        }
        let (model, core) = (&self.model, &self.core);
        let struck = core.struck(&self.core_buffer);
        struck
            .map(|place| format!("the core wrote outside: {place}"))
            .or_else(|| first_difference("ledger", 0, &model.ledger, &core.ledger))
            .or_else(|| first_difference("kinds", 0, &model.kinds, &core.kinds))
            .or_else(|| first_difference("roles", 0, &model.roles, &core.roles))
            .or_else(|| first_difference("last buffer", 0, &self.buffer, &self.core_buffer))
            .or_else(|| self.image_difference(&before.kinds))
    }

    fn image_difference(&mut self, kinds_before: &[u8]) -> Option<String> {
        let sectors = self.model.image.len() / SECTOR;
        if sectors <= COMPARED_WHOLE {
            return first_difference("image", 0, &self.model.image, &self.core.image);
        }
        self.turn += 1;
        let near = recorded(kinds_before).saturating_sub(10);
        let behind = recorded(&self.model.kinds) + 10;
        let in_turn = 8 * self.turn % sectors;
        [(near, behind), (in_turn, in_turn + 8)]
            .iter()
            .find_map(|(first, end)| {
                let window = first * SECTOR..sectors.min(*end) * SECTOR;
                let model = &self.model.image[window.clone()];
                first_difference("image", window.start, model, &self.core.image[window])
            })
    }

    /// Compares an image that was so far compared in parts.
    pub fn compare_whole(&self) {
        let difference = first_difference("image", 0, &self.model.image, &self.core.image);
        if let Some(difference) = difference {
            panic!("after the last call, {difference}");
        }
    }

    fn report(&self, call: Call, before: &Before, difference: &str) -> String {
        let mut text = format!("{difference}\nafter {call:?}");
        if let Some(case) = self.case {
            let _ = write!(text, "; STATION_SEED={} STATION_CASE={case}", seed());
        }
        let _ = write!(
            text,
            "\nlent: image {}, kinds {}, roles {}, ledger {}, last {} bytes\n\
             kinds {}\nroles {}\nledger {}\nlast {}",
            self.model.image.len(),
            before.kinds.len(),
            before.roles.len(),
            before.ledger.len(),
            before.buffer.len(),
            hex(&before.kinds),
            hex(&before.roles),
            hex(&before.ledger),
            hex(&before.buffer),
        );
        text
    }
}

/// Copies the bytes to where they are lent, anew if they are more or fewer.
fn lend(lent: &mut Guarded, bytes: &[u8], shift: usize) {
    if lent.len() == bytes.len() {
        lent.copy_from_slice(bytes);
    } else {
        *lent = Guarded::holding(bytes, shift);
    }
}

/// Says how many calls the test has compared; none is a failure.
pub fn tell_compared(test: &str) {
    let compared = COMPARED.get();
    assert!(compared > 0, "{test} compared nothing");
    println!("{test}: {compared} calls compared");
}

/// The first byte that differs, and what either side has there: nothing, where
/// one is longer.
fn first_difference(name: &str, start: usize, model: &[u8], core: &[u8]) -> Option<String> {
    if model == core {
        return None;
    }
    let longer = model.len().max(core.len());
    let at = (0..longer).find(|at| model.get(*at) != core.get(*at))?;
    Some(format!(
        "{name} byte {}: the model has {:02X?}, the core {:02X?}",
        start + at,
        model.get(at),
        core.get(at)
    ))
}

/// Bytes in hex, a run of one byte as its first and how often.
fn hex(bytes: &[u8]) -> String {
    let runs = bytes.chunk_by(|one, next| one == next);
    let words = runs.map(|run| match run.len() {
        1 => format!("{:02X}", run[0]),
        count => format!("{:02X}x{count}", run[0]),
    });
    words.collect::<Vec<_>>().join(" ")
}
