//! The largest disc, 360,000 sectors: one image of 737 MB.
//!
//! Before each call the model says what the call is to do; then the core makes it, on a
//! thread with a stack of 256 KiB that does nothing else; then the answer, ledger,
//! kinds, roles, the last buffer and the sectors recorded are compared.

use std::thread;

use station_model::answer::{Answer, Refusal};
use station_model::calls::{effect, Call, Lent};
use station_model::disc::{Disc, Sector, DATA, LINK, MOST_SECTORS};
use station_model::effect::Effect;
use station_model::ledger::{Volume, LEDGER};
use station_model::roles::Since;
use station_model::table::SECTOR;

use super::built::beside;
use super::core::{unpacked, Core, Short};
use super::guarded::Guarded;
use super::roles::astray;

/// "every call runs on a 256 KiB stack"
const STACK: usize = 256 * 1024;

pub const SECTORS: u32 = MOST_SECTORS as u32;

/// One sector more than a disc may have is there, and as a rule not lent.
const ONE_SECTOR: Short = Short {
    image: SECTOR,
    kinds: 1,
    roles: 1,
    ledger: 0,
};

pub struct FullSize {
    pub core: Core,
    /// The block, timestamp or answer that the next call is lent.
    buffer: Guarded,
    since: Since,
    pub compared: usize,
}

impl FullSize {
    pub fn blank() -> FullSize {
        let core = Core {
            image: Guarded::zeros((MOST_SECTORS + 1) * SECTOR, 0),
            kinds: Guarded::zeros(MOST_SECTORS + 1, 0),
            roles: Guarded::zeros(MOST_SECTORS + 1, 0),
            ledger: Guarded::zeros(LEDGER, 0),
        };
        FullSize {
            core,
            buffer: Guarded::holding(&[], 0),
            since: Since::default(),
            compared: 0,
        }
    }

    pub fn kinds(&mut self) -> &mut [u8] {
        &mut self.core.kinds[..MOST_SECTORS]
    }

    pub fn put_sector(&mut self, block: u32, bytes: &[u8; SECTOR]) {
        self.core.image[block as usize * SECTOR..][..SECTOR].copy_from_slice(bytes);
    }

    pub fn lend_ledger(&mut self, edit: impl FnOnce(&mut Volume)) {
        let mut volume = self.core.volume();
        edit(&mut volume);
        self.core.ledger.copy_from_slice(&volume.to_bytes());
    }

    /// What the model says that the call is to do.
    fn expected(&self, call: Call, short: Short) -> Result<Effect, Refusal> {
        let lent = Lent {
            image: &self.core.image[..self.core.image.len() - short.image],
            kinds: &self.core.kinds[..self.core.kinds.len() - short.kinds],
            roles: &self.core.roles[..self.core.roles.len() - short.roles],
            ledger: &self.core.ledger,
            buffer: &self.buffer,
        };
        effect(&lent, call)
    }

    fn on_a_small_stack(&mut self, call: Call, short: Short) -> Answer {
        let (core, buffer) = (&mut self.core, &mut self.buffer);
        let answer = thread::scope(|scope| {
            let small = thread::Builder::new().stack_size(STACK);
            let made = small.spawn_scoped(scope, || core.perform_short(call, buffer, short));
            made.expect("a thread").join().expect("an answer")
        });
        unpacked(answer)
    }

    pub fn call(&mut self, call: Call) -> Answer {
        self.call_short(call, ONE_SECTOR)
    }

    pub fn call_short(&mut self, call: Call, short: Short) -> Answer {
        self.buffer = Guarded::holding(beside(call), 0);
        let expected = self.expected(call, short);
        let mut kinds = self.core.kinds.to_vec();
        let mut roles = self.core.roles.to_vec();
        let mut ledger = self.core.ledger.to_vec();
        let mut buffer = self.buffer.to_vec();
        let answer = self.on_a_small_stack(call, short);
        match &expected {
            Err(refusal) => assert_eq!(answer, Answer::refused(*refusal), "{call:?}"),
            Ok(effect) => {
                assert_eq!(answer, Answer::done(effect.second), "{call:?}");
                let after = effect.volume.as_ref();
                ledger = after.map_or(ledger, |volume| volume.to_bytes().to_vec());
                effect.show_in(&mut buffer);
                effect.set_roles(&mut roles);
                self.compare_sectors(&mut kinds, &effect.sectors);
            }
        }
        assert!(self.core.kinds[..] == kinds, "kinds after {call:?}");
        assert!(self.core.roles[..] == roles, "roles after {call:?}");
        assert!(self.core.ledger[..] == ledger, "ledger after {call:?}");
        assert!(self.buffer[..] == buffer, "buffer after {call:?}");
        assert_eq!(self.core.struck(&self.buffer), None, "{call:?}");
        self.since.feed(call, answer);
        self.compared += 1;
        answer
    }

    /// The roles are those that the history gives, and they add up.
    pub fn assert_kept_up(&self) {
        let Core {
            image,
            kinds,
            roles,
            ..
        } = &self.core;
        let disc = Disc::lent(&image[..MOST_SECTORS * SECTOR], &kinds[..MOST_SECTORS]);
        let disc = disc.expect("the largest disc");
        let roles = &roles[..MOST_SECTORS];
        let difference = astray(&disc, &self.core.volume(), roles, &self.since);
        assert!(difference.is_none(), "roles differ, worked out afresh");
    }

    /// Puts the kinds of the recorded sectors in and compares their bytes.
    fn compare_sectors(&self, kinds: &mut [u8], sectors: &[Sector]) {
        let first = kinds.iter().take_while(|kind| **kind != 0).count();
        for (block, sector) in (first..).zip(sectors) {
            match sector {
                Sector::Link => kinds[block] = LINK,
                Sector::Data(bytes) => {
                    kinds[block] = DATA;
                    let core = &self.core.image[block * SECTOR..][..SECTOR];
                    assert!(core == &bytes[..], "bytes of block {block}");
                }
            }
        }
    }

    /// Every sector of the image, the one that is not lent too.
    pub fn compare_image(&self, mut expected: impl FnMut(u32) -> [u8; SECTOR]) {
        let sectors = self.core.image.chunks_exact(SECTOR);
        for (block, bytes) in (0..).zip(sectors) {
            assert!(bytes == expected(block), "bytes of block {block}");
        }
    }
}
