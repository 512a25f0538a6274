//! Every wrong length of image, kinds, ledger and the last buffer (a block, a
//! timestamp, an answer, or one for a view), alone and together, and beside roles of
//! a wrong length, on the core and on the model, compared.

mod common;

use common::built::{beside, saved, saved_at};
use common::pair::{tell_compared, Pair};
use common::roles::KEEPING;
use common::runs::{extent, with_run, VIEWED};
use common::station::{done, refused, Station};
use station_model::calls::Call;
use station_model::ledger::LEDGER;
use station_model::run::MOST_VIEWED;
use station_model::table::SECTOR;

/// Right, none, one less, one more, and doubled.
fn lengths(right: usize) -> [usize; 5] {
    [right, 0, right - 1, right + 1, 2 * right]
}

fn resized(bytes: &[u8], length: usize) -> Vec<u8> {
    let mut resized = bytes.to_vec();
    resized.resize(length, 0);
    resized
}

/// All thirteen calls.
fn calls() -> impl Iterator<Item = Call> {
    let telling = [Call::Read(0), Call::TimeOf(0), VIEW];
    KEEPING.into_iter().chain(telling)
}

const VIEW: Call = Call::View { v: 0, offset: 0 };

/// All thirteen calls with the station's buffers at each length; a kind that no
/// disc has, or a spoiled ledger, shows that the refusal tested first is given.
fn at_each_length(station: &Station) {
    for image in lengths(station.image.len()) {
        for kinds in lengths(station.kinds.len()) {
            for ledger in lengths(LEDGER) {
                for roles in [kinds, kinds + 1] {
                    with_each_buffer(&Station {
                        image: resized(&station.image, image),
                        kinds: resized(&station.kinds, kinds),
                        roles: resized(&station.roles, roles),
                        ledger: resized(&station.ledger, ledger),
                    });
                }
            }
        }
    }
}

fn with_each_buffer(lent: &Station) {
    for call in calls() {
        let right = beside(call);
        for length in lengths(right.len()) {
            let mut pair = Pair::shifted(lent, length);
            pair.call(call, &resized(right, length));
        }
    }
}

#[test]
fn lengths_of_a_good_station() {
    at_each_length(&saved_at(19));
    tell_compared("lengths_of_a_good_station");
}

#[test]
fn lengths_of_a_disc_of_one_sector() {
    at_each_length(&Station::begun(1));
    tell_compared("lengths_of_a_disc_of_one_sector");
}

#[test]
fn lengths_beside_later_refusals() {
    let mut unsound = saved(20);
    unsound.kinds[5] = 9;
    at_each_length(&unsound);
    let mut unfit = saved(20);
    unfit.change(|volume| volume.mode = 3);
    at_each_length(&unfit);
    tell_compared("lengths_beside_later_refusals");
}

/// Every length of the buffer beside the ledger, up to beyond the right one.
#[test]
fn every_length_of_the_last_buffer() {
    let station = saved_at(19);
    for length in 0..=2050 {
        let mut pair = Pair::holding(&station);
        for call in calls().filter(|call| call.lent_length().is_some()) {
            pair.call(call, &resized(beside(call), length));
        }
    }
    tell_compared("every_length_of_the_last_buffer");
}

/// Lengths of the ledger up to beyond the right one: each up to a sector's, each about
/// the right one, and others between.
#[test]
fn lengths_of_the_ledger() {
    let station = saved_at(19);
    let between = (2050..LEDGER - 40).step_by(37);
    for length in (0..2050).chain(between).chain(LEDGER - 40..LEDGER + 40) {
        let mut pair = Pair::holding(&station);
        pair.lend_ledger(&resized(&station.ledger, length));
        for call in calls() {
            pair.call(call, beside(call));
        }
    }
    tell_compared("lengths_of_the_ledger");
}

/// Lengths of a timestamp and an answer of which only the low bits are right: 2.
#[test]
fn lengths_with_a_high_bit() {
    let station = saved_at(19);
    let mut pair = Pair::holding(&station);
    for call in [Call::CommitAt, Call::TimeOf(0)] {
        let right = beside(call);
        for bit in 4..25 {
            let long = resized(right, right.len() + (1 << bit));
            assert_eq!(pair.call(call, &long), refused(2), "{call:?}, bit {bit}");
        }
        assert!(pair.call(call, right).is_done());
        pair.take_back(&station);
    }
    tell_compared("lengths_with_a_high_bit");
}

/// A view's buffer may have any length up to 65,536, and is then filled as far as
/// the run goes; a longer one gives 2.
#[test]
fn every_length_of_a_views_buffer() {
    let extents = [extent(3 * SECTOR, 1), extent(16 * SECTOR - 9, 2)];
    let station = with_run(&extents);
    let run = 19 * SECTOR - 9;
    let mut pair = Pair::holding(&station);
    for border in (0..=MOST_VIEWED).step_by(SECTOR).chain([run]) {
        for length in border.saturating_sub(20)..=MOST_VIEWED.min(border + 20) {
            let answer = pair.call(VIEW, &VIEWED[..length]);
            assert_eq!(answer, done(length.min(run) as u32));
        }
    }
    for length in [MOST_VIEWED + 1, 2 * MOST_VIEWED, 1 << 24] {
        assert_eq!(pair.call(VIEW, &vec![7; length]), refused(2), "{length}");
    }
    tell_compared("every_length_of_a_views_buffer");
}

/// Image lengths about every multiple of a sector.
#[test]
fn every_length_of_a_small_image() {
    let station = saved(20);
    for image in 0..3 * SECTOR {
        for kinds in [0, 1, 2, 3] {
            let lent = Station {
                image: station.image[..image].to_vec(),
                kinds: station.kinds[..kinds].to_vec(),
                roles: station.roles[..kinds].to_vec(),
                ledger: station.ledger.clone(),
            };
            let mut pair = Pair::holding(&lent);
            pair.call(Call::ClosePacket, &[]);
            pair.call(Call::Begin, &[]);
        }
    }
    tell_compared("every_length_of_a_small_image");
}
