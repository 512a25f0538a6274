//! "a lent role buffer of another length than the kinds gives 2" (document 02): each
//! of the ten calls with roles of other lengths, alone and beside what else is wrong.

mod common;

use common::built::{beside, saved_at};
use common::closing::CLOSING;
use common::pair::{tell_compared, Pair};
use common::roles::KEEPING;
use common::station::{done, refused, Station};
use station_model::calls::Call;
use station_model::disc::{DATA, UNREADABLE};
use station_model::ledger::LEDGER;
use station_model::table::SECTOR;

/// None, one, one less, one more, half, doubled, and huge: such of which only the low
/// bits are right.
fn wrong_lengths(right: usize) -> Vec<usize> {
    let mut lengths = vec![0, 1, right - 1, right + 1, right / 2, 2 * right, SECTOR];
    lengths.extend([8, 16, 24, 26].map(|bit| right + (1 << bit)));
    lengths.retain(|length| *length != right);
    lengths
}

/// A station on which the call is done: begin needs one without a table.
fn station_for(call: Call) -> Station {
    match call {
        Call::Begin => Station::blank(CLOSING + 20),
        _ => saved_at(CLOSING + 20),
    }
}

/// Every call with roles of these many bytes, on a station as it is.
fn with_roles(pair: &mut Pair, call: Call, length: usize) -> u32 {
    pair.lend_roles(&vec![0xC9; length]);
    pair.call(call, beside(call)).outcome
}

#[test]
fn each_of_the_ten() {
    for call in KEEPING {
        let station = station_for(call);
        let right = station.kinds.len();
        let mut pair = Pair::shifted(&station, right);
        for length in wrong_lengths(right) {
            assert_eq!(with_roles(&mut pair, call, length), 2, "{call:?} {length}");
        }
        assert_eq!(with_roles(&mut pair, call, right), 0, "{call:?}");
    }
    tell_compared("each_of_the_ten");
}

/// Every length up to beyond the right one, on a disc of one sector and on others.
#[test]
fn every_length() {
    for sectors in [1, 2, 31] {
        let mut pair = Pair::holding(&Station::begun(sectors));
        for length in 0..2 * sectors + 40 {
            let expected = if length == sectors { 0 } else { 2 };
            let outcome = with_roles(&mut pair, Call::ClosePacket, length);
            assert_eq!(outcome, expected, "{length} roles, {sectors} sectors");
        }
    }
    tell_compared("every_length");
}

/// A disc of no right size is refused before: 1, also where the roles have the
/// length of the kinds, or the right one.
#[test]
fn behind_1() {
    for call in KEEPING {
        let station = station_for(call);
        let right = station.kinds.len();
        for (image, kinds) in [(SECTOR * right - 1, right), (SECTOR * right, right - 1)] {
            for roles in [right, kinds, 0, right + 1] {
                let mut lent = station.clone();
                lent.image.resize(image, 0);
                lent.kinds.resize(kinds, 0);
                let mut pair = Pair::holding(&lent);
                assert_eq!(with_roles(&mut pair, call, roles), 1, "{call:?}");
            }
        }
        let mut pair = Pair::holding(&Station::blank(0));
        assert_eq!(with_roles(&mut pair, call, 0), 1, "{call:?}, no sectors");
    }
    tell_compared("behind_1");
}

/// With another wrong length it is 2 all the same; before 3, 4, and what comes later.
#[test]
fn beside_and_before_others() {
    for call in KEEPING {
        let station = saved_at(CLOSING + 20);
        let right = station.kinds.len();
        let mut pair = Pair::holding(&station);
        for ledger in [0, LEDGER - 1, LEDGER + 1] {
            pair.lend_ledger(&vec![0; ledger]);
            for roles in [right, right - 1] {
                assert_eq!(with_roles(&mut pair, call, roles), 2, "{call:?}");
            }
        }
        let mut unsound = station.clone();
        unsound.kinds[30] = DATA;
        let mut unfit = station.clone();
        unfit.change(|volume| volume.mode = 3);
        let mut looking = station.clone();
        assert!(looking.call(Call::LookBack(0)).is_done());
        for lent in [unsound, unfit, looking] {
            let mut pair = Pair::holding(&lent);
            for roles in [0, right - 1, right + 1] {
                assert_eq!(with_roles(&mut pair, call, roles), 2, "{call:?}");
            }
        }
    }
    tell_compared("beside_and_before_others");
}

/// A block, timestamp or other buffer of a wrong length gives 2 with right roles too.
#[test]
fn beside_a_block_and_a_timestamp() {
    for call in [Call::Write(0), Call::WriteUnnumbered, Call::CommitAt] {
        let station = saved_at(40);
        for roles in [40, 39] {
            let mut pair = Pair::holding(&station);
            pair.lend_roles(&vec![1; roles]);
            let short = &beside(call)[1..];
            assert_eq!(pair.call(call, short), refused(2), "{call:?}");
        }
    }
    tell_compared("beside_a_block_and_a_timestamp");
}

/// The calls that are lent none do not turn on them: a sector of the disc that is
/// unreadable, so that there is something to refuse too.
#[test]
fn calls_that_are_lent_none() {
    let mut station = saved_at(31);
    let mut pair = Pair::holding(&station);
    pair.lend_roles(&[]);
    assert_eq!(pair.call(Call::Read(0), beside(Call::Read(0))), done(0));
    let time = Call::TimeOf(0);
    assert_eq!(pair.call(time, beside(time)), done(0));
    let view = Call::View { v: 0, offset: 0 };
    assert_eq!(pair.call(view, beside(view)), refused(19));
    station.kinds[0] = UNREADABLE;
    let mut pair = Pair::holding(&station);
    pair.lend_roles(&[7; 99]);
    assert_eq!(pair.call(Call::Read(0), beside(Call::Read(0))), refused(11));
}
