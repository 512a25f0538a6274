//! The recording core's C functions, and for each one safe function with the
//! same answer. All unsafe code of this crate is here.
//!
//! A slice is lent as its pointer and its length. That is all the core asks
//! for: none of its functions has a precondition, so every length and every
//! content may be lent, and it touches no byte outside what it is lent. What
//! it may change is lent as `&mut`.

mod archive;

/// `station_begin_roles`: the answer of [`crate::begin`] as one number.
pub fn begin(image: &[u8], kinds: &[u8], roles: &mut [u8], ledger: &mut [u8]) -> u64 {
    // SAFETY: each pointer and length is one live slice, and one that changes overlaps no other.
    unsafe {
        archive::station_begin_roles(
            image.as_ptr(),
            image.len(),
            kinds.as_ptr(),
            kinds.len(),
            roles.as_mut_ptr(),
            roles.len(),
            ledger.as_mut_ptr(),
            ledger.len(),
        )
    }
}

/// `station_mount_roles`: the answer of [`crate::mount`] as one number; the second
/// is 1 if clean and 0 if dirty.
pub fn mount(image: &[u8], kinds: &[u8], roles: &mut [u8], ledger: &mut [u8]) -> u64 {
    // SAFETY: each pointer and length is one live slice, and one that changes overlaps no other.
    unsafe {
        archive::station_mount_roles(
            image.as_ptr(),
            image.len(),
            kinds.as_ptr(),
            kinds.len(),
            roles.as_mut_ptr(),
            roles.len(),
            ledger.as_mut_ptr(),
            ledger.len(),
        )
    }
}

/// `station_write_roles`: the answer of [`crate::write`] as one number; the second
/// is the block recorded.
pub fn write(
    image: &mut [u8],
    kinds: &mut [u8],
    roles: &mut [u8],
    ledger: &mut [u8],
    v: u32,
    block: &[u8],
) -> u64 {
    // SAFETY: each pointer and length is one live slice, and one that changes overlaps no other.
    unsafe {
        archive::station_write_roles(
            image.as_mut_ptr(),
            image.len(),
            kinds.as_mut_ptr(),
            kinds.len(),
            roles.as_mut_ptr(),
            roles.len(),
            ledger.as_mut_ptr(),
            ledger.len(),
            v,
            block.as_ptr(),
            block.len(),
        )
    }
}

/// `station_write_unnumbered_roles`: the answer of [`crate::write_unnumbered`] as one
/// number; the second is the block recorded.
pub fn write_unnumbered(
    image: &mut [u8],
    kinds: &mut [u8],
    roles: &mut [u8],
    ledger: &mut [u8],
    block: &[u8],
) -> u64 {
    // SAFETY: each pointer and length is one live slice, and one that changes overlaps no other.
    unsafe {
        archive::station_write_unnumbered_roles(
            image.as_mut_ptr(),
            image.len(),
            kinds.as_mut_ptr(),
            kinds.len(),
            roles.as_mut_ptr(),
            roles.len(),
            ledger.as_mut_ptr(),
            ledger.len(),
            block.as_ptr(),
            block.len(),
        )
    }
}

/// `station_release_roles`: the answer of [`crate::release`] as one number.
pub fn release(image: &[u8], kinds: &[u8], roles: &mut [u8], ledger: &mut [u8], v: u32) -> u64 {
    // SAFETY: each pointer and length is one live slice, and one that changes overlaps no other.
    unsafe {
        archive::station_release_roles(
            image.as_ptr(),
            image.len(),
            kinds.as_ptr(),
            kinds.len(),
            roles.as_mut_ptr(),
            roles.len(),
            ledger.as_mut_ptr(),
            ledger.len(),
            v,
        )
    }
}

/// `station_close_packet_roles`: the answer of [`crate::close_packet`] as one number.
pub fn close_packet(image: &[u8], kinds: &[u8], roles: &[u8], ledger: &mut [u8]) -> u64 {
    // SAFETY: each pointer and length is one live slice, and one that changes overlaps no other.
    unsafe {
        archive::station_close_packet_roles(
            image.as_ptr(),
            image.len(),
            kinds.as_ptr(),
            kinds.len(),
            roles.as_ptr(),
            roles.len(),
            ledger.as_mut_ptr(),
            ledger.len(),
        )
    }
}

/// `station_commit_roles`: the answer of [`crate::commit`] as one number; the second
/// is the block recorded.
pub fn commit(image: &mut [u8], kinds: &mut [u8], roles: &mut [u8], ledger: &mut [u8]) -> u64 {
    // SAFETY: each pointer and length is one live slice, and one that changes overlaps no other.
    unsafe {
        archive::station_commit_roles(
            image.as_mut_ptr(),
            image.len(),
            kinds.as_mut_ptr(),
            kinds.len(),
            roles.as_mut_ptr(),
            roles.len(),
            ledger.as_mut_ptr(),
            ledger.len(),
        )
    }
}

/// `station_commit_at_roles`: the answer of [`crate::commit_at`] as one number; the
/// second is the block recorded.
pub fn commit_at(
    image: &mut [u8],
    kinds: &mut [u8],
    roles: &mut [u8],
    ledger: &mut [u8],
    stamp: &[u8],
) -> u64 {
    // SAFETY: each pointer and length is one live slice, and one that changes overlaps no other.
    unsafe {
        archive::station_commit_at_roles(
            image.as_mut_ptr(),
            image.len(),
            kinds.as_mut_ptr(),
            kinds.len(),
            roles.as_mut_ptr(),
            roles.len(),
            ledger.as_mut_ptr(),
            ledger.len(),
            stamp.as_ptr(),
            stamp.len(),
        )
    }
}

/// `station_read`: the answer of [`crate::read`] as one number.
pub fn read(image: &[u8], kinds: &[u8], ledger: &[u8], v: u32, block: &mut [u8]) -> u64 {
    // SAFETY: each pointer and length is one live slice.
    unsafe {
        archive::station_read(
            image.as_ptr(),
            image.len(),
            kinds.as_ptr(),
            kinds.len(),
            ledger.as_ptr(),
            ledger.len(),
            v,
            block.as_mut_ptr(),
            block.len(),
        )
    }
}

/// `station_view`: the answer of [`crate::view`] as one number; the second counts
/// the bytes that are filled in.
pub fn view(
    image: &[u8],
    kinds: &[u8],
    ledger: &[u8],
    v: u32,
    offset: u64,
    buffer: &mut [u8],
) -> u64 {
    // SAFETY: each pointer and length is one live slice, and one that changes overlaps no other.
    unsafe {
        archive::station_view(
            image.as_ptr(),
            image.len(),
            kinds.as_ptr(),
            kinds.len(),
            ledger.as_ptr(),
            ledger.len(),
            v,
            offset,
            buffer.as_mut_ptr(),
            buffer.len(),
        )
    }
}

/// `station_look_back_roles`: the answer of [`crate::look_back`] as one number; the
/// second is the table's block.
pub fn look_back(image: &[u8], kinds: &[u8], roles: &mut [u8], ledger: &mut [u8], k: u32) -> u64 {
    // SAFETY: each pointer and length is one live slice, and one that changes overlaps no other.
    unsafe {
        archive::station_look_back_roles(
            image.as_ptr(),
            image.len(),
            kinds.as_ptr(),
            kinds.len(),
            roles.as_mut_ptr(),
            roles.len(),
            ledger.as_mut_ptr(),
            ledger.len(),
            k,
        )
    }
}

/// `station_time_of`: the answer of [`crate::time_of`] as one number, whose
/// second is 0, and in the lent bytes, of which there are to be
/// [`TIME`](crate::TIME): the minutes, then 1 if the zone was not given or else
/// 0, 32 bits each.
pub fn time_of(image: &[u8], kinds: &[u8], ledger: &[u8], k: u32, answer: &mut [u8]) -> u64 {
    // SAFETY: each pointer and length is one live slice.
    unsafe {
        archive::station_time_of(
            image.as_ptr(),
            image.len(),
            kinds.as_ptr(),
            kinds.len(),
            ledger.as_ptr(),
            ledger.len(),
            k,
            answer.as_mut_ptr(),
            answer.len(),
        )
    }
}

/// `station_close_session_roles`: the answer of [`crate::close_session`] as one number;
/// the second is the block of the table recorded. The numbers are the length and
/// location of the main extent, those of the reserve extent, and the partition's
/// start.
#[allow(clippy::too_many_arguments)]
pub fn close_session(
    image: &mut [u8],
    kinds: &mut [u8],
    roles: &mut [u8],
    ledger: &mut [u8],
    main_length: u32,
    main_location: u32,
    reserve_length: u32,
    reserve_location: u32,
    partition_start: u32,
) -> u64 {
    // SAFETY: each pointer and length is one live slice, and one that changes overlaps no other.
    unsafe {
        archive::station_close_session_roles(
            image.as_mut_ptr(),
            image.len(),
            kinds.as_mut_ptr(),
            kinds.len(),
            roles.as_mut_ptr(),
            roles.len(),
            ledger.as_mut_ptr(),
            ledger.len(),
            main_length,
            main_location,
            reserve_length,
            reserve_location,
            partition_start,
        )
    }
}
