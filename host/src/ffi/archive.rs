//! The C functions, as `include/station.h` declares them.

extern "C" {
    pub fn station_begin_roles(
        image: *const u8,
        image_length: usize,
        kinds: *const u8,
        kinds_length: usize,
        roles: *mut u8,
        roles_length: usize,
        ledger: *mut u8,
        ledger_length: usize,
    ) -> u64;
    pub fn station_mount_roles(
        image: *const u8,
        image_length: usize,
        kinds: *const u8,
        kinds_length: usize,
        roles: *mut u8,
        roles_length: usize,
        ledger: *mut u8,
        ledger_length: usize,
    ) -> u64;
    pub fn station_write_roles(
        image: *mut u8,
        image_length: usize,
        kinds: *mut u8,
        kinds_length: usize,
        roles: *mut u8,
        roles_length: usize,
        ledger: *mut u8,
        ledger_length: usize,
        v: u32,
        block: *const u8,
        block_length: usize,
    ) -> u64;
    pub fn station_write_unnumbered_roles(
        image: *mut u8,
        image_length: usize,
        kinds: *mut u8,
        kinds_length: usize,
        roles: *mut u8,
        roles_length: usize,
        ledger: *mut u8,
        ledger_length: usize,
        block: *const u8,
        block_length: usize,
    ) -> u64;
    pub fn station_release_roles(
        image: *const u8,
        image_length: usize,
        kinds: *const u8,
        kinds_length: usize,
        roles: *mut u8,
        roles_length: usize,
        ledger: *mut u8,
        ledger_length: usize,
        v: u32,
    ) -> u64;
    pub fn station_close_packet_roles(
        image: *const u8,
        image_length: usize,
        kinds: *const u8,
        kinds_length: usize,
        roles: *const u8,
        roles_length: usize,
        ledger: *mut u8,
        ledger_length: usize,
    ) -> u64;
    pub fn station_commit_roles(
        image: *mut u8,
        image_length: usize,
        kinds: *mut u8,
        kinds_length: usize,
        roles: *mut u8,
        roles_length: usize,
        ledger: *mut u8,
        ledger_length: usize,
    ) -> u64;
    pub fn station_commit_at_roles(
        image: *mut u8,
        image_length: usize,
        kinds: *mut u8,
        kinds_length: usize,
        roles: *mut u8,
        roles_length: usize,
        ledger: *mut u8,
        ledger_length: usize,
        stamp: *const u8,
        stamp_length: usize,
    ) -> u64;
    pub fn station_read(
        image: *const u8,
        image_length: usize,
        kinds: *const u8,
        kinds_length: usize,
        ledger: *const u8,
        ledger_length: usize,
        v: u32,
        block: *mut u8,
        block_length: usize,
    ) -> u64;
    pub fn station_view(
        image: *const u8,
        image_length: usize,
        kinds: *const u8,
        kinds_length: usize,
        ledger: *const u8,
        ledger_length: usize,
        v: u32,
        offset: u64,
        buffer: *mut u8,
        buffer_length: usize,
    ) -> u64;
    pub fn station_look_back_roles(
        image: *const u8,
        image_length: usize,
        kinds: *const u8,
        kinds_length: usize,
        roles: *mut u8,
        roles_length: usize,
        ledger: *mut u8,
        ledger_length: usize,
        k: u32,
    ) -> u64;
    pub fn station_time_of(
        image: *const u8,
        image_length: usize,
        kinds: *const u8,
        kinds_length: usize,
        ledger: *const u8,
        ledger_length: usize,
        k: u32,
        answer: *mut u8,
        answer_length: usize,
    ) -> u64;
    pub fn station_close_session_roles(
        image: *mut u8,
        image_length: usize,
        kinds: *mut u8,
        kinds_length: usize,
        roles: *mut u8,
        roles_length: usize,
        ledger: *mut u8,
        ledger_length: usize,
        main_length: u32,
        main_location: u32,
        reserve_length: u32,
        reserve_location: u32,
        partition_start: u32,
    ) -> u64;
}
