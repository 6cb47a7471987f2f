//! The calls of the two static libraries, as C declares them.
//!
//! `test_host_name` and `test_is_tail` answer C's `bool`. It is read as a byte here, so that an answer
//! other than 0 and 1 is a difference like any other.

/// A reading without a number, and one with: the table, the number, and the bytes for what is read.
pub type Reading = unsafe extern "C" fn(*const u8, usize, *mut u8, usize) -> u64;
pub type NumberedReading = unsafe extern "C" fn(*const u8, usize, u8, *mut u8, usize) -> u64;

/// A copy of what a view shows: the table, the number, and the bytes for the copy; how many the view has.
pub type View = unsafe extern "C" fn(*const u8, usize, u8, *mut u8, usize) -> usize;

/// The Index that a reading answers, by the reading's number.
pub type Index = unsafe extern "C" fn(*const u8, usize, u8) -> u8;

/// A build: record, strings and room.
pub type Build = unsafe extern "C" fn(*const u8, usize, *const u8, usize, *mut u8, usize) -> u64;

/// A scan: memory and its address. A check. A write of an aBFT or an sBFT: image and room.
pub type Scan = unsafe extern "C" fn(*const u8, usize, u64) -> u64;
pub type Check = unsafe extern "C" fn(*const u8, usize) -> u64;
pub type Write = unsafe extern "C" fn(*const u8, usize, *mut u8, usize) -> u64;

extern "C" {
    pub fn ibft_scan(memory: *const u8, memory_size: usize, address: u64) -> u64;
    pub fn ibft_check(table: *const u8, table_size: usize) -> u64;
    pub fn ibft_build(
        record: *const u8,
        record_size: usize,
        strings: *const u8,
        strings_size: usize,
        room: *mut u8,
        room_size: usize,
    ) -> u64;
    pub fn ibft_rebuild(table: *const u8, table_size: usize, room: *mut u8, room_size: usize) -> u64;

    pub fn abft_scan(memory: *const u8, memory_size: usize, address: u64) -> u64;
    pub fn abft_check(table: *const u8, table_size: usize) -> u64;
    pub fn abft_write(image: *const u8, image_size: usize, room: *mut u8, room_size: usize) -> u64;
    pub fn sbft_scan(memory: *const u8, memory_size: usize, address: u64) -> u64;
    pub fn sbft_check(table: *const u8, table_size: usize) -> u64;
    pub fn sbft_write(image: *const u8, image_size: usize, room: *mut u8, room_size: usize) -> u64;

    pub fn test_host_name(name: *const u8, name_size: usize) -> u8;
    pub fn test_checksum(bytes: *const u8, size: usize, at: usize) -> u8;
    pub fn test_common_tail(a: *const u8, a_size: usize, b: *const u8, b_size: usize) -> usize;
    pub fn test_is_tail(a: *const u8, a_size: usize, b: *const u8, b_size: usize) -> u8;

    pub fn test_structure_index(table: *const u8, size: usize, slot: u8) -> u8;
    pub fn test_nic_index(table: *const u8, size: usize, n: u8) -> u8;
    pub fn test_target_index(table: *const u8, size: usize, n: u8) -> u8;
    pub fn test_login_places(table: *const u8, size: usize) -> u64;
    pub fn test_structure_checksum(table: *const u8, size: usize, slot: u8) -> u8;
    pub fn test_login_checksum(table: *const u8, size: usize) -> u8;

    pub fn test_structure(table: *const u8, size: usize, slot: u8) -> u64;
    pub fn test_entry(table: *const u8, size: usize, entry: u8) -> u64;
    pub fn test_entry_place(table: *const u8, size: usize, entry: u8) -> u64;
    pub fn test_structure_view(table: *const u8, size: usize, slot: u8, out: *mut u8, out_size: usize) -> usize;
    pub fn test_entry_view(table: *const u8, size: usize, entry: u8, out: *mut u8, out_size: usize) -> usize;
    pub fn test_login_order(table: *const u8, size: usize) -> u64;
    pub fn test_header(table: *const u8, size: usize, out: *mut u8, out_size: usize) -> u64;
    pub fn test_initiator(table: *const u8, size: usize, out: *mut u8, out_size: usize) -> u64;
    pub fn test_nic(table: *const u8, size: usize, n: u8, out: *mut u8, out_size: usize) -> u64;
    pub fn test_target(table: *const u8, size: usize, n: u8, out: *mut u8, out_size: usize) -> u64;
    pub fn test_abft(table: *const u8, size: usize, out: *mut u8, out_size: usize) -> u64;
    pub fn test_sbft_start(table: *const u8, size: usize, out: *mut u8, out_size: usize) -> u64;
    pub fn test_sbft_scsi(table: *const u8, size: usize, out: *mut u8, out_size: usize) -> u64;
    pub fn test_sbft_srp(table: *const u8, size: usize, out: *mut u8, out_size: usize) -> u64;
    pub fn test_sbft_ib(table: *const u8, size: usize, out: *mut u8, out_size: usize) -> u64;
    pub fn test_sbft_part_view(table: *const u8, size: usize, part: u8, out: *mut u8, out_size: usize) -> usize;
    pub fn test_address_kind(address: *const u8, size: usize) -> u64;
    pub fn test_pci(word: u16) -> u64;

    pub fn test_compare(left: *const u8, left_size: usize, right: *const u8, right_size: usize) -> u64;
    pub fn test_difference(
        left: *const u8,
        left_size: usize,
        right: *const u8,
        right_size: usize,
        k: u16,
        out: *mut u8,
        out_size: usize,
    ) -> u64;
    pub fn test_difference_view(
        left: *const u8,
        left_size: usize,
        right: *const u8,
        right_size: usize,
        k: u16,
        out: *mut u8,
        out_size: usize,
    ) -> usize;
}
