//! What is measured: the functions of `include/senna.h`, as one set that the compiled library and the Rust baseline both have.

/// Bytes of each buffer, as the header names them.
pub const NODES: usize = 13;
pub const MESSAGE_MAX: usize = 128;
pub const OBJECTS: usize = 128;
pub const IMAGE: usize = 2935;
pub const OLDER_OBJECTS: usize = 64;
pub const OLDER_IMAGES: [usize; 2] = [1207, 1527];
pub const RECORD: usize = 301;
pub const WAITING: usize = 128;
pub const SLOT: usize = 1 + MESSAGE_MAX;
pub const IMAGES: usize = NODES * IMAGE;
pub const RECORDS: usize = NODES * RECORD;
pub const POOL: usize = 1 + WAITING * SLOT;
pub const OWN: usize = 2;
pub const SETTINGS: usize = 228;
pub const STATION_SETTINGS: usize = NODES * SETTINGS;
pub const DISTANCES: usize = 26;
pub const ALL: u16 = 8191;

/// `senna_choice`: a number, the chosen quorum, its sum.
#[repr(C)]
#[derive(Clone, Copy, Debug, PartialEq, Eq)]
pub struct Chosen {
    pub number: u8,
    pub mask: u16,
    pub sum: u32,
}

/// `senna_called`, and `senna_value`, whose value's 64 bits are the answer.
#[repr(C)]
#[derive(Clone, Copy, Debug, PartialEq, Eq)]
pub struct Told {
    pub number: u8,
    pub answer: u64,
}

/// `senna_written` and `senna_received`.
#[repr(C)]
#[derive(Clone, Copy, Debug, PartialEq, Eq)]
pub struct Written {
    pub number: u8,
    pub length: u8,
}

/// `senna_author`.
#[repr(C)]
#[derive(Clone, Copy, Debug, PartialEq, Eq)]
pub struct Author {
    pub number: u8,
    pub owner: u8,
    pub serial: u32,
}

/// `senna_entry`.
#[repr(C)]
#[derive(Clone, Copy, Debug, Default, PartialEq, Eq)]
pub struct Entry {
    pub object: u8,
    pub mode: u8,
    pub version: u32,
    pub value: i64,
}

/// `senna_entries`.
#[repr(C)]
#[derive(Clone, Copy, Debug)]
pub struct Entries {
    pub entry: [Entry; 8],
    pub count: u8,
}

/// `senna_serials`.
#[repr(C)]
#[derive(Clone, Copy, Debug)]
pub struct Serials {
    pub serial: [u32; NODES],
}

/// A message's transaction.
#[derive(Clone, Copy, Debug)]
pub struct Transaction {
    pub owner: u8,
    pub serial: u32,
    pub stamp: u32,
}

/// What a begin is told.
#[derive(Clone, Copy, Debug)]
pub struct BeginWith<'a> {
    pub live: u16,
    pub distances: &'a [u8],
    pub timestamp: u32,
    pub day: u32,
    pub minute: u16,
}

/// The five buffers of a station, as a step is lent them.
pub struct Lent<'a> {
    pub images: &'a mut [u8],
    pub records: &'a mut [u8],
    pub pool: &'a mut [u8],
    pub own: &'a mut [u8],
    pub settings: &'a mut [u8],
}

/// Every function that is measured or compared.
pub trait Library {
    fn is_read_quorum(mask: u16) -> u8;
    fn is_write_quorum(mask: u16) -> u8;
    fn nearest_read(live: u16, distances: &[u8], asker: u8) -> Chosen;
    fn nearest_write(live: u16, distances: &[u8], asker: u8) -> Chosen;

    fn check_message(message: &[u8]) -> u8;
    fn write_fetch(out: &mut [u8], to: u8, of: Transaction, object: u8, mode: u8) -> Written;
    fn write_copy(out: &mut [u8], from: u8, of: Transaction, entry: Entry) -> Written;
    fn write_ask(out: &mut [u8], to: u8, of: Transaction, entries: &Entries) -> Written;
    fn write_vote(out: &mut [u8], from: u8, of: Transaction, rivals: &Serials, word: u8) -> Written;
    fn write_outcome(out: &mut [u8], to: u8, of: Transaction, entries: &Entries, word: u8) -> Written;
    fn write_done(out: &mut [u8], from: u8, of: Transaction) -> Written;
    fn write_yield(out: &mut [u8], of: Transaction, rival: u8, rival_serial: u32) -> Written;

    fn check_image(image: &[u8]) -> u8;
    fn blank_image(image: &mut [u8]) -> u8;
    fn take_in(image: &mut [u8], old: &[u8]) -> u8;
    fn image_author(image: &[u8], object: u8) -> Author;
    fn replica_receive(image: &mut [u8], me: u8, message: &[u8], answer: &mut [u8]) -> Written;
    fn replica_answers(image: &[u8], me: u8, message: &[u8]) -> u8;

    fn check_record(record: &[u8]) -> u8;
    fn blank_record(record: &mut [u8]) -> u8;
    fn check_settings(settings: &[u8]) -> u8;
    fn blank_settings(settings: &mut [u8]) -> u8;
    fn load_hours(settings: &mut [u8], list: &[u8]) -> u8;
    fn load_classes(settings: &mut [u8], record: &[u8], me: u8, list: &[u8]) -> Told;
    fn settings_kind(settings: &[u8]) -> Told;
    fn waiting(record: &[u8], settings: &[u8], class: u8) -> Told;
    fn begin(record: &mut [u8], settings: &mut [u8], me: u8, with: BeginWith) -> Told;
    fn batch(record: &mut [u8], settings: &mut [u8], me: u8, with: BeginWith, list: &[u8]) -> Told;
    fn reselect(record: &mut [u8], me: u8, live: u16, distances: &[u8]) -> Told;
    fn open_read(record: &mut [u8], settings: &[u8], me: u8, object: u8) -> Told;
    fn open_write(record: &mut [u8], settings: &[u8], me: u8, object: u8) -> Told;
    fn set_value(record: &mut [u8], settings: &[u8], me: u8, object: u8, value: i64) -> Told;
    fn found(record: &mut [u8], me: u8, object: u8) -> Told;
    fn request_commit(record: &mut [u8], settings: &[u8], me: u8) -> Told;
    fn abort(record: &mut [u8], me: u8) -> Told;
    fn receive(record: &mut [u8], me: u8, message: &[u8]) -> Told;
    fn due(record: &[u8], me: u8, node: u8, object: u8, out: &mut [u8]) -> Written;

    fn station_blank(lent: Lent, on: u16) -> u8;
    fn station_take_in(images: &mut [u8], old: &[u8]) -> u8;
    fn station_begin(records: &mut [u8], own: &[u8], settings: &mut [u8], node: u8, with: BeginWith) -> Told;
    fn station_batch(records: &mut [u8], own: &[u8], settings: &mut [u8], node: u8, with: BeginWith, list: &[u8]) -> Told;
    fn station_load_classes(records: &[u8], own: &[u8], settings: &mut [u8], node: u8, list: &[u8]) -> Told;
    fn station_load_hours(own: &[u8], settings: &mut [u8], node: u8, list: &[u8]) -> Told;
    fn station_reselect(records: &mut [u8], own: &[u8], node: u8, live: u16, distances: &[u8]) -> Told;
    fn station_open_read(records: &mut [u8], own: &[u8], settings: &[u8], node: u8, object: u8) -> Told;
    fn station_open_write(records: &mut [u8], own: &[u8], settings: &[u8], node: u8, object: u8) -> Told;
    fn station_set_value(records: &mut [u8], own: &[u8], settings: &[u8], node: u8, object: u8, value: i64) -> Told;
    fn station_found(records: &mut [u8], own: &[u8], node: u8, object: u8) -> Told;
    fn station_request_commit(records: &mut [u8], own: &[u8], settings: &[u8], node: u8) -> Told;
    fn station_abort(records: &mut [u8], own: &[u8], node: u8) -> Told;
    fn station_send(records: &[u8], pool: &mut [u8], own: &[u8], node: u8, to: u8, object: u8) -> Told;
    fn station_deliver(lent: Lent, k: u8, kept: u8) -> Told;
    fn station_drop(pool: &mut [u8], k: u8) -> Told;
    fn station_switch(own: &mut [u8], node: u8, up: u8) -> Told;
}
