//! The baseline: the same rules in Rust, written for speed. Bytes are read and changed where they stand, nothing is allocated, every
//! check of the rules is made, once. It has no unsafe code: lent slices become arrays of fixed length, so few bounds are left to check.

mod bytes;
mod classes;
mod coordinator;
mod due;
mod hours;
mod image;
mod message;
mod pool;
mod quorum;
mod record;
mod replica;
mod station;
mod writers;

use crate::library::{Author, BeginWith, Chosen, Entries, Entry, Lent, Library, Serials, Told, Transaction, Written};

/// The numbers of a refusal.
pub mod number {
    pub const LENGTH: u8 = 1;
    pub const DAMAGED: u8 = 2;
    pub const GARBLED: u8 = 3;
    pub const STRANGER: u8 = 4;
    pub const OUT_OF_TURN: u8 = 5;
    pub const NO_SUCH_OBJECT: u8 = 6;
    pub const EIGHT_OPEN: u8 = 7;
    pub const NO_QUORUM: u8 = 8;
    pub const USED_UP: u8 = 9;
    pub const BUSY: u8 = 10;
    pub const NOT_READY: u8 = 11;
    pub const POOL_FULL: u8 = 12;
    pub const CLOSED: u8 = 13;
    pub const BOUNDS: u8 = 14;
    pub const TALLY_TWICE: u8 = 15;
}

/// Kinds of messages.
pub mod kind {
    pub const FETCH: u8 = 1;
    pub const COPY: u8 = 2;
    pub const ASK: u8 = 3;
    pub const VOTE: u8 = 4;
    pub const OUTCOME: u8 = 5;
    pub const DONE: u8 = 6;
    pub const YIELD: u8 = 7;
}

/// The last number of 32 bits.
const LAST: u32 = u32::MAX;

/// A refusal or an answer.
type Answer = Result<u64, u8>;

fn told(answer: Answer) -> Told {
    match answer {
        Ok(answer) => Told { number: 0, answer },
        Err(number) => Told { number, answer: 0 },
    }
}

/// Votes asked for: participants, or none where a batch was given up.
fn asked(answer: Result<Option<u64>, u8>) -> Told {
    match answer {
        Ok(None) => Told { number: number::USED_UP, answer: 2 },
        Ok(Some(answer)) => told(Ok(answer)),
        Err(number) => told(Err(number)),
    }
}

fn written(length: Result<usize, u8>) -> Written {
    match length {
        Ok(length) => Written { number: 0, length: length as u8 },
        Err(number) => Written { number, length: 0 },
    }
}

/// The baseline. Its functions are never inlined into the caller, for the library's are not either.
pub struct Fast;

/// The functions of the set, each passed on to the module that has it.
macro_rules! passed_on {
    ($(fn $name:ident($($argument:ident: $kind:ty),*) -> $answer:ty = $body:expr;)*) => {
        impl Library for Fast {
            $(#[inline(never)]
            fn $name($($argument: $kind),*) -> $answer {
                $body
            })*
        }
    };
}

passed_on! {
    fn is_read_quorum(mask: u16) -> u8 = u8::from(quorum::is_read(mask));
    fn is_write_quorum(mask: u16) -> u8 = u8::from(quorum::is_write(mask));
    fn nearest_read(live: u16, distances: &[u8], asker: u8) -> Chosen = quorum::nearest_call(live, distances, asker, quorum::nearest_read);
    fn nearest_write(live: u16, distances: &[u8], asker: u8) -> Chosen = quorum::nearest_call(live, distances, asker, quorum::nearest_write);

    fn check_message(message: &[u8]) -> u8 = message::check(message);
    fn write_fetch(out: &mut [u8], to: u8, of: Transaction, object: u8, mode: u8) -> Written = written(writers::fetch(out, to, of, object, mode));
    fn write_copy(out: &mut [u8], from: u8, of: Transaction, entry: Entry) -> Written = written(writers::copy(out, from, of, entry));
    fn write_ask(out: &mut [u8], to: u8, of: Transaction, entries: &Entries) -> Written = written(writers::ask(out, to, of, entries));
    fn write_vote(out: &mut [u8], from: u8, of: Transaction, rivals: &Serials, word: u8) -> Written =
        written(writers::vote(out, from, of, rivals, word));
    fn write_outcome(out: &mut [u8], to: u8, of: Transaction, entries: &Entries, word: u8) -> Written =
        written(writers::outcome(out, to, of, entries, word));
    fn write_done(out: &mut [u8], from: u8, of: Transaction) -> Written = written(writers::done(out, from, of));
    fn write_yield(out: &mut [u8], of: Transaction, rival: u8, rival_serial: u32) -> Written =
        written(writers::yields(out, of, rival, rival_serial));

    fn check_image(image: &[u8]) -> u8 = image::check(image);
    fn blank_image(image: &mut [u8]) -> u8 = image::blank(image);
    fn take_in(image: &mut [u8], old: &[u8]) -> u8 = image::take_in(old, image);
    fn image_author(image: &[u8], object: u8) -> Author = image::author_call(image, object);
    fn replica_receive(image: &mut [u8], me: u8, message: &[u8], answer: &mut [u8]) -> Written =
        written(replica::receive(image, me, message, answer));
    fn replica_answers(image: &[u8], me: u8, message: &[u8]) -> u8 = u8::from(replica::answers(image, me, message));

    fn check_record(record: &[u8]) -> u8 = record::check(record);
    fn blank_record(record: &mut [u8]) -> u8 = record::blank(record);
    fn check_settings(settings: &[u8]) -> u8 = hours::check(settings);
    fn blank_settings(settings: &mut [u8]) -> u8 = hours::blank(settings);
    fn load_hours(settings: &mut [u8], list: &[u8]) -> u8 = hours::load(settings, list);
    fn load_classes(settings: &mut [u8], record: &[u8], me: u8, list: &[u8]) -> Told = told(classes::load_call(settings, record, me, list));
    fn settings_kind(settings: &[u8]) -> Told = told(classes::kind_call(settings));
    fn waiting(record: &[u8], settings: &[u8], class: u8) -> Told = told(classes::waiting_call(record, settings, class));
    fn begin(record: &mut [u8], settings: &mut [u8], me: u8, with: BeginWith) -> Told =
        told(coordinator::begin_call(record, settings, me, with, None));
    fn batch(record: &mut [u8], settings: &mut [u8], me: u8, with: BeginWith, list: &[u8]) -> Told =
        told(coordinator::begin_call(record, settings, me, with, Some(list)));
    fn reselect(record: &mut [u8], me: u8, live: u16, distances: &[u8]) -> Told =
        told(coordinator::on_bytes_with(record, distances, |record, distances| coordinator::reselect(record, me, true, live, distances)));
    fn open_read(record: &mut [u8], settings: &[u8], me: u8, object: u8) -> Told =
        told(coordinator::on_both(record, settings, |record, own| coordinator::open(record, me, own, object, 0)));
    fn open_write(record: &mut [u8], settings: &[u8], me: u8, object: u8) -> Told =
        told(coordinator::on_both(record, settings, |record, own| coordinator::open(record, me, own, object, 1)));
    fn set_value(record: &mut [u8], settings: &[u8], me: u8, object: u8, value: i64) -> Told =
        told(coordinator::on_both(record, settings, |record, own| coordinator::set_value(record, me, own, object, value)));
    fn found(record: &mut [u8], me: u8, object: u8) -> Told =
        told(coordinator::on_bytes(record, |record| coordinator::found(record, me, true, object)));
    fn request_commit(record: &mut [u8], settings: &[u8], me: u8) -> Told =
        asked(coordinator::on_both(record, settings, |record, own| coordinator::request_commit(record, me, true, own)));
    fn abort(record: &mut [u8], me: u8) -> Told = told(coordinator::on_bytes(record, |record| coordinator::abort(record, me, true)));
    fn receive(record: &mut [u8], me: u8, message: &[u8]) -> Told = told(coordinator::receive_call(record, me, message));
    fn due(record: &[u8], me: u8, node: u8, object: u8, out: &mut [u8]) -> Written = written(due::call(record, me, node, object, out));

    fn station_blank(lent: Lent, on: u16) -> u8 = station::blank(lent, on);
    fn station_take_in(images: &mut [u8], old: &[u8]) -> u8 = image::take_all_in(old, images);
    fn station_begin(records: &mut [u8], own: &[u8], settings: &mut [u8], node: u8, with: BeginWith) -> Told =
        told(station::begin(records, own, settings, node, with, None));
    fn station_batch(records: &mut [u8], own: &[u8], settings: &mut [u8], node: u8, with: BeginWith, list: &[u8]) -> Told =
        told(station::begin(records, own, settings, node, with, Some(list)));
    fn station_load_classes(records: &[u8], own: &[u8], settings: &mut [u8], node: u8, list: &[u8]) -> Told =
        told(station::load_classes(records, own, settings, node, list));
    fn station_load_hours(own: &[u8], settings: &mut [u8], node: u8, list: &[u8]) -> Told =
        told(station::load_hours(own, settings, node, list));
    fn station_reselect(records: &mut [u8], own: &[u8], node: u8, live: u16, distances: &[u8]) -> Told =
        told(station::reselect(records, own, node, live, distances));
    fn station_open_read(records: &mut [u8], own: &[u8], settings: &[u8], node: u8, object: u8) -> Told =
        told(station::front(records, own, settings, node, |record, on, own| coordinator::open(record, node, on && own, object, 0)));
    fn station_open_write(records: &mut [u8], own: &[u8], settings: &[u8], node: u8, object: u8) -> Told =
        told(station::front(records, own, settings, node, |record, on, own| coordinator::open(record, node, on && own, object, 1)));
    fn station_set_value(records: &mut [u8], own: &[u8], settings: &[u8], node: u8, object: u8, value: i64) -> Told =
        told(station::front(records, own, settings, node, |record, on, own| coordinator::set_value(record, node, on && own, object, value)));
    fn station_found(records: &mut [u8], own: &[u8], node: u8, object: u8) -> Told =
        told(station::host(records, own, node, |record, on| coordinator::found(record, node, on, object)));
    fn station_request_commit(records: &mut [u8], own: &[u8], settings: &[u8], node: u8) -> Told =
        asked(station::front(records, own, settings, node, |record, on, own| coordinator::request_commit(record, node, on, own)));
    fn station_abort(records: &mut [u8], own: &[u8], node: u8) -> Told =
        told(station::host(records, own, node, |record, on| coordinator::abort(record, node, on)));
    fn station_send(records: &[u8], pool: &mut [u8], own: &[u8], node: u8, to: u8, object: u8) -> Told =
        told(station::send(records, pool, own, node, to, object));
    fn station_deliver(lent: Lent, k: u8, kept: u8) -> Told = told(station::deliver(lent, k, kept != 0));
    fn station_drop(pool: &mut [u8], k: u8) -> Told = told(station::drop(pool, k));
    fn station_switch(own: &mut [u8], node: u8, up: u8) -> Told = told(station::switch(own, node, up != 0));
}
