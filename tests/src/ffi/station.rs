//! The station's C functions on its five buffers.

use super::SennaCalled;
use crate::model::buffers::Buffers;
use crate::model::coordinator::Call;
use crate::model::message::READ;
use crate::model::station::Step;

/// `senna_waiting` of the header.
#[repr(C)]
struct SennaWaiting {
    number: u8,
    place: usize,
    length: usize,
}

extern "C" {
    fn senna_station_take_in(old: *const u8, old_length: usize, images: *mut u8, images_length: usize) -> u8;
    fn senna_station_blank(
        images: *mut u8,
        images_length: usize,
        records: *mut u8,
        length: usize,
        pool: *mut u8,
        pool_length: usize,
        own: *mut u8,
        own_length: usize,
        settings: *mut u8,
        settings_length: usize,
        on: u16,
    ) -> u8;
    fn senna_station_begin(
        records: *mut u8,
        length: usize,
        own: *const u8,
        own_length: usize,
        settings: *mut u8,
        settings_length: usize,
        node: u8,
        live: u16,
        distances: *const u8,
        size: usize,
        timestamp: u32,
        day: u32,
        minute: u16,
    ) -> SennaCalled;
    fn senna_station_batch(
        records: *mut u8,
        length: usize,
        own: *const u8,
        own_length: usize,
        settings: *mut u8,
        settings_length: usize,
        node: u8,
        live: u16,
        distances: *const u8,
        distances_length: usize,
        timestamp: u32,
        day: u32,
        minute: u16,
        list: *const u8,
        size: usize,
    ) -> SennaCalled;
    fn senna_station_load_classes(
        records: *const u8,
        length: usize,
        own: *const u8,
        own_length: usize,
        settings: *mut u8,
        settings_length: usize,
        node: u8,
        list: *const u8,
        size: usize,
    ) -> SennaCalled;
    fn senna_station_load_hours(
        own: *const u8,
        own_length: usize,
        settings: *mut u8,
        settings_length: usize,
        node: u8,
        list: *const u8,
        size: usize,
    ) -> SennaCalled;
    fn senna_station_reselect(
        records: *mut u8,
        length: usize,
        own: *const u8,
        own_length: usize,
        node: u8,
        live: u16,
        distances: *const u8,
        size: usize,
    ) -> SennaCalled;
    fn senna_station_open_read(
        records: *mut u8,
        length: usize,
        own: *const u8,
        own_length: usize,
        settings: *const u8,
        settings_length: usize,
        node: u8,
        object: u8,
    ) -> SennaCalled;
    fn senna_station_open_write(
        records: *mut u8,
        length: usize,
        own: *const u8,
        own_length: usize,
        settings: *const u8,
        settings_length: usize,
        node: u8,
        object: u8,
    ) -> SennaCalled;
    fn senna_station_set_value(
        records: *mut u8,
        length: usize,
        own: *const u8,
        own_length: usize,
        settings: *const u8,
        settings_length: usize,
        node: u8,
        object: u8,
        value: i64,
    ) -> SennaCalled;
    fn senna_station_found(records: *mut u8, length: usize, own: *const u8, own_length: usize, node: u8, object: u8) -> SennaCalled;
    fn senna_station_request_commit(
        records: *mut u8,
        length: usize,
        own: *const u8,
        own_length: usize,
        settings: *const u8,
        settings_length: usize,
        node: u8,
    ) -> SennaCalled;
    fn senna_station_abort(records: *mut u8, length: usize, own: *const u8, own_length: usize, node: u8) -> SennaCalled;
    fn senna_station_send(
        records: *const u8,
        length: usize,
        pool: *mut u8,
        pool_length: usize,
        own: *const u8,
        own_length: usize,
        node: u8,
        to: u8,
        object: u8,
    ) -> SennaCalled;
    fn senna_station_deliver(
        images: *mut u8,
        images_length: usize,
        records: *mut u8,
        length: usize,
        pool: *mut u8,
        pool_length: usize,
        own: *const u8,
        own_length: usize,
        k: u8,
        kept: u8,
    ) -> SennaCalled;
    fn senna_station_drop(pool: *mut u8, pool_length: usize, k: u8) -> SennaCalled;
    fn senna_station_switch(own: *mut u8, own_length: usize, node: u8, up: u8) -> SennaCalled;
    fn senna_station_waiting(pool: *const u8, pool_length: usize) -> usize;
    fn senna_station_message(pool: *const u8, pool_length: usize, k: u8) -> SennaWaiting;
}

// SAFETY, of each function below: the library reads and writes at most the given lengths at the buffers, and reads the distances and the list; all
// are lent for the call and apart from each other.

/// The library's blank station, written to buffers; its number.
pub fn blank(it: &mut Buffers, on: u16) -> u8 {
    let Buffers { images, records, pool, own, settings } = it;
    let (a, b, c, d, e) = (images.len(), records.len(), pool.len(), own.len(), settings.len());
    let (images, records, pool) = (images.as_mut_ptr(), records.as_mut_ptr(), pool.as_mut_ptr());
    unsafe { senna_station_blank(images, a, records, b, pool, c, own.as_mut_ptr(), d, settings.as_mut_ptr(), e, on) }
}

/// The library takes a station's older images in, to a buffer; its number.
pub fn take_in(old: &[u8], images: &mut [u8]) -> u8 {
    // SAFETY: the function reads at most `old_length` bytes at `old` and writes at most `images_length` bytes at `images`, both lent for the call and apart
    // from each other.
    unsafe { senna_station_take_in(old.as_ptr(), old.len(), images.as_mut_ptr(), images.len()) }
}

fn host(it: &mut Buffers, node: u8, call: &Call) -> SennaCalled {
    let (at, length) = (it.records.as_mut_ptr(), it.records.len());
    let (own, size) = (it.own.as_ptr(), it.own.len());
    let (kept, all) = (it.settings.as_mut_ptr(), it.settings.len());
    unsafe {
        match *call {
            Call::Begin { live, distances: ref d, timestamp, day, minute } => {
                senna_station_begin(at, length, own, size, kept, all, node, live, d.as_ptr(), d.len(), timestamp, day, minute)
            }
            Call::Batch { live, distances: ref d, timestamp, day, minute, ref list } => {
                let (d, count) = (d.as_ptr(), d.len());
                let (weights, bytes) = (list.as_ptr(), list.len());
                senna_station_batch(at, length, own, size, kept, all, node, live, d, count, timestamp, day, minute, weights, bytes)
            }
            Call::Open { object, mode: READ } => senna_station_open_read(at, length, own, size, kept, all, node, object),
            Call::Open { object, .. } => senna_station_open_write(at, length, own, size, kept, all, node, object),
            Call::SetValue { object, value } => senna_station_set_value(at, length, own, size, kept, all, node, object, value),
            Call::Found { object } => senna_station_found(at, length, own, size, node, object),
            Call::Reselect { live, distances: ref d } => senna_station_reselect(at, length, own, size, node, live, d.as_ptr(), d.len()),
            Call::RequestCommit => senna_station_request_commit(at, length, own, size, kept, all, node),
            Call::Abort => senna_station_abort(at, length, own, size, node),
        }
    }
}

fn load(it: &mut Buffers, node: u8, list: &[u8]) -> SennaCalled {
    let Buffers { own, settings, .. } = it;
    let (a, b) = (own.len(), settings.len());
    unsafe { senna_station_load_hours(own.as_ptr(), a, settings.as_mut_ptr(), b, node, list.as_ptr(), list.len()) }
}

fn load_classes(it: &mut Buffers, node: u8, list: &[u8]) -> SennaCalled {
    let Buffers { records, own, settings, .. } = it;
    let (a, b, c) = (records.len(), own.len(), settings.len());
    let (records, own, settings) = (records.as_ptr(), own.as_ptr(), settings.as_mut_ptr());
    unsafe { senna_station_load_classes(records, a, own, b, settings, c, node, list.as_ptr(), list.len()) }
}

fn deliver(it: &mut Buffers, at: u8, kept: u8) -> SennaCalled {
    let Buffers { images, records, pool, own, .. } = it;
    let (a, b, c, d) = (images.len(), records.len(), pool.len(), own.len());
    unsafe { senna_station_deliver(images.as_mut_ptr(), a, records.as_mut_ptr(), b, pool.as_mut_ptr(), c, own.as_ptr(), d, at, kept) }
}

/// The byte that says yes or no: 0 is no, any other is yes.
fn byte(yes: bool, some: u8) -> u8 {
    if yes {
        some.max(1)
    } else {
        0
    }
}

/// The library's step at a station: its number and answer. A place in the pool is one byte.
pub fn step(it: &mut Buffers, step: &Step) -> (u8, i64) {
    let place = |at: usize| u8::try_from(at).expect("a place of one byte");
    let called = match *step {
        Step::Host { node, ref call } => host(it, node, call),
        Step::Load { node, ref list } => load(it, node, list),
        Step::LoadClasses { node, ref list } => load_classes(it, node, list),
        Step::Send { node, to, object } => unsafe {
            let (records, pool, own) = (&it.records, &mut it.pool, &it.own);
            let (a, b, c) = (records.len(), pool.len(), own.len());
            senna_station_send(records.as_ptr(), a, pool.as_mut_ptr(), b, own.as_ptr(), c, node, to, object)
        },
        Step::Deliver { at, kept } => deliver(it, place(at), byte(kept, place(at))),
        Step::Drop { at } => unsafe { senna_station_drop(it.pool.as_mut_ptr(), it.pool.len(), place(at)) },
        Step::Switch { node, on } => unsafe { senna_station_switch(it.own.as_mut_ptr(), it.own.len(), node, byte(on, node)) },
    };
    (called.number, called.answer)
}

/// How many messages wait, by the library.
pub fn waiting(pool: &[u8]) -> usize {
    unsafe { senna_station_waiting(pool.as_ptr(), pool.len()) }
}

/// The k-th waiting message by the library: its number, and its place and length in the pool.
pub fn message(pool: &[u8], k: u8) -> (u8, usize, usize) {
    let it = unsafe { senna_station_message(pool.as_ptr(), pool.len(), k) };
    (it.number, it.place, it.length)
}
