//! The coordinator's C functions on the bytes of a record and of settings.

use super::{SennaCalled, SennaWritten};
use crate::model::coordinator::Call;
use crate::model::message::READ;

extern "C" {
    fn senna_check_record(record: *const u8, length: usize) -> u8;
    fn senna_blank_record(record: *mut u8, length: usize) -> u8;
    fn senna_check_settings(settings: *const u8, length: usize) -> u8;
    fn senna_blank_settings(settings: *mut u8, length: usize) -> u8;
    fn senna_load_hours(settings: *mut u8, length: usize, list: *const u8, size: usize) -> u8;
    fn senna_load_classes(
        record: *const u8,
        length: usize,
        settings: *mut u8,
        settings_length: usize,
        me: u8,
        list: *const u8,
        size: usize,
    ) -> SennaCalled;
    fn senna_settings_kind(settings: *const u8, length: usize) -> SennaCalled;
    fn senna_coordinator_waiting(
        record: *const u8,
        length: usize,
        settings: *const u8,
        settings_length: usize,
        class_number: u8,
    ) -> SennaCalled;
    fn senna_coordinator_begin(
        record: *mut u8,
        length: usize,
        settings: *mut u8,
        settings_length: usize,
        me: u8,
        live: u16,
        distances: *const u8,
        size: usize,
        timestamp: u32,
        day: u32,
        minute: u16,
    ) -> SennaCalled;
    fn senna_coordinator_batch(
        record: *mut u8,
        length: usize,
        settings: *mut u8,
        settings_length: usize,
        me: u8,
        live: u16,
        distances: *const u8,
        distances_length: usize,
        timestamp: u32,
        day: u32,
        minute: u16,
        list: *const u8,
        size: usize,
    ) -> SennaCalled;
    fn senna_coordinator_open_read(
        record: *mut u8,
        length: usize,
        settings: *const u8,
        settings_length: usize,
        me: u8,
        object: u8,
    ) -> SennaCalled;
    fn senna_coordinator_open_write(
        record: *mut u8,
        length: usize,
        settings: *const u8,
        settings_length: usize,
        me: u8,
        object: u8,
    ) -> SennaCalled;
    fn senna_coordinator_set_value(
        record: *mut u8,
        length: usize,
        settings: *const u8,
        settings_length: usize,
        me: u8,
        object: u8,
        value: i64,
    ) -> SennaCalled;
    fn senna_coordinator_found(record: *mut u8, length: usize, me: u8, object: u8) -> SennaCalled;
    fn senna_coordinator_reselect(record: *mut u8, length: usize, me: u8, live: u16, distances: *const u8, size: usize) -> SennaCalled;
    fn senna_coordinator_request_commit(record: *mut u8, length: usize, settings: *const u8, settings_length: usize, me: u8)
        -> SennaCalled;
    fn senna_coordinator_abort(record: *mut u8, length: usize, me: u8) -> SennaCalled;
    fn senna_coordinator_receive(record: *mut u8, length: usize, me: u8, message: *const u8, size: usize) -> SennaCalled;
    fn senna_coordinator_due(record: *const u8, length: usize, me: u8, node: u8, object: u8, out: *mut u8, size: usize) -> SennaWritten;
}

/// The library's number for the bytes of a record.
pub fn check_record(record: &[u8]) -> u8 {
    // SAFETY: the function reads at most `length` bytes at `record`, which are lent for the call.
    unsafe { senna_check_record(record.as_ptr(), record.len()) }
}

/// The library's blank record, written to a buffer; its number.
pub fn blank_record(record: &mut [u8]) -> u8 {
    // SAFETY: the function writes at most `length` bytes at `record`, which are lent for the call.
    unsafe { senna_blank_record(record.as_mut_ptr(), record.len()) }
}

/// The library's number for the bytes of settings.
pub fn check_settings(settings: &[u8]) -> u8 {
    // SAFETY: the function reads at most `length` bytes at `settings`, which are lent for the call.
    unsafe { senna_check_settings(settings.as_ptr(), settings.len()) }
}

/// The library's blank settings, written to a buffer; its number.
pub fn blank_settings(settings: &mut [u8]) -> u8 {
    // SAFETY: the function writes at most `length` bytes at `settings`, which are lent for the call.
    unsafe { senna_blank_settings(settings.as_mut_ptr(), settings.len()) }
}

/// The library's loading of a table of packing hours; its number.
pub fn load_hours(settings: &mut [u8], list: &[u8]) -> u8 {
    // SAFETY: the function reads and writes at most `length` bytes at `settings` and reads at most `size` bytes at `list`, all lent for the call and
    // apart from each other.
    unsafe { senna_load_hours(settings.as_mut_ptr(), settings.len(), list.as_ptr(), list.len()) }
}

/// The library's loading of a table of weight classes; its number and answer.
pub fn load_classes(record: &[u8], settings: &mut [u8], me: u8, list: &[u8]) -> (u8, i64) {
    let (at, length) = (settings.as_mut_ptr(), settings.len());
    // SAFETY: the function reads and writes at most the given length at `settings` and reads at most the given lengths at `record` and `list`, all lent for
    // the call and apart from each other.
    let called = unsafe { senna_load_classes(record.as_ptr(), record.len(), at, length, me, list.as_ptr(), list.len()) };
    (called.number, called.answer)
}

/// The library's word on the kind of the last transaction; its number and answer.
pub fn settings_kind(settings: &[u8]) -> (u8, i64) {
    // SAFETY: the function reads at most `length` bytes at `settings`, which are lent for the call.
    let called = unsafe { senna_settings_kind(settings.as_ptr(), settings.len()) };
    (called.number, called.answer)
}

/// The tenths that wait in a class, by the library; its number and answer.
pub fn waiting(record: &[u8], settings: &[u8], class: u8) -> (u8, i64) {
    // SAFETY: the function reads at most the given lengths at `record` and `settings`, which are lent for the call.
    let called = unsafe { senna_coordinator_waiting(record.as_ptr(), record.len(), settings.as_ptr(), settings.len(), class) };
    (called.number, called.answer)
}

/// The library's host call on a record and settings of node `me`: its number and answer. The settings are lent to those that ask for them.
pub fn host_call(record: &mut [u8], settings: &mut [u8], me: u8, call: &Call) -> (u8, i64) {
    let (at, length) = (record.as_mut_ptr(), record.len());
    let (kept, size) = (settings.as_mut_ptr(), settings.len());
    // SAFETY: each function reads and writes at most `length` bytes at `record` and at most `size` bytes at `settings`, and reads at most the given
    // lengths at `distances` and `list`, all lent for the call and apart from each other.
    let called = unsafe {
        match *call {
            Call::Begin { live, distances: ref d, timestamp, day, minute } => {
                senna_coordinator_begin(at, length, kept, size, me, live, d.as_ptr(), d.len(), timestamp, day, minute)
            }
            Call::Batch { live, distances: ref d, timestamp, day, minute, ref list } => {
                let (weights, bytes) = (list.as_ptr(), list.len());
                let (d, count) = (d.as_ptr(), d.len());
                senna_coordinator_batch(at, length, kept, size, me, live, d, count, timestamp, day, minute, weights, bytes)
            }
            Call::Open { object, mode: READ } => senna_coordinator_open_read(at, length, kept, size, me, object),
            Call::Open { object, .. } => senna_coordinator_open_write(at, length, kept, size, me, object),
            Call::SetValue { object, value } => senna_coordinator_set_value(at, length, kept, size, me, object, value),
            Call::Found { object } => senna_coordinator_found(at, length, me, object),
            Call::Reselect { live, ref distances } => senna_coordinator_reselect(at, length, me, live, distances.as_ptr(), distances.len()),
            Call::RequestCommit => senna_coordinator_request_commit(at, length, kept, size, me),
            Call::Abort => senna_coordinator_abort(at, length, me),
        }
    };
    (called.number, called.answer)
}

/// The library's delivery of a message to the coordinator of node `me`: its number and answer.
pub fn receive(record: &mut [u8], me: u8, message: &[u8]) -> (u8, i64) {
    // SAFETY: the function reads and writes at most `length` bytes at `record` and reads at most `size` bytes at `message`, all lent for the
    // call and apart from each other.
    let called = unsafe { senna_coordinator_receive(record.as_mut_ptr(), record.len(), me, message.as_ptr(), message.len()) };
    (called.number, called.answer)
}

/// What the library writes as due: its number and the message's length.
pub fn due(record: &[u8], me: u8, node: u8, object: u8, out: &mut [u8]) -> (u8, u8) {
    // SAFETY: the function reads at most `length` bytes at `record` and writes at most `size` bytes at `out`, all lent for the call and
    // apart from each other.
    let written = unsafe { senna_coordinator_due(record.as_ptr(), record.len(), me, node, object, out.as_mut_ptr(), out.len()) };
    (written.number, written.length)
}
