//! The compiled library, called through the functions of `include/senna.h`. A slice is passed as a pointer and a length.

use crate::library::{Author, BeginWith, Chosen, Entries, Entry, Lent, Library, Serials, Told, Transaction, Written};

extern "C" {
    fn senna_is_read_quorum(mask: u16) -> u8;
    fn senna_is_write_quorum(mask: u16) -> u8;
    fn senna_nearest_read(live: u16, distances: *const u8, distances_length: usize, asker: u8) -> Chosen;
    fn senna_nearest_write(live: u16, distances: *const u8, distances_length: usize, asker: u8) -> Chosen;
    fn senna_check_message(message: *const u8, message_length: usize) -> u8;
    fn senna_write_fetch(out: *mut u8, out_length: usize, to: u8, owner: u8, serial: u32, stamp: u32, object: u8, mode: u8) -> Written;
    fn senna_write_copy(out: *mut u8, out_length: usize, from: u8, owner: u8, serial: u32, stamp: u32, entry: Entry) -> Written;
    fn senna_write_ask(out: *mut u8, out_length: usize, to: u8, owner: u8, serial: u32, stamp: u32, entries: Entries) -> Written;
    fn senna_write_vote(
        out: *mut u8,
        out_length: usize,
        from: u8,
        owner: u8,
        serial: u32,
        stamp: u32,
        rivals: Serials,
        word: u8,
    ) -> Written;
    fn senna_write_outcome(
        out: *mut u8,
        out_length: usize,
        to: u8,
        owner: u8,
        serial: u32,
        stamp: u32,
        entries: Entries,
        word: u8,
    ) -> Written;
    fn senna_write_done(out: *mut u8, out_length: usize, from: u8, owner: u8, serial: u32, stamp: u32) -> Written;
    fn senna_write_yield(out: *mut u8, out_length: usize, owner: u8, serial: u32, stamp: u32, rival: u8, rival_serial: u32) -> Written;
    fn senna_check_image(image: *const u8, image_length: usize) -> u8;
    fn senna_blank_image(image: *mut u8, image_length: usize) -> u8;
    fn senna_take_in(old: *const u8, old_length: usize, image: *mut u8, image_length: usize) -> u8;
    fn senna_image_author(image: *const u8, image_length: usize, object: u8) -> Author;
    fn senna_replica_receive(
        image: *mut u8,
        image_length: usize,
        me: u8,
        message: *const u8,
        message_length: usize,
        answer: *mut u8,
        answer_length: usize,
    ) -> Written;
    fn senna_replica_answers(image: *const u8, image_length: usize, me: u8, message: *const u8, message_length: usize) -> u8;
    fn senna_check_record(record: *const u8, record_length: usize) -> u8;
    fn senna_blank_record(record: *mut u8, record_length: usize) -> u8;
    fn senna_check_settings(settings: *const u8, settings_length: usize) -> u8;
    fn senna_blank_settings(settings: *mut u8, settings_length: usize) -> u8;
    fn senna_load_hours(settings: *mut u8, settings_length: usize, list: *const u8, list_length: usize) -> u8;
    fn senna_load_classes(
        record: *const u8,
        record_length: usize,
        settings: *mut u8,
        settings_length: usize,
        me: u8,
        list: *const u8,
        list_length: usize,
    ) -> Told;
    fn senna_settings_kind(settings: *const u8, settings_length: usize) -> Told;
    fn senna_coordinator_waiting(
        record: *const u8,
        record_length: usize,
        settings: *const u8,
        settings_length: usize,
        class_number: u8,
    ) -> Told;
    fn senna_coordinator_begin(
        record: *mut u8,
        record_length: usize,
        settings: *mut u8,
        settings_length: usize,
        me: u8,
        live: u16,
        distances: *const u8,
        distances_length: usize,
        timestamp: u32,
        day: u32,
        minute: u16,
    ) -> Told;
    fn senna_coordinator_batch(
        record: *mut u8,
        record_length: usize,
        settings: *mut u8,
        settings_length: usize,
        me: u8,
        live: u16,
        distances: *const u8,
        distances_length: usize,
        timestamp: u32,
        day: u32,
        minute: u16,
        list: *const u8,
        list_length: usize,
    ) -> Told;
    fn senna_coordinator_reselect(
        record: *mut u8,
        record_length: usize,
        me: u8,
        live: u16,
        distances: *const u8,
        distances_length: usize,
    ) -> Told;
    fn senna_coordinator_open_read(
        record: *mut u8,
        record_length: usize,
        settings: *const u8,
        settings_length: usize,
        me: u8,
        object: u8,
    ) -> Told;
    fn senna_coordinator_open_write(
        record: *mut u8,
        record_length: usize,
        settings: *const u8,
        settings_length: usize,
        me: u8,
        object: u8,
    ) -> Told;
    fn senna_coordinator_set_value(
        record: *mut u8,
        record_length: usize,
        settings: *const u8,
        settings_length: usize,
        me: u8,
        object: u8,
        value: i64,
    ) -> Told;
    fn senna_coordinator_found(record: *mut u8, record_length: usize, me: u8, object: u8) -> Told;
    fn senna_coordinator_request_commit(record: *mut u8, record_length: usize, settings: *const u8, settings_length: usize, me: u8)
        -> Told;
    fn senna_coordinator_abort(record: *mut u8, record_length: usize, me: u8) -> Told;
    fn senna_coordinator_receive(record: *mut u8, record_length: usize, me: u8, message: *const u8, message_length: usize) -> Told;
    fn senna_coordinator_due(
        record: *const u8,
        record_length: usize,
        me: u8,
        node: u8,
        object: u8,
        out: *mut u8,
        out_length: usize,
    ) -> Written;
    fn senna_station_take_in(old: *const u8, old_length: usize, images: *mut u8, images_length: usize) -> u8;
    fn senna_station_blank(
        images: *mut u8,
        images_length: usize,
        records: *mut u8,
        records_length: usize,
        pool: *mut u8,
        pool_length: usize,
        own: *mut u8,
        own_length: usize,
        settings: *mut u8,
        settings_length: usize,
        on: u16,
    ) -> u8;
    fn senna_station_begin(
        records: *mut u8,
        records_length: usize,
        own: *const u8,
        own_length: usize,
        settings: *mut u8,
        settings_length: usize,
        node: u8,
        live: u16,
        distances: *const u8,
        distances_length: usize,
        timestamp: u32,
        day: u32,
        minute: u16,
    ) -> Told;
    fn senna_station_batch(
        records: *mut u8,
        records_length: usize,
        own: *const u8,
        own_length: usize,
        settings: *mut u8,
        settings_length: usize,
        node: u8,
        live: u16,
        distances: *const u8,
        distances_length: usize,
        timestamp: u32,
        day: u32,
        minute: u16,
        list: *const u8,
        list_length: usize,
    ) -> Told;
    fn senna_station_load_classes(
        records: *const u8,
        records_length: usize,
        own: *const u8,
        own_length: usize,
        settings: *mut u8,
        settings_length: usize,
        node: u8,
        list: *const u8,
        list_length: usize,
    ) -> Told;
    fn senna_station_load_hours(
        own: *const u8,
        own_length: usize,
        settings: *mut u8,
        settings_length: usize,
        node: u8,
        list: *const u8,
        list_length: usize,
    ) -> Told;
    fn senna_station_reselect(
        records: *mut u8,
        records_length: usize,
        own: *const u8,
        own_length: usize,
        node: u8,
        live: u16,
        distances: *const u8,
        distances_length: usize,
    ) -> Told;
    fn senna_station_open_read(
        records: *mut u8,
        records_length: usize,
        own: *const u8,
        own_length: usize,
        settings: *const u8,
        settings_length: usize,
        node: u8,
        object: u8,
    ) -> Told;
    fn senna_station_open_write(
        records: *mut u8,
        records_length: usize,
        own: *const u8,
        own_length: usize,
        settings: *const u8,
        settings_length: usize,
        node: u8,
        object: u8,
    ) -> Told;
    fn senna_station_set_value(
        records: *mut u8,
        records_length: usize,
        own: *const u8,
        own_length: usize,
        settings: *const u8,
        settings_length: usize,
        node: u8,
        object: u8,
        value: i64,
    ) -> Told;
    fn senna_station_found(records: *mut u8, records_length: usize, own: *const u8, own_length: usize, node: u8, object: u8) -> Told;
    fn senna_station_request_commit(
        records: *mut u8,
        records_length: usize,
        own: *const u8,
        own_length: usize,
        settings: *const u8,
        settings_length: usize,
        node: u8,
    ) -> Told;
    fn senna_station_abort(records: *mut u8, records_length: usize, own: *const u8, own_length: usize, node: u8) -> Told;
    fn senna_station_send(
        records: *const u8,
        records_length: usize,
        pool: *mut u8,
        pool_length: usize,
        own: *const u8,
        own_length: usize,
        node: u8,
        to: u8,
        object: u8,
    ) -> Told;
    fn senna_station_deliver(
        images: *mut u8,
        images_length: usize,
        records: *mut u8,
        records_length: usize,
        pool: *mut u8,
        pool_length: usize,
        own: *const u8,
        own_length: usize,
        k: u8,
        kept: u8,
    ) -> Told;
    fn senna_station_drop(pool: *mut u8, pool_length: usize, k: u8) -> Told;
    fn senna_station_switch(own: *mut u8, own_length: usize, node: u8, up: u8) -> Told;
}

pub struct Product;

// SAFETY, of each call: the library reads and writes at most the given lengths at the lent bytes, which are lent for the call and apart from
// each other, and takes all else by value.
impl Library for Product {
    #[inline(always)]
    fn is_read_quorum(mask: u16) -> u8 {
        unsafe { senna_is_read_quorum(mask) }
    }
    #[inline(always)]
    fn is_write_quorum(mask: u16) -> u8 {
        unsafe { senna_is_write_quorum(mask) }
    }
    #[inline(always)]
    fn nearest_read(live: u16, distances: &[u8], asker: u8) -> Chosen {
        unsafe { senna_nearest_read(live, distances.as_ptr(), distances.len(), asker) }
    }
    #[inline(always)]
    fn nearest_write(live: u16, distances: &[u8], asker: u8) -> Chosen {
        unsafe { senna_nearest_write(live, distances.as_ptr(), distances.len(), asker) }
    }

    #[inline(always)]
    fn check_message(message: &[u8]) -> u8 {
        unsafe { senna_check_message(message.as_ptr(), message.len()) }
    }
    #[inline(always)]
    fn write_fetch(out: &mut [u8], to: u8, of: Transaction, object: u8, mode: u8) -> Written {
        unsafe { senna_write_fetch(out.as_mut_ptr(), out.len(), to, of.owner, of.serial, of.stamp, object, mode) }
    }
    #[inline(always)]
    fn write_copy(out: &mut [u8], from: u8, of: Transaction, entry: Entry) -> Written {
        unsafe { senna_write_copy(out.as_mut_ptr(), out.len(), from, of.owner, of.serial, of.stamp, entry) }
    }
    #[inline(always)]
    fn write_ask(out: &mut [u8], to: u8, of: Transaction, entries: &Entries) -> Written {
        unsafe { senna_write_ask(out.as_mut_ptr(), out.len(), to, of.owner, of.serial, of.stamp, *entries) }
    }
    #[inline(always)]
    fn write_vote(out: &mut [u8], from: u8, of: Transaction, rivals: &Serials, word: u8) -> Written {
        unsafe { senna_write_vote(out.as_mut_ptr(), out.len(), from, of.owner, of.serial, of.stamp, *rivals, word) }
    }
    #[inline(always)]
    fn write_outcome(out: &mut [u8], to: u8, of: Transaction, entries: &Entries, word: u8) -> Written {
        unsafe { senna_write_outcome(out.as_mut_ptr(), out.len(), to, of.owner, of.serial, of.stamp, *entries, word) }
    }
    #[inline(always)]
    fn write_done(out: &mut [u8], from: u8, of: Transaction) -> Written {
        unsafe { senna_write_done(out.as_mut_ptr(), out.len(), from, of.owner, of.serial, of.stamp) }
    }
    #[inline(always)]
    fn write_yield(out: &mut [u8], of: Transaction, rival: u8, rival_serial: u32) -> Written {
        unsafe { senna_write_yield(out.as_mut_ptr(), out.len(), of.owner, of.serial, of.stamp, rival, rival_serial) }
    }

    #[inline(always)]
    fn check_image(image: &[u8]) -> u8 {
        unsafe { senna_check_image(image.as_ptr(), image.len()) }
    }
    #[inline(always)]
    fn blank_image(image: &mut [u8]) -> u8 {
        unsafe { senna_blank_image(image.as_mut_ptr(), image.len()) }
    }
    #[inline(always)]
    fn take_in(image: &mut [u8], old: &[u8]) -> u8 {
        unsafe { senna_take_in(old.as_ptr(), old.len(), image.as_mut_ptr(), image.len()) }
    }
    #[inline(always)]
    fn station_take_in(images: &mut [u8], old: &[u8]) -> u8 {
        unsafe { senna_station_take_in(old.as_ptr(), old.len(), images.as_mut_ptr(), images.len()) }
    }
    #[inline(always)]
    fn image_author(image: &[u8], object: u8) -> Author {
        unsafe { senna_image_author(image.as_ptr(), image.len(), object) }
    }
    #[inline(always)]
    fn replica_receive(image: &mut [u8], me: u8, message: &[u8], answer: &mut [u8]) -> Written {
        unsafe {
            senna_replica_receive(image.as_mut_ptr(), image.len(), me, message.as_ptr(), message.len(), answer.as_mut_ptr(), answer.len())
        }
    }
    #[inline(always)]
    fn replica_answers(image: &[u8], me: u8, message: &[u8]) -> u8 {
        unsafe { senna_replica_answers(image.as_ptr(), image.len(), me, message.as_ptr(), message.len()) }
    }

    #[inline(always)]
    fn check_record(record: &[u8]) -> u8 {
        unsafe { senna_check_record(record.as_ptr(), record.len()) }
    }
    #[inline(always)]
    fn blank_record(record: &mut [u8]) -> u8 {
        unsafe { senna_blank_record(record.as_mut_ptr(), record.len()) }
    }
    #[inline(always)]
    fn check_settings(settings: &[u8]) -> u8 {
        unsafe { senna_check_settings(settings.as_ptr(), settings.len()) }
    }
    #[inline(always)]
    fn blank_settings(settings: &mut [u8]) -> u8 {
        unsafe { senna_blank_settings(settings.as_mut_ptr(), settings.len()) }
    }
    #[inline(always)]
    fn load_hours(settings: &mut [u8], list: &[u8]) -> u8 {
        unsafe { senna_load_hours(settings.as_mut_ptr(), settings.len(), list.as_ptr(), list.len()) }
    }
    #[inline(always)]
    fn load_classes(settings: &mut [u8], record: &[u8], me: u8, list: &[u8]) -> Told {
        let (at, length) = (settings.as_mut_ptr(), settings.len());
        unsafe { senna_load_classes(record.as_ptr(), record.len(), at, length, me, list.as_ptr(), list.len()) }
    }
    #[inline(always)]
    fn settings_kind(settings: &[u8]) -> Told {
        unsafe { senna_settings_kind(settings.as_ptr(), settings.len()) }
    }
    #[inline(always)]
    fn waiting(record: &[u8], settings: &[u8], class: u8) -> Told {
        unsafe { senna_coordinator_waiting(record.as_ptr(), record.len(), settings.as_ptr(), settings.len(), class) }
    }
    #[inline(always)]
    fn batch(record: &mut [u8], settings: &mut [u8], me: u8, with: BeginWith, list: &[u8]) -> Told {
        let BeginWith { live, distances, timestamp, day, minute } = with;
        unsafe {
            senna_coordinator_batch(
                record.as_mut_ptr(),
                record.len(),
                settings.as_mut_ptr(),
                settings.len(),
                me,
                live,
                distances.as_ptr(),
                distances.len(),
                timestamp,
                day,
                minute,
                list.as_ptr(),
                list.len(),
            )
        }
    }
    #[inline(always)]
    fn begin(record: &mut [u8], settings: &mut [u8], me: u8, with: BeginWith) -> Told {
        let BeginWith { live, distances, timestamp, day, minute } = with;
        unsafe {
            senna_coordinator_begin(
                record.as_mut_ptr(),
                record.len(),
                settings.as_mut_ptr(),
                settings.len(),
                me,
                live,
                distances.as_ptr(),
                distances.len(),
                timestamp,
                day,
                minute,
            )
        }
    }
    #[inline(always)]
    fn reselect(record: &mut [u8], me: u8, live: u16, distances: &[u8]) -> Told {
        unsafe { senna_coordinator_reselect(record.as_mut_ptr(), record.len(), me, live, distances.as_ptr(), distances.len()) }
    }
    #[inline(always)]
    fn open_read(record: &mut [u8], settings: &[u8], me: u8, object: u8) -> Told {
        unsafe { senna_coordinator_open_read(record.as_mut_ptr(), record.len(), settings.as_ptr(), settings.len(), me, object) }
    }
    #[inline(always)]
    fn open_write(record: &mut [u8], settings: &[u8], me: u8, object: u8) -> Told {
        unsafe { senna_coordinator_open_write(record.as_mut_ptr(), record.len(), settings.as_ptr(), settings.len(), me, object) }
    }
    #[inline(always)]
    fn set_value(record: &mut [u8], settings: &[u8], me: u8, object: u8, value: i64) -> Told {
        unsafe { senna_coordinator_set_value(record.as_mut_ptr(), record.len(), settings.as_ptr(), settings.len(), me, object, value) }
    }
    #[inline(always)]
    fn found(record: &mut [u8], me: u8, object: u8) -> Told {
        unsafe { senna_coordinator_found(record.as_mut_ptr(), record.len(), me, object) }
    }
    #[inline(always)]
    fn request_commit(record: &mut [u8], settings: &[u8], me: u8) -> Told {
        unsafe { senna_coordinator_request_commit(record.as_mut_ptr(), record.len(), settings.as_ptr(), settings.len(), me) }
    }
    #[inline(always)]
    fn abort(record: &mut [u8], me: u8) -> Told {
        unsafe { senna_coordinator_abort(record.as_mut_ptr(), record.len(), me) }
    }
    #[inline(always)]
    fn receive(record: &mut [u8], me: u8, message: &[u8]) -> Told {
        unsafe { senna_coordinator_receive(record.as_mut_ptr(), record.len(), me, message.as_ptr(), message.len()) }
    }
    #[inline(always)]
    fn due(record: &[u8], me: u8, node: u8, object: u8, out: &mut [u8]) -> Written {
        unsafe { senna_coordinator_due(record.as_ptr(), record.len(), me, node, object, out.as_mut_ptr(), out.len()) }
    }

    #[inline(always)]
    fn station_blank(lent: Lent, on: u16) -> u8 {
        unsafe {
            senna_station_blank(
                lent.images.as_mut_ptr(),
                lent.images.len(),
                lent.records.as_mut_ptr(),
                lent.records.len(),
                lent.pool.as_mut_ptr(),
                lent.pool.len(),
                lent.own.as_mut_ptr(),
                lent.own.len(),
                lent.settings.as_mut_ptr(),
                lent.settings.len(),
                on,
            )
        }
    }
    #[inline(always)]
    fn station_batch(records: &mut [u8], own: &[u8], settings: &mut [u8], node: u8, with: BeginWith, list: &[u8]) -> Told {
        let BeginWith { live, distances, timestamp, day, minute } = with;
        unsafe {
            senna_station_batch(
                records.as_mut_ptr(),
                records.len(),
                own.as_ptr(),
                own.len(),
                settings.as_mut_ptr(),
                settings.len(),
                node,
                live,
                distances.as_ptr(),
                distances.len(),
                timestamp,
                day,
                minute,
                list.as_ptr(),
                list.len(),
            )
        }
    }
    #[inline(always)]
    fn station_load_classes(records: &[u8], own: &[u8], settings: &mut [u8], node: u8, list: &[u8]) -> Told {
        let (at, length) = (settings.as_mut_ptr(), settings.len());
        unsafe {
            senna_station_load_classes(
                records.as_ptr(),
                records.len(),
                own.as_ptr(),
                own.len(),
                at,
                length,
                node,
                list.as_ptr(),
                list.len(),
            )
        }
    }
    #[inline(always)]
    fn station_begin(records: &mut [u8], own: &[u8], settings: &mut [u8], node: u8, with: BeginWith) -> Told {
        let BeginWith { live, distances, timestamp, day, minute } = with;
        unsafe {
            senna_station_begin(
                records.as_mut_ptr(),
                records.len(),
                own.as_ptr(),
                own.len(),
                settings.as_mut_ptr(),
                settings.len(),
                node,
                live,
                distances.as_ptr(),
                distances.len(),
                timestamp,
                day,
                minute,
            )
        }
    }
    #[inline(always)]
    fn station_load_hours(own: &[u8], settings: &mut [u8], node: u8, list: &[u8]) -> Told {
        unsafe { senna_station_load_hours(own.as_ptr(), own.len(), settings.as_mut_ptr(), settings.len(), node, list.as_ptr(), list.len()) }
    }
    #[inline(always)]
    fn station_reselect(records: &mut [u8], own: &[u8], node: u8, live: u16, distances: &[u8]) -> Told {
        unsafe {
            senna_station_reselect(
                records.as_mut_ptr(),
                records.len(),
                own.as_ptr(),
                own.len(),
                node,
                live,
                distances.as_ptr(),
                distances.len(),
            )
        }
    }
    #[inline(always)]
    fn station_open_read(records: &mut [u8], own: &[u8], settings: &[u8], node: u8, object: u8) -> Told {
        let (at, length) = (settings.as_ptr(), settings.len());
        unsafe { senna_station_open_read(records.as_mut_ptr(), records.len(), own.as_ptr(), own.len(), at, length, node, object) }
    }
    #[inline(always)]
    fn station_open_write(records: &mut [u8], own: &[u8], settings: &[u8], node: u8, object: u8) -> Told {
        let (at, length) = (settings.as_ptr(), settings.len());
        unsafe { senna_station_open_write(records.as_mut_ptr(), records.len(), own.as_ptr(), own.len(), at, length, node, object) }
    }
    #[inline(always)]
    fn station_set_value(records: &mut [u8], own: &[u8], settings: &[u8], node: u8, object: u8, value: i64) -> Told {
        let (at, length) = (settings.as_ptr(), settings.len());
        unsafe { senna_station_set_value(records.as_mut_ptr(), records.len(), own.as_ptr(), own.len(), at, length, node, object, value) }
    }
    #[inline(always)]
    fn station_found(records: &mut [u8], own: &[u8], node: u8, object: u8) -> Told {
        unsafe { senna_station_found(records.as_mut_ptr(), records.len(), own.as_ptr(), own.len(), node, object) }
    }
    #[inline(always)]
    fn station_request_commit(records: &mut [u8], own: &[u8], settings: &[u8], node: u8) -> Told {
        let (at, length) = (settings.as_ptr(), settings.len());
        unsafe { senna_station_request_commit(records.as_mut_ptr(), records.len(), own.as_ptr(), own.len(), at, length, node) }
    }
    #[inline(always)]
    fn station_abort(records: &mut [u8], own: &[u8], node: u8) -> Told {
        unsafe { senna_station_abort(records.as_mut_ptr(), records.len(), own.as_ptr(), own.len(), node) }
    }
    #[inline(always)]
    fn station_send(records: &[u8], pool: &mut [u8], own: &[u8], node: u8, to: u8, object: u8) -> Told {
        unsafe {
            senna_station_send(records.as_ptr(), records.len(), pool.as_mut_ptr(), pool.len(), own.as_ptr(), own.len(), node, to, object)
        }
    }
    #[inline(always)]
    fn station_deliver(lent: Lent, k: u8, kept: u8) -> Told {
        unsafe {
            senna_station_deliver(
                lent.images.as_mut_ptr(),
                lent.images.len(),
                lent.records.as_mut_ptr(),
                lent.records.len(),
                lent.pool.as_mut_ptr(),
                lent.pool.len(),
                lent.own.as_ptr(),
                lent.own.len(),
                k,
                kept,
            )
        }
    }
    #[inline(always)]
    fn station_drop(pool: &mut [u8], k: u8) -> Told {
        unsafe { senna_station_drop(pool.as_mut_ptr(), pool.len(), k) }
    }
    #[inline(always)]
    fn station_switch(own: &mut [u8], node: u8, up: u8) -> Told {
        unsafe { senna_station_switch(own.as_mut_ptr(), own.len(), node, up) }
    }
}
