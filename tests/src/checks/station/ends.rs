//! A step of the model's station against the calls on bytes that it stands for: a coordinator's on its record and settings, a replica's on its
//! image.

use crate::ffi;
use crate::model::coordinator::{due_call, host_call, receive_call, Call};
use crate::model::message::{self, Message, LONGEST};
use crate::model::settings::{self, load_classes_call, load_hours_call};
use crate::model::station::{for_replica, Event, Station, Step, Told, POOL};
use crate::model::{image, number, record};
use crate::runner::ensure;

/// A coordinator's calls on the bytes of a record and of settings: the model's own, or a library's.
#[derive(Clone, Copy)]
pub struct Ends {
    pub host: fn(&mut [u8], &mut [u8], u8, &Call) -> (u8, i64),
    pub load: fn(&mut [u8], &[u8]) -> u8,
    pub load_classes: fn(&[u8], &mut [u8], u8, &[u8]) -> (u8, i64),
    pub receive: fn(&mut [u8], u8, &[u8]) -> (u8, i64),
    pub due: fn(&[u8], u8, u8, u8, &mut [u8]) -> (u8, u8),
}

/// The model's own.
pub const MODEL: Ends = Ends {
    host: |record, settings, me, call| match host_call(record, settings, me, call) {
        Err(number) => (number, 0),
        Ok(left) => {
            record.copy_from_slice(&left.record);
            settings.copy_from_slice(&left.settings);
            (left.done.number, left.done.answer)
        }
    },
    load: |settings, list| leave(settings, load_hours_call(settings, list)),
    load_classes: |record, settings, me, list| (leave(settings, load_classes_call(record, settings, me, list)), 0),
    receive: |record, me, message| match receive_call(record, me, message) {
        Err(number) => (number, 0),
        Ok(left) => {
            record.copy_from_slice(&left.record);
            (number::OK, left.answer)
        }
    },
    due: |record, me, node, object, out| match due_call(record, me, node, object, out.len()) {
        Err(number) => (number, 0),
        Ok(bytes) => {
            out[..bytes.len()].copy_from_slice(&bytes);
            (number::OK, bytes.len() as u8)
        }
    },
};

fn leave(bytes: &mut [u8], left: Result<Vec<u8>, u8>) -> u8 {
    match left {
        Err(number) => number,
        Ok(left) => {
            bytes.copy_from_slice(&left);
            number::OK
        }
    }
}

/// The number and answer of a step.
pub fn answered(told: &Result<Told, u8>) -> (u8, i64) {
    match told {
        Ok(told) => (told.number, told.answer),
        Err(number) => (*number, 0),
    }
}

/// The bytes of the message that a step put into the pool; none where it put none.
fn put(told: &Result<Told, u8>) -> Vec<u8> {
    told.as_ref().ok().and_then(|told| told.put.as_ref()).map(message::encode).unwrap_or_default()
}

/// A delivery at a node that is on: to the coordinator, or to the compiled replica.
fn delivered(ends: Ends, before: &Station, event: &Event, after: &Station, message: &Message) -> bool {
    let (to, sent) = (usize::from(message.to), message::encode(message));
    if for_replica(message) {
        let mut bytes = image::encode(&before.images[to]);
        let mut answer = vec![0; LONGEST];
        let (number, length) = ffi::replica_receive(&mut bytes, message.to, &sent, &mut answer);
        return number == answered(&event.told).0
            && answer[..usize::from(length)] == put(&event.told)
            && bytes == image::encode(&after.images[to]);
    }
    let mut bytes = record::encode(&before.records[to]);
    (ends.receive)(&mut bytes, message.to, &sent) == answered(&event.told) && bytes == record::encode(&after.records[to])
}

/// A step is what the call on bytes gives. Steps that reach no end, and those that the station itself refuses, are let be.
pub fn same(ends: Ends, before: &Station, event: &Event, after: &Station) -> Result<(), String> {
    let full = before.pool.len() == POOL;
    let agrees = match event.step {
        Step::Host { node, ref call } if node < 13 && before.is_on(node) => {
            let at = usize::from(node);
            let (mut bytes, mut kept) = (record::encode(&before.records[at]), settings::encode(&before.settings[at]));
            let told = (ends.host)(&mut bytes, &mut kept, node, call);
            let same = bytes == record::encode(&after.records[at]) && kept == settings::encode(&after.settings[at]);
            told == answered(&event.told) && same
        }
        Step::Load { node, ref list } if node < 13 && before.is_on(node) => {
            let mut kept = settings::encode(&before.settings[usize::from(node)]);
            let number = (ends.load)(&mut kept, list);
            number == answered(&event.told).0 && kept == settings::encode(&after.settings[usize::from(node)])
        }
        Step::LoadClasses { node, ref list } if node < 13 && before.is_on(node) => {
            let at = usize::from(node);
            let mut kept = settings::encode(&before.settings[at]);
            let told = (ends.load_classes)(&record::encode(&before.records[at]), &mut kept, node, list);
            told == answered(&event.told) && kept == settings::encode(&after.settings[at])
        }
        Step::Send { node, to, object } if node < 13 && before.is_on(node) && !full => {
            let mut out = vec![0; LONGEST];
            let (number, length) = (ends.due)(&record::encode(&before.records[usize::from(node)]), node, to, object, &mut out);
            number == answered(&event.told).0 && out[..usize::from(length)] == put(&event.told)
        }
        Step::Deliver { at, .. } if !full => {
            let message = before.pool.get(at).filter(|message| before.is_on(message.to));
            message.is_none_or(|message| delivered(ends, before, event, after, message))
        }
        _ => true,
    };
    ensure!(agrees, "{event:?} is another on bytes");
    Ok(())
}
