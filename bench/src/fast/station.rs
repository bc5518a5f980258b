//! The station's steps over five lent buffers.

use super::bytes::{get_u16, put_u16};
use super::hours::Settings;
use super::image::{self, Image};
use super::kind::{ASK, FETCH, OUTCOME};
use super::pool::{self, Pool};
use super::record::{self, Record};
use super::replica::{self, Plan};
use super::{classes, coordinator, due, hours, message, number, Answer};
use crate::library::{BeginWith, Lent, ALL, DISTANCES, IMAGES, OWN, RECORDS, STATION_SETTINGS, WAITING};

/// Lent bytes of a length, or 1.
#[inline(always)]
fn sized<const N: usize>(bytes: &[u8]) -> Result<&[u8; N], u8> {
    bytes.try_into().map_err(|_| number::LENGTH)
}

#[inline(always)]
fn sized_mut<const N: usize>(bytes: &mut [u8]) -> Result<&mut [u8; N], u8> {
    bytes.try_into().map_err(|_| number::LENGTH)
}

/// The nodes that are on, or 2.
#[inline(always)]
fn nodes_on(own: &[u8; OWN]) -> Result<u16, u8> {
    let on = get_u16(own, 0);
    if on > ALL {
        Err(number::DAMAGED)
    } else {
        Ok(on)
    }
}

#[inline(always)]
fn is_on(on: u16, node: u8) -> bool {
    on >> (node & 15) & 1 == 1
}

/// A node's record, found in order; 2 where it is not, 4 for what is no node.
#[inline(always)]
fn record_of(records: &mut [u8; RECORDS], node: u8) -> Result<&mut Record, u8> {
    if node > 12 {
        return Err(number::STRANGER);
    }
    let record: &mut Record = &mut records.as_chunks_mut().0[usize::from(node)];
    if record::is_valid(record) {
        Ok(record)
    } else {
        Err(number::DAMAGED)
    }
}

/// A host call at a node.
#[inline(always)]
pub fn host(records: &mut [u8], own: &[u8], node: u8, call: impl FnOnce(&mut Record, bool) -> Answer) -> Answer {
    let (records, own) = (sized_mut(records)?, sized(own)?);
    let on = nodes_on(own)?;
    call(record_of(records, node)?, is_on(on, node))
}

/// A host call at a node that goes by its settings: it is told whether the node is on and whether the transaction is the host's own.
#[inline(always)]
pub fn front<T>(
    records: &mut [u8],
    own: &[u8],
    settings: &[u8],
    node: u8,
    call: impl FnOnce(&mut Record, bool, bool) -> Result<T, u8>,
) -> Result<T, u8> {
    let (records, own) = (sized_mut(records)?, sized(own)?);
    let settings = sized::<STATION_SETTINGS>(settings)?;
    let on = nodes_on(own)?;
    let record = record_of(records, node)?;
    let settings: &Settings = &settings.as_chunks().0[usize::from(node)];
    if !hours::is_valid(settings) {
        return Err(number::DAMAGED);
    }
    call(record, is_on(on, node), settings[classes::KIND] == classes::OWN)
}

/// A begin; with a list it is a batch.
pub fn begin(records: &mut [u8], own: &[u8], settings: &mut [u8], node: u8, with: BeginWith, list: Option<&[u8]>) -> Answer {
    let (distances, settings) = (sized::<DISTANCES>(with.distances)?, sized_mut::<STATION_SETTINGS>(settings)?);
    let (records, own) = (sized_mut(records)?, sized(own)?);
    let weights = list.map(classes::weights).transpose()?;
    let on = nodes_on(own)?;
    if node > 12 && coordinator::is_garbled(with.minute, weights) {
        return Err(number::GARBLED);
    }
    let record = record_of(records, node)?;
    let settings: &mut Settings = &mut settings.as_chunks_mut().0[usize::from(node)];
    if !hours::is_valid(settings) {
        return Err(number::DAMAGED);
    }
    coordinator::begin(record, settings, node, is_on(on, node), distances, with, weights)
}

pub fn load_classes(records: &[u8], own: &[u8], settings: &mut [u8], node: u8, list: &[u8]) -> Answer {
    let (records, own) = (sized::<RECORDS>(records)?, sized(own)?);
    let settings = sized_mut::<STATION_SETTINGS>(settings)?;
    let table = classes::lent(list)?;
    let on = nodes_on(own)?;
    if node > 12 {
        return Err(number::STRANGER);
    }
    let record: &Record = &records.as_chunks().0[usize::from(node)];
    let settings: &mut Settings = &mut settings.as_chunks_mut().0[usize::from(node)];
    if !record::is_valid(record) || !hours::is_valid(settings) {
        return Err(number::DAMAGED);
    }
    if !is_on(on, node) {
        return Err(number::OUT_OF_TURN);
    }
    classes::load(settings, record[record::PHASE] == record::IDLE, &table, list)
}

pub fn load_hours(own: &[u8], settings: &mut [u8], node: u8, list: &[u8]) -> Answer {
    let (own, settings) = (sized::<OWN>(own)?, sized_mut::<STATION_SETTINGS>(settings)?);
    let number = hours::number(list);
    if number == number::LENGTH {
        return Err(number);
    }
    let on = nodes_on(own)?;
    let settings: Option<&mut Settings> = settings.as_chunks_mut().0.get_mut(usize::from(node));
    if number != 0 || settings.as_ref().is_some_and(|settings| !hours::is_valid(settings)) {
        return Err(number::DAMAGED);
    }
    let settings = settings.ok_or(number::STRANGER)?;
    if !is_on(on, node) {
        return Err(number::OUT_OF_TURN);
    }
    hours::store(settings, list);
    Ok(0)
}

pub fn reselect(records: &mut [u8], own: &[u8], node: u8, live: u16, distances: &[u8]) -> Answer {
    let distances = sized::<DISTANCES>(distances)?;
    host(records, own, node, |record, on| coordinator::reselect(record, node, on, live, distances))
}

pub fn send(records: &[u8], pool: &mut [u8], own: &[u8], node: u8, to: u8, object: u8) -> Answer {
    let (records, pool): (&[u8; RECORDS], &mut Pool) = (sized(records)?, sized_mut(pool)?);
    let on = nodes_on(sized(own)?)?;
    pool::check(pool)?;
    if node > 12 {
        return Err(number::STRANGER);
    }
    let record: &Record = &records.as_chunks().0[usize::from(node)];
    if !record::is_valid(record) {
        return Err(number::DAMAGED);
    }
    if to > 12 {
        return Err(number::STRANGER);
    }
    if !is_on(on, node) {
        return Err(number::OUT_OF_TURN);
    }
    let due = due::find(record, node, to, object)?;
    if pool::count(pool) == WAITING {
        return Err(number::POOL_FULL);
    }
    pool::put(pool, |out| due::write(due, record, node, to, object, out));
    Ok(0)
}

pub fn deliver(lent: Lent, k: u8, kept: bool) -> Answer {
    let (images, records): (&mut [u8; IMAGES], &mut [u8; RECORDS]) = (sized_mut(lent.images)?, sized_mut(lent.records)?);
    let (pool, own): (&mut Pool, &[u8; OWN]) = (sized_mut(lent.pool)?, sized(lent.own)?);
    pool::check(pool)?;
    let on = nodes_on(own)?;
    let message = pool::message(pool, k)?;
    match message::check(message) {
        0 => {}
        number => return Err(number),
    }
    let node = message[2];
    let mut answer = 0;
    if is_on(on, node) {
        if matches!(message[0], FETCH | ASK | OUTCOME) {
            let image: &mut Image = &mut images.as_chunks_mut().0[usize::from(node)];
            return at_replica(image, pool, node, k, kept);
        }
        answer = coordinator::receive(record_of(records, node)?, message)?;
    }
    if !kept {
        pool::remove(pool, k);
    }
    Ok(answer)
}

/// At a node's replica. The message is read before it is taken out, and the answer is written straight into its slot.
#[inline(always)]
fn at_replica(image: &mut Image, pool: &mut Pool, node: u8, k: u8, kept: bool) -> Answer {
    if !image::is_valid(image) {
        return Err(number::DAMAGED);
    }
    let message = pool::message(pool, k)?;
    let plan = replica::plan(image, message)?;
    if kept && plan != Plan::Nothing && pool::count(pool) == WAITING {
        return Err(number::POOL_FULL);
    }
    let of = replica::transaction(message);
    let reply = replica::perform(image, message, plan);
    if !kept {
        pool::remove(pool, k);
    }
    if plan != Plan::Nothing {
        pool::put(pool, |out| replica::write(reply, image, node, of, out));
    }
    Ok(0)
}

pub fn drop(pool: &mut [u8], k: u8) -> Answer {
    let pool: &mut Pool = sized_mut(pool)?;
    pool::check(pool)?;
    if usize::from(k) >= pool::count(pool) {
        return Err(number::OUT_OF_TURN);
    }
    pool::remove(pool, k);
    Ok(0)
}

pub fn switch(own: &mut [u8], node: u8, up: bool) -> Answer {
    let own: &mut [u8; OWN] = sized_mut(own)?;
    let on = nodes_on(own)?;
    if node > 12 {
        return Err(number::STRANGER);
    }
    let bit = 1 << node;
    put_u16(own, 0, if up { on | bit } else { on & !bit });
    Ok(0)
}

pub fn blank(lent: Lent, on: u16) -> u8 {
    let (Ok(images), Ok(records)) = (sized_mut::<IMAGES>(lent.images), sized_mut::<RECORDS>(lent.records)) else { return number::LENGTH };
    let (Ok(pool), Ok(own)): (Result<&mut Pool, _>, _) = (sized_mut(lent.pool), sized_mut::<OWN>(lent.own)) else { return number::LENGTH };
    let Ok(settings) = sized_mut::<STATION_SETTINGS>(lent.settings) else { return number::LENGTH };
    if on > ALL {
        return number::STRANGER;
    }
    images.as_chunks_mut().0.iter_mut().for_each(image::make_blank);
    records.fill(0);
    pool.fill(0);
    settings.fill(0);
    put_u16(own, 0, on);
    0
}
