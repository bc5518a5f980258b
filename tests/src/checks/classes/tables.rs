//! Tables of weight classes and batches of weights, sound ones and every way in which one is not; the part of settings that keeps them.

use crate::model::classes::{encode, encode_weights, Classes, BOUNDS, CLASSES, HEAVIEST, WEIGHTS};
use crate::model::number;
use crate::model::settings::{kind, HOURS, KIND, SETTINGS, WAITED};
use crate::model::OBJECTS;
use crate::random::Random;

/// So many bounds that rise strictly: anywhere, close together, or at the edges.
pub fn some_bounds(random: &mut Random, count: usize) -> Vec<u16> {
    let range = usize::from(HEAVIEST);
    let (low, span) =
        *random.pick(&[(1, range), (1, range), (500, count.max(200)), (1, count.max(1)), (2000 - count.max(1), count.max(1))]);
    let mut bounds: Vec<u16> = Vec::new();
    while bounds.len() < count {
        let bound = (low + random.below(span)) as u16;
        if !bounds.contains(&bound) {
            bounds.push(bound);
        }
    }
    bounds.sort();
    bounds
}

/// So many objects below a limit, none twice.
pub fn some_objects(random: &mut Random, count: usize, limit: usize) -> Vec<u8> {
    let mut all: Vec<u8> = (0..limit as u8).collect();
    (0..count).map(|_| all.swap_remove(random.below(all.len()))).collect()
}

/// A sound table of so many classes at most, with objects below a limit.
pub fn classes_among(random: &mut Random, most: usize, limit: usize) -> Classes {
    let count = 1 + random.below(most.min(limit).min(CLASSES));
    Classes { bounds: some_bounds(random, count - 1), objects: some_objects(random, count, limit) }
}

/// Any sound table.
pub fn some_classes(random: &mut Random) -> Classes {
    let most = *random.pick(&[1, 2, 3, CLASSES, CLASSES]);
    classes_among(random, most, OBJECTS)
}

/// Weights that meet a table: on a bound, right below it, at an edge, or any.
pub fn some_weights(random: &mut Random, classes: Option<&Classes>, count: usize) -> Vec<u16> {
    let bounds: &[u16] = classes.map_or(&[], |table| &table.bounds);
    let mut one = || {
        let any = random.below(usize::from(HEAVIEST) + 1) as u16;
        let bound = if bounds.is_empty() { any } else { *random.pick(bounds) };
        *random.pick(&[any, any, any % 10, bound, bound.saturating_sub(1), (bound + 1).min(HEAVIEST), 0, HEAVIEST])
    };
    (0..count).map(|_| one()).collect()
}

/// A way to make a table's bytes wrong; the number that loading then gives.
pub struct Damage {
    pub name: &'static str,
    pub number: u8,
    make: fn(&mut Random) -> Vec<u8>,
}

const fn damage(name: &'static str, number: u8, make: fn(&mut Random) -> Vec<u8>) -> Damage {
    Damage { name, number, make }
}

impl Damage {
    pub fn make(&self, random: &mut Random) -> Vec<u8> {
        (self.make)(random)
    }
}

/// The bytes of so many bounds and objects, whether they fit each other or not; no object twice as long as there are enough.
fn crowded(random: &mut Random, bounds: usize, objects: usize) -> Vec<u8> {
    let bounds = some_bounds(random, bounds);
    let objects = (0..objects).map(|at| (at % OBJECTS) as u8).collect();
    encode(&Classes { bounds, objects })
}

/// The bytes of a sound table of two bounds at least that is changed.
fn changed(random: &mut Random, change: impl Fn(&mut Random, &mut Classes)) -> Vec<u8> {
    let count = 3 + random.below(CLASSES - 2);
    let mut table = Classes { bounds: some_bounds(random, count - 1), objects: some_objects(random, count, OBJECTS) };
    change(random, &mut table);
    encode(&table)
}

/// The bytes of a sound table, some more of them or fewer.
fn resized(random: &mut Random, change: impl Fn(&mut Random, usize) -> usize) -> Vec<u8> {
    let mut bytes = encode(&some_classes(random));
    let length = change(random, bytes.len());
    bytes.resize(length, 0);
    bytes
}

pub const DAMAGES: &[Damage] = &[
    damage("no byte", number::LENGTH, |_| vec![]),
    damage("a byte short", number::LENGTH, |r| resized(r, |_, length| length - 1)),
    damage("a byte long", number::LENGTH, |r| resized(r, |_, length| length + 1)),
    damage("cut anywhere", number::LENGTH, |r| resized(r, |r, length| r.below(length))),
    damage("far too long", number::LENGTH, |r| resized(r, |r, length| length + 1 + r.below(600))),
    damage("the bounds alone", number::LENGTH, |r| {
        let mut bytes = crowded(r, 3, 0);
        bytes.pop();
        bytes
    }),
    damage("one bound more by its count", number::LENGTH, |_| vec![2, 9, 0, 2, 5, 6]),
    damage("one object more by its count", number::LENGTH, |_| vec![1, 9, 0, 3, 5, 6]),
    damage("one object fewer by its count", number::LENGTH, |_| vec![1, 9, 0, 1, 5, 6]),
    damage("object 128", number::NO_SUCH_OBJECT, |r| {
        changed(r, |r, table| {
            let at = r.below(table.objects.len());
            table.objects[at] = OBJECTS as u8;
        })
    }),
    damage("an object above 128", number::NO_SUCH_OBJECT, |r| {
        changed(r, |r, table| {
            let at = r.below(table.objects.len());
            table.objects[at] = (OBJECTS + 1 + r.below(255 - OBJECTS)) as u8;
        })
    }),
    damage("no bound and no object", number::BOUNDS, |_| vec![0, 0]),
    damage("eight bounds", number::BOUNDS, |r| crowded(r, BOUNDS + 1, CLASSES + 1)),
    damage("more than eight bounds", number::BOUNDS, |r| {
        let count = BOUNDS + 2 + r.below(255 - BOUNDS - 2);
        crowded(r, count, count + 1)
    }),
    damage("as many objects as bounds", number::BOUNDS, |r| {
        let count = 1 + r.below(BOUNDS);
        crowded(r, count, count)
    }),
    damage("two objects more than bounds", number::BOUNDS, |r| {
        let count = r.below(BOUNDS);
        crowded(r, count, count + 2)
    }),
    damage("bounds and no object", number::BOUNDS, |r| crowded(r, 2, 0)),
    damage("objects and no bound", number::BOUNDS, |r| {
        let count = 2 + r.below(OBJECTS - 2);
        crowded(r, 0, count)
    }),
    damage("a bound twice", number::BOUNDS, |r| {
        changed(r, |r, table| {
            let at = 1 + r.below(table.bounds.len() - 1);
            table.bounds[at] = table.bounds[at - 1];
        })
    }),
    damage("bounds that fall", number::BOUNDS, |r| {
        changed(r, |r, table| {
            let at = 1 + r.below(table.bounds.len() - 1);
            table.bounds.swap(at - 1, at);
        })
    }),
    damage("a bound that rises by its low byte alone", number::BOUNDS, |_| vec![2, 0xff, 1, 0, 1, 3, 5, 6, 7]),
    damage("a first bound of 0", number::BOUNDS, |r| changed(r, |_, table| table.bounds[0] = 0)),
    damage("a last bound of 2,000", number::BOUNDS, |r| {
        changed(r, |_, table| {
            let last = table.bounds.len() - 1;
            table.bounds[last] = HEAVIEST + 1;
        })
    }),
    damage("a last bound above 2,000", number::BOUNDS, |r| {
        changed(r, |r, table| {
            let last = table.bounds.len() - 1;
            table.bounds[last] = HEAVIEST + 2 + r.below(65_534 - usize::from(HEAVIEST)) as u16;
        })
    }),
    damage("an object twice", number::TALLY_TWICE, |r| {
        changed(r, |r, table| {
            let at = 1 + r.below(table.objects.len() - 1);
            table.objects[at] = table.objects[r.below(at)];
        })
    }),
    damage("one object for all", number::TALLY_TWICE, |r| changed(r, |_, table| table.objects.fill(127))),
];

/// A table as it is lent: sound, or not, once in so many times.
pub fn some_list(random: &mut Random, times: usize) -> Vec<u8> {
    if random.once_in(times) {
        random.pick(DAMAGES).make(random)
    } else {
        encode(&some_classes(random))
    }
}

/// A batch that is too heavy or too long.
pub fn garbled_batch(random: &mut Random) -> Vec<u8> {
    let count = 1 + random.below(20);
    let mut weights = some_weights(random, None, count);
    match random.below(6) {
        0 => weights = vec![0; WEIGHTS + 1],
        1 => weights = vec![700; WEIGHTS + 1 + random.below(300)],
        _ => {
            let at = random.below(weights.len());
            weights[at] = *random.pick(&[HEAVIEST + 1, HEAVIEST + 2, 2048, 0x8000, 65_535]);
        }
    }
    encode_weights(&weights)
}

/// A batch of another length than its count says.
pub fn misfit_batch(random: &mut Random) -> Vec<u8> {
    let count = 1 + random.below(6);
    let mut bytes = encode_weights(&some_weights(random, None, count));
    match random.below(6) {
        0 => bytes.clear(),
        1 => bytes.truncate(1),
        2 => bytes.push(0),
        3 => bytes.extend([0, 0]),
        4 => bytes.truncate(bytes.len() - 1),
        _ => bytes[1] = 1 + random.byte() / 2,
    }
    bytes
}

/// A batch as it is lent: a few weights most often, none, or many; of another length or garbled once in so many times.
pub fn some_batch(random: &mut Random, classes: Option<&Classes>, times: usize) -> Vec<u8> {
    if random.once_in(times) {
        return if random.once_in(2) { misfit_batch(random) } else { garbled_batch(random) };
    }
    // Few lists come often, so that the same weights are booked again.
    if random.once_in(3) {
        return encode_weights(*random.pick(&[&[37][..], &[64], &[37, 64], &[550, 640, 725], &[]]));
    }
    let count = match random.below(60) {
        0 => WEIGHTS,
        1 => random.below(400),
        2..=5 => 0,
        6..=20 => 1,
        _ => 1 + random.below(12),
    };
    encode_weights(&some_weights(random, classes, count))
}

/// What settings have behind the hours, sound: a table or none, with anything behind its lists, a kind, and tenths.
pub fn some_tail(random: &mut Random) -> Vec<u8> {
    let mut tail = if random.once_in(3) { vec![0, 0] } else { encode(&some_classes(random)) };
    let behind = KIND - HOURS - tail.len();
    tail.extend(if random.once_in(2) { random.bytes(behind) } else { vec![0; behind] });
    tail.push(if random.once_in(3) { kind::BATCH } else { kind::OWN });
    tail.extend((WAITED..SETTINGS).map(|_| if random.once_in(3) { 0 } else { random.below(10) as u8 }));
    tail
}

/// Sound settings made damaged behind the hours: a count, a bound, an object, the kind, a tenth.
pub fn damage_tail(random: &mut Random, settings: &mut [u8]) {
    let kept = &mut settings[HOURS..];
    match random.below(6) {
        0 => kept[KIND - HOURS] = 2 + random.below(254) as u8,
        1 => kept[WAITED - HOURS + random.below(2 * CLASSES)] = 10 + random.below(246) as u8,
        2 => kept[0] = BOUNDS as u8 + 1 + random.below(255 - BOUNDS) as u8,
        // No bound and two objects.
        3 => kept[..2].copy_from_slice(&[0, 2]),
        // One class, whose object is none.
        4 => kept[..3].copy_from_slice(&[0, 1, (OBJECTS + random.below(256 - OBJECTS)) as u8]),
        _ => {
            let bad: [[u8; 9]; 4] =
                [[2, 9, 0, 9, 0, 3, 5, 6, 7], [2, 9, 0, 8, 0, 3, 5, 6, 7], [2, 0, 0, 8, 0, 3, 5, 6, 7], [2, 9, 0, 10, 0, 3, 5, 6, 5]];
            kept[..9].copy_from_slice(&bad[random.below(bad.len())]);
        }
    }
}
