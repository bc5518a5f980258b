//! The operations that are measured, each with the buffers it starts from. An operation is written once and compiled for both libraries.

use crate::fast::Fast;
use crate::library::{Author, BeginWith, Chosen, Entries, Library, Told, Written, ALL};
use crate::product::Product;
use crate::scenes::{self, Scene};
use crate::stage::Stage;
use crate::station::{longest_batch, Station, Step, BATCHES, CLASSES, LONGEST_CLASSES};
use crate::transaction::{self, OWNER};
use std::hint::black_box;

/// Runs an operation once on each stage; what it answered, added up, so that no call can be left out.
pub type Run = fn(&mut [Stage]) -> u64;

pub struct Op {
    pub group: &'static str,
    pub name: &'static str,
    pub stage: Stage,
    pub product: Run,
    pub rust: Run,
}

impl Op {
    pub fn title(&self) -> String {
        format!("{}, {}", self.group, self.name)
    }
}

/// An answer as one number.
pub trait Seen {
    fn seen(self) -> u64;
}

impl Seen for u8 {
    fn seen(self) -> u64 {
        u64::from(self)
    }
}

impl Seen for u64 {
    fn seen(self) -> u64 {
        self
    }
}

impl Seen for Chosen {
    fn seen(self) -> u64 {
        u64::from(self.number) << 56 | u64::from(self.mask) << 32 | u64::from(self.sum)
    }
}

impl Seen for Told {
    fn seen(self) -> u64 {
        u64::from(self.number) << 56 ^ self.answer
    }
}

impl Seen for Author {
    fn seen(self) -> u64 {
        u64::from(self.number) << 56 | u64::from(self.owner) << 32 | u64::from(self.serial)
    }
}

impl Seen for Written {
    fn seen(self) -> u64 {
        u64::from(self.number) << 8 | u64::from(self.length)
    }
}

/// Adds an operation: in its text `L` is the library and the named stage is lent to it.
macro_rules! op {
    ($list:ident, $group:expr, $name:expr, $stage:expr, |$lent:ident| $body:expr) => {{
        fn product(stages: &mut [Stage]) -> u64 {
            type L = Product;
            stages.iter_mut().fold(0u64, |sum, $lent| sum.wrapping_add(Seen::seen($body)))
        }
        fn rust(stages: &mut [Stage]) -> u64 {
            type L = Fast;
            stages.iter_mut().fold(0u64, |sum, $lent| sum.wrapping_add(Seen::seen($body)))
        }
        $list.push(Op { group: $group, name: $name, stage: $stage, product, rust });
    }};
}

/// A station step with a fixed argument.
macro_rules! step {
    ($list:ident, $name:expr, $scene:expr, $step:expr) => {
        op!($list, "station step", $name, scenes::stage($scene), |s| s.station.take::<L>(&black_box($step)))
    };
}

fn quorums(list: &mut Vec<Op>) {
    let stage = || scenes::stage(Scene::Idle);
    op!(list, "quorum", "nearest read, all live", stage(), |s| L::nearest_read(black_box(ALL), &s.distances, black_box(OWNER)));
    op!(list, "quorum", "nearest write, all live", stage(), |s| L::nearest_write(black_box(ALL), &s.distances, black_box(OWNER)));
    op!(list, "quorum", "nearest read, root and a hall off", stage(), |s| {
        L::nearest_read(black_box(ALL & !3), &s.distances, black_box(OWNER))
    });
    op!(list, "quorum", "nearest write, a hall off", stage(), |s| L::nearest_write(black_box(ALL & !2), &s.distances, black_box(OWNER)));
    op!(list, "quorum", "is read quorum", stage(), |s| L::is_read_quorum(black_box(439 + u16::from(s.objects))));
    op!(list, "quorum", "is write quorum", stage(), |s| L::is_write_quorum(black_box(439 + u16::from(s.objects))));
}

fn messages(list: &mut Vec<Op>) {
    for (name, message) in scenes::messages() {
        op!(list, "check message", name, scenes::with_message(message), |s| L::check_message(&s.message));
    }
    let stage = || scenes::stage(Scene::Idle);
    op!(list, "write message", "fetch", stage(), |s| L::write_fetch(&mut s.out, black_box(1), s.of, 5, 1));
    op!(list, "write message", "copy", stage(), |s| L::write_copy(&mut s.out, black_box(1), s.of, s.entries.entry[0]));
    op!(list, "write message", "ask, 8 entries", stage(), |s| L::write_ask(&mut s.out, black_box(1), s.of, &s.entries));
    op!(list, "write message", "vote, 3 rivals", stage(), |s| L::write_vote(&mut s.out, black_box(1), s.of, &s.serials, 1));
    op!(list, "write message", "commit, 8 entries", stage(), |s| L::write_outcome(&mut s.out, black_box(1), s.of, &s.entries, 1));
    op!(list, "write message", "abort", stage(), |s| {
        let none = Entries { count: black_box(0), ..s.entries };
        L::write_outcome(&mut s.out, black_box(1), s.of, &none, 0)
    });
    op!(list, "write message", "done", stage(), |s| L::write_done(&mut s.out, black_box(1), s.of));
    op!(list, "write message", "yield", stage(), |s| L::write_yield(&mut s.out, s.of, black_box(1), 9));
}

fn replicas(list: &mut Vec<Op>) {
    op!(list, "image", "check", scenes::stage(Scene::Held), |s| L::check_image(&s.image));
    op!(list, "image", "blank", scenes::stage(Scene::Held), |s| L::blank_image(&mut s.image));
    op!(list, "image", "author", scenes::stage(Scene::Held), |s| L::image_author(&s.image, black_box(5)));
    op!(list, "image", "take in", scenes::with_message(scenes::older_image(17)), |s| L::take_in(&mut s.image, &s.message));
    let thirteen = scenes::with_message(scenes::older_image(17).repeat(13));
    op!(list, "image", "take in, 13 images", thirteen, |s| L::station_take_in(&mut s.station.images, &s.message));
    op!(list, "image", "take in, with authors", scenes::with_message(scenes::older_image(22)), |s| L::take_in(&mut s.image, &s.message));
    for (name, stage) in scenes::replica() {
        op!(list, "replica receive", name, stage, |s| L::replica_receive(&mut s.image, black_box(1), &s.message, &mut s.out));
    }
}

/// A begin with the next timestamp, at a minute.
fn at(minute: u16, distances: &[u8]) -> BeginWith<'_> {
    BeginWith { live: black_box(ALL), distances, timestamp: 77, day: 0, minute: black_box(minute) }
}

/// Weight classes at a lone node: a table, batches of one weight and of as many as there may be, and votes asked for.
fn batches(list: &mut Vec<Op>) {
    let group = "coordinator";
    let one = || scenes::with_classes(CLASSES[0], BATCHES[1].to_vec());
    let most = || scenes::with_classes(&LONGEST_CLASSES, longest_batch());
    op!(list, group, "load classes, 8 classes", scenes::stage(Scene::Idle), |s| {
        L::load_classes(&mut s.settings, &s.record, black_box(OWNER), &s.classes)
    });
    op!(list, group, "batch, 1 weight and 1 class", one(), |s| {
        L::batch(&mut s.record, &mut s.settings, OWNER, at(600, &s.distances), &s.batch)
    });
    op!(list, group, "batch, 4096 weights and 8 classes", most(), |s| {
        L::batch(&mut s.record, &mut s.settings, OWNER, at(600, &s.distances), &s.batch)
    });
    op!(list, group, "waiting", most(), |s| L::waiting(&s.record, &s.settings, black_box(3)));
    op!(list, group, "request commit, a batch of 8 classes", scenes::batch_ready(), |s| {
        L::request_commit(&mut s.record, &s.settings, black_box(OWNER))
    });
}

fn coordinators(list: &mut Vec<Op>) {
    let stage = scenes::stage;
    let group = "coordinator";
    op!(list, group, "check record, 8 objects", stage(Scene::Voting8), |s| L::check_record(&s.record));
    op!(list, group, "begin", stage(Scene::Idle), |s| L::begin(&mut s.record, &mut s.settings, OWNER, at(600, &s.distances)));
    op!(list, group, "begin, 14 windows and 32 dates", scenes::with_hours(Scene::Idle), |s| {
        L::begin(&mut s.record, &mut s.settings, OWNER, at(600, &s.distances))
    });
    op!(list, group, "begin, closed", scenes::with_hours(Scene::Idle), |s| L::begin(
        &mut s.record,
        &mut s.settings,
        OWNER,
        at(599, &s.distances)
    ));
    op!(list, group, "check settings, 14 windows and 32 dates", scenes::with_hours(Scene::Idle), |s| L::check_settings(&s.settings));
    op!(list, group, "load hours, 14 windows and 32 dates", stage(Scene::Idle), |s| L::load_hours(&mut s.settings, &s.table));
    batches(list);
    op!(list, group, "open read", stage(Scene::Begun), |s| L::open_read(&mut s.record, &s.settings, OWNER, black_box(5)));
    op!(list, group, "open write", stage(Scene::Begun), |s| L::open_write(&mut s.record, &s.settings, OWNER, black_box(5)));
    op!(list, group, "open the 8th", stage(Scene::Open7), |s| L::open_write(&mut s.record, &s.settings, OWNER, black_box(127)));
    op!(list, group, "set value", stage(Scene::Open), |s| L::set_value(&mut s.record, &s.settings, OWNER, black_box(0), 42));
    op!(list, group, "found", stage(Scene::Ready), |s| L::found(&mut s.record, OWNER, black_box(0)));
    op!(list, group, "reselect", stage(Scene::Open), |s| L::reselect(&mut s.record, OWNER, black_box(ALL & !2), &s.distances));
    op!(list, group, "request commit", stage(Scene::Ready), |s| L::request_commit(&mut s.record, &s.settings, black_box(OWNER)));
    op!(list, group, "request commit, 8 objects", stage(Scene::Ready8), |s| {
        L::request_commit(&mut s.record, &s.settings, black_box(OWNER))
    });
    op!(list, group, "abort", stage(Scene::Open), |s| L::abort(&mut s.record, black_box(OWNER)));
    for (name, stage) in scenes::coordinator() {
        op!(list, "coordinator receive", name, stage, |s| L::receive(&mut s.record, black_box(OWNER), &s.message));
    }
    let group = "coordinator due";
    op!(list, group, "fetch", stage(Scene::Open), |s| L::due(&s.record, OWNER, black_box(1), 0, &mut s.out));
    op!(list, group, "ask", stage(Scene::Voting), |s| L::due(&s.record, OWNER, black_box(1), 0, &mut s.out));
    op!(list, group, "ask, 8 objects", stage(Scene::Voting8), |s| L::due(&s.record, OWNER, black_box(1), 0, &mut s.out));
    op!(list, group, "commit", stage(Scene::Committed), |s| L::due(&s.record, OWNER, black_box(1), 0, &mut s.out));
    op!(list, group, "abort", stage(Scene::Aborted), |s| L::due(&s.record, OWNER, black_box(1), 0, &mut s.out));
    op!(list, group, "nothing", stage(Scene::Idle), |s| L::due(&s.record, OWNER, black_box(1), 0, &mut s.out));
}

/// A begin at a minute that the longest table has, and at one that it has not.
const BEGIN: Step = Step::Begin { node: OWNER, live: ALL, distances: transaction::DISTANCES_USED, timestamp: 77, day: 0, minute: 600 };
const BEGIN_EARLY: Step =
    Step::Begin { node: OWNER, live: ALL, distances: transaction::DISTANCES_USED, timestamp: 77, day: 0, minute: 599 };

fn steps(list: &mut Vec<Op>) {
    step!(list, "begin", Scene::Idle, BEGIN);
    op!(list, "station step", "begin, 14 windows and 32 dates", scenes::with_hours(Scene::Idle), |s| s
        .station
        .take::<L>(&black_box(BEGIN)));
    op!(list, "station step", "begin, closed", scenes::with_hours(Scene::Idle), |s| s.station.take::<L>(&black_box(BEGIN_EARLY)));
    op!(list, "station step", "load hours, 14 windows and 32 dates", scenes::stage(Scene::Idle), |s| {
        L::station_load_hours(&s.station.own, &mut s.station.settings, black_box(OWNER), &s.table)
    });
    op!(list, "station step", "load classes, 8 classes", scenes::stage(Scene::Idle), |s| {
        L::station_load_classes(&s.station.records, &s.station.own, &mut s.station.settings, black_box(OWNER), &s.classes)
    });
    op!(list, "station step", "batch, 4096 weights and 8 classes", scenes::with_classes(&LONGEST_CLASSES, longest_batch()), |s| {
        let Station { records, own, settings, .. } = &mut s.station;
        L::station_batch(records, own, settings, black_box(OWNER), at(600, &s.distances), &s.batch)
    });
    step!(list, "open read", Scene::Begun, Step::OpenRead { node: OWNER, object: 5 });
    step!(list, "open write", Scene::Begun, Step::OpenWrite { node: OWNER, object: 5 });
    step!(list, "set value", Scene::Open, Step::SetValue { node: OWNER, object: 0, value: 42 });
    step!(list, "found", Scene::Ready, Step::Found { node: OWNER, object: 0 });
    step!(list, "reselect", Scene::Open, Step::Reselect { node: OWNER, live: ALL & !2, distances: transaction::DISTANCES_USED });
    step!(list, "request commit", Scene::Ready, Step::RequestCommit { node: OWNER });
    step!(list, "abort", Scene::Open, Step::Abort { node: OWNER });
    step!(list, "send a fetch", Scene::Open, Step::Send { node: OWNER, to: 1, object: 0 });
    step!(list, "send an ask", Scene::Voting, Step::Send { node: OWNER, to: 1, object: 0 });
    step!(list, "send a commit", Scene::Committed, Step::Send { node: OWNER, to: 1, object: 0 });
    for (name, stage) in scenes::deliveries() {
        op!(list, "station step", name, stage, |s| L::station_deliver(s.station.lent(), black_box(0), 0));
    }
    for (name, stage) in scenes::kept_deliveries() {
        op!(list, "station step", name, stage, |s| L::station_deliver(s.station.lent(), black_box(0), 1));
    }
    step!(list, "drop, 8 waiting", Scene::Asked, Step::Drop { k: 0 });
    step!(list, "switch off", Scene::Idle, Step::Switch { node: 3, up: 0 });
}

fn transactions(list: &mut Vec<Op>) {
    let group = "transaction";
    for (name, objects, waiting) in
        [("1 object", 1, 0), ("8 objects", 8, 0), ("1 object, 100 waiting", 1, 100), ("8 objects, 100 waiting", 8, 100)]
    {
        op!(list, group, name, scenes::with_waiting(objects, waiting), |s| transaction::whole::<L>(&mut s.station, s.objects));
    }
}

/// Every operation.
pub fn all() -> Vec<Op> {
    let mut list = Vec::new();
    quorums(&mut list);
    messages(&mut list);
    replicas(&mut list);
    coordinators(&mut list);
    steps(&mut list);
    transactions(&mut list);
    list
}
