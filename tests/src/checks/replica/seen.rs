//! One delivery by the library and by the model, compared byte by byte; and how often each case of the rules was met.

use crate::ffi;
use crate::model::image::{self, Image};
use crate::model::message::{self, kind, Entry, Message, COMMIT, LONGEST, WRITE};
use crate::model::number;
use crate::model::quorum::only;
use crate::model::replica::{answers_call, enter, judge, receive_call, Standing};
use crate::random::Random;
use crate::runner::ensure;
use std::collections::BTreeMap;

/// Bytes about the lent ones, which no call may touch.
const MARGIN: usize = 20;

/// The cases of the rules.
#[derive(Clone, Copy, Debug, PartialEq, Eq, PartialOrd, Ord)]
pub enum Case {
    Fetch(Standing),
    Ask(Standing),
    Commit(Standing),
    Abort(Standing),
    /// A kind meant for the other end.
    OtherEnd,
    /// A no for one reason alone, and for several.
    NoByHolder,
    NoByVersion,
    NoByOlderRival,
    NoBySeveral,
    /// A no by one rival, which has the same stamp.
    NoBySameStamp,
    /// A yes that names no rival, one, and more.
    YesAlone,
    YesOneRival,
    YesManyRivals,
    /// A yes over a rival of the same stamp.
    YesSameStamp,
    /// A yes where a copy here has a lower version.
    YesLowerHere,
    /// A commit that writes a copy which the owner does not hold.
    CommitUnheld,
    /// A commit that writes a lower version over a higher one.
    CommitBelow,
    /// An outcome that frees copies, and one that clears list entries.
    Frees,
    Unlists,
}

/// Every case.
fn cases() -> Vec<Case> {
    use Case::*;
    let mut all = vec![OtherEnd, NoByHolder, NoByVersion, NoByOlderRival, NoBySeveral, NoBySameStamp, YesAlone, YesOneRival, YesManyRivals];
    all.extend([YesSameStamp, YesLowerHere, CommitUnheld, CommitBelow, Frees, Unlists]);
    all.extend(Standing::ALL.into_iter().flat_map(|standing| [Fetch, Ask, Commit, Abort].map(|deed| deed(standing))));
    all
}

/// A delivery to try: the bytes of an image and a message, the node, and the size of the answer buffer.
#[derive(Clone, Copy)]
pub struct Try<'a> {
    pub image: &'a [u8],
    pub me: u8,
    pub message: &'a [u8],
    pub size: usize,
}

/// How many deliveries had each number, and how many each case.
#[derive(Default)]
pub struct Seen {
    pub numbers: [usize; 6],
    pub answered: usize,
    pub cases: BTreeMap<Case, usize>,
}

/// Random bytes with some others in their middle.
fn framed(random: &mut Random, middle: &[u8]) -> Vec<u8> {
    [&random.bytes(MARGIN)[..], middle, &random.bytes(MARGIN)[..]].concat()
}

/// Where the two first differ, counted from the lent bytes on.
fn differ(got: &[u8], expected: &[u8]) -> Option<i64> {
    got.iter().zip(expected).position(|(one, other)| one != other).map(|at| at as i64 - MARGIN as i64)
}

/// A delivery's message, and its owner here, for the words of a failure.
fn described(asked: Try) -> String {
    let message = message::decode(asked.message);
    let owner = message.as_ref().zip(image::decode(asked.image));
    let owner = owner.and_then(|(message, image)| image.owners.get(usize::from(message.transaction.owner)).copied());
    format!("node {} with {} bytes for an answer, {message:?}, owner {owner:?}", asked.me, asked.size)
}

impl Seen {
    /// The library's number, length, image and answer buffer against the model's, and its word beforehand; the image after.
    pub fn compare(&mut self, random: &mut Random, asked: Try) -> Result<Vec<u8>, String> {
        let Try { image, me, message, size } = asked;
        let expected = receive_call(image, me, message, size);
        let noise = random.bytes(size);
        let (mut images, mut answers) = (framed(random, image), framed(random, &noise));
        let (mut images_after, mut answers_after) = (images.clone(), answers.clone());
        if let Ok(delivered) = &expected {
            images_after[MARGIN..MARGIN + image.len()].copy_from_slice(&delivered.image);
            answers_after[MARGIN..MARGIN + delivered.answer.len()].copy_from_slice(&delivered.answer);
        }
        let foretold = ffi::replica_answers(&images[MARGIN..MARGIN + image.len()], me, message);
        ensure!(foretold == u8::from(answers_call(image, me, message)), "{}: answers said {foretold}", described(asked));
        let lent = message.to_vec();
        let (part, room) = (&mut images[MARGIN..MARGIN + image.len()], &mut answers[MARGIN..MARGIN + size]);
        let got = ffi::replica_receive(part, me, &lent, room);
        let (number, length) = match &expected {
            Ok(delivered) => (number::OK, delivered.answer.len() as u8),
            Err(number) => (*number, 0),
        };
        ensure!(got == (number, length), "{}: {got:?}, but the model says {:?}", described(asked), (number, length));
        let place = differ(&images, &images_after);
        ensure!(place.is_none(), "{}: byte {place:?} of the image is another than the model's", described(asked));
        let place = differ(&answers, &answers_after);
        ensure!(place.is_none(), "{}: byte {place:?} of the answer is another than the model's", described(asked));
        ensure!(lent == message, "{}: the message became {lent:?}", described(asked));
        self.count(asked, got);
        Ok(images[MARGIN..MARGIN + image.len()].to_vec())
    }

    fn add(&mut self, case: Case) {
        *self.cases.entry(case).or_insert(0) += 1;
    }

    fn add_if(&mut self, met: bool, case: Case) {
        if met {
            self.add(case);
        }
    }

    /// The number, and where the message reaches its kind's rule, the case of it.
    fn count(&mut self, asked: Try, (number, length): (u8, u8)) {
        self.numbers[usize::from(number)] += 1;
        self.answered += usize::from(length > 0);
        if number != number::OK && number != number::OUT_OF_TURN {
            return;
        }
        let (Ok(image), Ok(message)) = (image::load(asked.image), message::receive(asked.message)) else { return };
        let standing = Standing::of(&image, message.transaction);
        let case = match (message.kind, &message.words[..]) {
            (kind::FETCH, _) => Case::Fetch(standing),
            (kind::ASK, _) => Case::Ask(standing),
            (kind::OUTCOME, [COMMIT]) => Case::Commit(standing),
            (kind::OUTCOME, _) => Case::Abort(standing),
            _ => Case::OtherEnd,
        };
        self.add(case);
        match case {
            Case::Ask(Standing::Fresh | Standing::Listed) => self.count_vote(image, &message),
            Case::Commit(Standing::Held) | Case::Abort(Standing::Listed | Standing::Held) => self.count_outcome(&image, &message),
            _ => {}
        }
    }

    /// The cases of a judged ask.
    fn count_vote(&mut self, mut image: Image, message: &Message) {
        enter(&mut image, message.transaction);
        let judgement = judge(&image, message);
        let stamp = image.owners[usize::from(message.transaction.owner)].stamp;
        let same = judgement.rivals.iter().any(|rival| image.owners[usize::from(rival.owner)].stamp == stamp);
        let case = match (judgement.held, judgement.newer, judgement.older) {
            (true, false, false) => Case::NoByHolder,
            (false, true, false) => Case::NoByVersion,
            (false, false, true) => Case::NoByOlderRival,
            (false, false, false) => [Case::YesAlone, Case::YesOneRival, Case::YesManyRivals][judgement.rivals.len().min(2)],
            _ => Case::NoBySeveral,
        };
        self.add(case);
        self.add_if(case == Case::NoByOlderRival && judgement.rivals.len() == 1 && same, Case::NoBySameStamp);
        self.add_if(!judgement.no() && same, Case::YesSameStamp);
        let lower = message.entries.iter().any(|entry| image.copies[usize::from(entry.object)].version < entry.version);
        self.add_if(!judgement.no() && lower, Case::YesLowerHere);
    }

    /// The cases of an outcome of a transaction that is here.
    fn count_outcome(&mut self, image: &Image, message: &Message) {
        let owner = message.transaction.owner;
        let bit = only(usize::from(owner));
        let mut written = message.entries.iter().filter(|entry| entry.mode == WRITE);
        let here = |entry: &Entry| image.copies[usize::from(entry.object)];
        self.add_if(written.clone().any(|entry| here(entry).holder != owner), Case::CommitUnheld);
        self.add_if(written.any(|entry| entry.version < here(entry).version), Case::CommitBelow);
        self.add_if(image.copies.iter().any(|copy| copy.holder == owner), Case::Frees);
        self.add_if(image.copies.iter().any(|copy| (copy.readers | copy.writers) & bit != 0), Case::Unlists);
    }

    /// The rarest case of all, those never met too, with how often it was met.
    pub fn rarest(&self) -> (Case, usize) {
        let counted = cases().into_iter().map(|case| (case, self.cases.get(&case).copied().unwrap_or(0)));
        counted.min_by_key(|&(_, count)| count).expect("some case")
    }

    pub fn all(&self) -> usize {
        self.numbers.iter().sum()
    }

    pub fn words(&self) -> String {
        format!("{} deliveries, by number {:?}, {} answered", self.all(), self.numbers, self.answered)
    }
}

/// A delivery into a buffer that is long enough.
pub fn whole<'a>(image: &'a [u8], me: u8, message: &'a [u8]) -> Try<'a> {
    Try { image, me, message, size: LONGEST }
}
