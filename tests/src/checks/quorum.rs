//! Quorums and the nearest of them: the library against the model, and against what must hold of its own answers.

use crate::ffi;
use crate::model::number;
use crate::model::quorum::{self as model, Choice, Kind, Rank, ALL, DISTANCES, KINDS, NODES};
use crate::random::Random;
use crate::runner::{ensure, in_four_threads, Runner, Verdict};
use std::collections::BTreeSet;

pub fn run(runner: &mut Runner) {
    runner.check("membership at every mask", |_, _| membership());
    runner.check("smallest quorums", |_, _| smallest_quorums());
    runner.check("quorums meet", |_, _| meeting());
    runner.check("document 004's example", |_, _| example_of_document_004());
    runner.check("marked cases", |_, _| marked_cases());
    runner.check("nearest at every live mask for every asker", |random, _| every_live_mask(random));
    runner.check("nearest", nearest);
    runner.check("nearest is none exactly without a quorum", none_without_a_quorum);
    runner.check("nearest refuses every mask above 8191", strangers);
    runner.check("nearest refuses every asker above 12", strange_askers);
    runner.check("nearest refuses other lengths first", lengths);
    runner.check("nearest in four threads", threads);
}

/// Thirteen distances as the library takes them.
fn bytes_of(distances: &[u16; NODES]) -> Vec<u8> {
    distances.iter().flat_map(|distance| distance.to_le_bytes()).collect()
}

/// The library's answer, checked against the model's, with the lent bytes as they were.
fn compared(kind: Kind, live: u16, bytes: &[u8], asker: u8) -> Result<Choice, String> {
    let lent = bytes.to_vec();
    let got = ffi::nearest(kind, live, &lent, asker);
    let expected = model::nearest_call(kind, live, bytes, asker);
    ensure!(got == expected, "{kind:?} live {live} asker {asker} bytes {bytes:?}: {got:?}, but the model says {expected:?}");
    ensure!(lent == bytes, "{kind:?} live {live} asker {asker}: the distances {bytes:?} became {lent:?}");
    Ok(got)
}

/// A refusal with a number.
fn refused(number: u8) -> Choice {
    Choice { number, mask: 0, sum: 0 }
}

/// Every 16-bit mask, bits 13 to 15 included, for both kinds.
fn membership() -> Verdict {
    let mut quorums = [0, 0];
    for (kind, count) in KINDS.into_iter().zip(&mut quorums) {
        for mask in 0..=u16::MAX {
            let expected = model::is_quorum(kind, mask);
            let got = ffi::is_quorum_byte(kind, mask);
            ensure!(got == u8::from(expected), "{kind:?} quorum {mask}: {got}, but the model says {expected}");
            *count += usize::from(expected);
        }
    }
    let [read, write] = quorums;
    ensure!(write > 1000 && read > write && read < 65000, "the masks are too poor: {read} read and {write} write quorums");
    Ok(format!("65536 masks, {read} read quorums, {write} write quorums"))
}

/// The library's smallest quorums: the masks of nodes that are quorums while no set with one node less is.
fn smallest_of_library(kind: Kind) -> Vec<u16> {
    let smallest = |mask: u16| model::nodes(mask).all(|node| !ffi::is_quorum(kind, mask & !model::only(node)));
    (0..=ALL).filter(|&mask| ffi::is_quorum(kind, mask) && smallest(mask)).collect()
}

/// 49 read and 27 write ones, the same in model and library.
fn smallest_quorums() -> Verdict {
    for (kind, count) in [(Kind::Read, 49), (Kind::Write, 27)] {
        let expected = model::smallest(kind);
        ensure!(expected.len() == count, "{kind:?}: the model has {} smallest quorums, not {count}", expected.len());
        let got = smallest_of_library(kind);
        ensure!(got == expected, "{kind:?}: the library's smallest quorums are {got:?}, the model's {expected:?}");
    }
    Ok(String::from("49 read, 27 write"))
}

/// On the library's answers alone: a read and a write quorum meet, two write quorums meet, the root is in every write quorum.
/// Pairs of smallest ones first; then every set of nodes against the set of all others.
fn meeting() -> Verdict {
    let [read, write] = KINDS.map(smallest_of_library);
    ensure!(!read.is_empty() && !write.is_empty(), "the library knows no quorum");
    let mut pairs = 0;
    for &w in &write {
        ensure!(model::inside(model::only(0), w), "write quorum {w} is without node 0");
        for &other in read.iter().chain(&write) {
            ensure!(w & other != 0, "write quorum {w} does not meet quorum {other}");
            pairs += 1;
        }
    }
    for mask in 0..=ALL {
        if ffi::is_quorum(Kind::Write, mask) {
            let others = ALL & !mask;
            let apart = KINDS.iter().any(|&kind| ffi::is_quorum(kind, others));
            ensure!(!apart, "write quorum {mask} and quorum {others} do not meet");
        }
    }
    ensure!(pairs == 27 * (49 + 27), "{pairs} pairs, not 2052");
    Ok(format!("{pairs} pairs of smallest quorums, {} sets against the rest", u32::from(ALL) + 1))
}

/// Its figure 2: a tree of 13 nodes, R1 = {1, 2} and W2 = {0, 2, 3, 8, 9, 11, 12}, which meet in node 2.
fn example_of_document_004() -> Verdict {
    let set = |nodes: &[usize]| nodes.iter().fold(0, |mask, &node| mask | model::only(node));
    let read = set(&[1, 2]);
    let write = set(&[0, 2, 3, 8, 9, 11, 12]);
    ensure!(ffi::is_quorum(Kind::Read, read), "{{1, 2}} is no read quorum");
    ensure!(!ffi::is_quorum(Kind::Write, read), "{{1, 2}} is a write quorum");
    ensure!(ffi::is_quorum(Kind::Write, write), "{{0, 2, 3, 8, 9, 11, 12}} is no write quorum");
    ensure!(read & write == model::only(2), "they do not meet in node 2");
    let ones = bytes_of(&[1; NODES]);
    let chosen_read = ffi::nearest(Kind::Read, read, &ones, 0);
    let chosen_write = ffi::nearest(Kind::Write, write, &ones, 0);
    ensure!(chosen_read == Choice { number: 0, mask: read, sum: 2 }, "live {{1, 2}}: {chosen_read:?}");
    ensure!(chosen_write == Choice { number: 0, mask: write, sum: 7 }, "live W2: {chosen_write:?}");
    Ok(String::from("2 quorums"))
}

/// A marked case: the live mask, node 0's distance where it is 1 elsewhere, the mask and sum chosen, and the asker.
struct Marked {
    live: u16,
    root_distance: u16,
    kind: Kind,
    chosen: Option<(u16, u32)>,
    asker: u8,
}

const fn marked(live: u16, root_distance: u16, kind: Kind, chosen: Option<(u16, u32)>) -> Marked {
    Marked { live, root_distance, kind, chosen, asker: 0 }
}

/// Document 01's marked cases that are about quorums, which "stand with asker 0", and document 02's: "With every distance 1, top down and asker 3, the read
/// set is 10." Without the root no write quorum is there (8188); a sum that the documents do not name is the count of nodes at distance 1.
const MARKED: [Marked; 13] = [
    marked(8191, 1, Kind::Read, Some((1, 1))),
    marked(8191, 1, Kind::Write, Some((439, 7))),
    marked(8190, 1, Kind::Read, Some((6, 2))),
    marked(8190, 1, Kind::Write, None),
    marked(8188, 1, Kind::Read, Some((12, 2))),
    marked(8188, 1, Kind::Write, None),
    marked(8176, 1, Kind::Read, Some((432, 4))),
    marked(8191 - 16 - 32, 1, Kind::Write, Some((3469, 7))),
    marked(8191, 2, Kind::Read, Some((1, 2))),
    marked(8191, 9, Kind::Read, Some((6, 2))),
    marked(0, 1, Kind::Read, None),
    marked(0, 1, Kind::Write, None),
    Marked { live: 8190, root_distance: 1, kind: Kind::Read, chosen: Some((10, 2)), asker: 3 },
];

fn marked_cases() -> Verdict {
    for Marked { live, root_distance, kind, chosen, asker } in MARKED {
        let mut distances = [1; NODES];
        distances[0] = root_distance;
        let expected = match chosen {
            Some((mask, sum)) => Choice { number: number::OK, mask, sum },
            None => refused(number::NO_QUORUM),
        };
        let bytes = bytes_of(&distances);
        let got = ffi::nearest(kind, live, &bytes, asker);
        ensure!(got == expected, "{kind:?} live {live} distance {root_distance} at node 0, asker {asker}: {got:?}, marked {expected:?}");
        let modelled = model::nearest_call(kind, live, &bytes, asker);
        ensure!(modelled == expected, "{kind:?} live {live} asker {asker}: the model itself says {modelled:?}, marked {expected:?}");
    }
    Ok(format!("{} rows", MARKED.len()))
}

/// All smallest quorums in the order of choice: what is nearest inside a live mask is the first that is inside.
fn ranked(kind: Kind, distances: &[u16; NODES], asker: u8) -> Vec<Rank> {
    let mut list = model::candidates(kind, ALL, distances, asker);
    list.sort();
    list
}

/// The first of a list in the order of choice that is inside `live`.
fn first_inside(list: &[Rank], live: u16) -> Choice {
    let first = list.iter().find(|&&(_, _, mask)| model::inside(mask, live));
    first.map_or(refused(number::NO_QUORUM), |&(sum, _, mask)| Choice { number: number::OK, mask, sum })
}

/// What a check of every live mask counted: answers without a quorum, and those that another asker, who is in no set, would not get.
#[derive(Default)]
struct Answers {
    none: usize,
    turned: usize,
}

/// Every live mask with these distances, for one kind and one asker. Asker 0 gets document 01's choice, which knows no asker.
fn live_masks(kind: Kind, distances: &[u16; NODES], asker: u8, answers: &mut Answers) -> Result<(), String> {
    let (bytes, list, plain) = (bytes_of(distances), ranked(kind, distances, asker), ranked(kind, distances, u8::MAX));
    for live in 0..=ALL {
        let (got, expected) = (ffi::nearest(kind, live, &bytes, asker), first_inside(&list, live));
        ensure!(got == expected, "{kind:?} live {live} asker {asker} distances {distances:?}: {got:?}, but {expected:?} is first");
        let turned = got != first_inside(&plain, live);
        ensure!(asker != 0 || !turned, "{kind:?} live {live} distances {distances:?}: asker 0 turns the choice to {got:?}");
        answers.none += usize::from(got.number == number::NO_QUORUM);
        answers.turned += usize::from(turned);
    }
    Ok(())
}

/// All live masks for each asker, by distances that are all the same, small ones with many ties, large ones with ties, and any.
fn every_live_mask(random: &mut Random) -> Verdict {
    let mut tables = vec![[1; NODES], [0; NODES], [65535; NODES]];
    tables.extend((0..6).map(|most| std::array::from_fn::<u16, NODES, _>(|_| random.below(2 + most / 2) as u16)));
    tables.extend((0..3).map(|_| std::array::from_fn::<u16, NODES, _>(|_| 65535 - random.below(2) as u16)));
    tables.extend((0..3).map(|_| std::array::from_fn::<u16, NODES, _>(|_| random.word())));
    let mut answers = Answers::default();
    for distances in &tables {
        for kind in KINDS {
            for asker in 0..NODES as u8 {
                live_masks(kind, distances, asker, &mut answers)?;
            }
        }
    }
    let (Answers { none, turned }, all) = (answers, tables.len() * 2 * NODES * 8192);
    let counted =
        format!("{} tables times 13 askers times 2 times 8192 masks, {none} without a quorum, {turned} turned by the asker", tables.len());
    ensure!(none * 10 > all && none * 10 < 9 * all && turned * 200 > all, "too poor: {counted}");
    Ok(counted)
}

/// Distances of many shapes: small and equal ones give ties, far inner nodes make a read quorum of leaves, extreme ones give great
/// sums, any ones tell the bytes apart.
pub fn some_distances(random: &mut Random) -> [u16; NODES] {
    let base = random.word();
    let shape = random.below(8);
    std::array::from_fn(|node| match shape {
        0 => random.below(4) as u16,
        1 => random.below(2) as u16,
        2 => base,
        3 => *random.pick(&[0, 65535]),
        4 => *random.pick(&[0, 1, 255, 256, 65534, 65535]),
        5 => (base & 0xfff0) + random.below(2) as u16,
        6 if node < 4 => 10 + random.below(3) as u16,
        6 => random.below(3) as u16,
        _ => random.word(),
    })
}

/// Live masks of many shapes: few nodes, many nodes, any, and about a smallest quorum with a node lost or some more live.
pub fn some_live(random: &mut Random) -> u16 {
    let shape = random.below(8);
    let mask = match shape {
        0 => random.word() & random.word(),
        1 => random.word(),
        2 => random.word() | random.word(),
        3 => ALL,
        4 | 5 => ALL & !model::only(random.below(NODES)) & !model::only(random.below(NODES)),
        _ => {
            let kind = *random.pick(&KINDS);
            let quorum = *random.pick(model::smallest(kind));
            let lost = if random.once_in(2) { model::only(random.below(NODES)) } else { 0 };
            let more = if shape == 6 { 0 } else { random.word() & random.word() };
            (quorum | more) & !lost
        }
    };
    mask & ALL
}

/// A node that asks.
pub fn some_asker(random: &mut Random) -> u8 {
    random.below(NODES) as u8
}

fn nearest(random: &mut Random, rounds: usize) -> Verdict {
    let inputs = 250_000 * rounds;
    let (mut ties, mut none, mut great, mut turned, mut asked) = (0, 0, 0, 0, 0);
    let mut chosen: [BTreeSet<u16>; 2] = [BTreeSet::new(), BTreeSet::new()];
    for _ in 0..inputs {
        let distances = some_distances(random);
        let (live, asker) = (some_live(random), some_asker(random));
        for (kind, seen) in KINDS.into_iter().zip(&mut chosen) {
            let got = compared(kind, live, &bytes_of(&distances), asker)?;
            if got.number != number::OK {
                none += 1;
                continue;
            }
            let candidates = model::candidates(kind, live, &distances, asker);
            ties += usize::from(candidates.iter().filter(|&&(sum, _, _)| sum == got.sum).count() > 1);
            great += usize::from(got.sum > 65535);
            turned += usize::from(candidates.iter().any(|&(_, _, mask)| mask < got.mask));
            asked += usize::from(candidates.iter().any(|&(sum, _, mask)| sum == got.sum && mask < got.mask));
            seen.insert(got.mask);
        }
    }
    let counted = format!(
        "{inputs} inputs of both kinds, {ties} answers with ties, {none} without a quorum, {great} sums above 65535, \
         {turned} not the lowest mask, {asked} of them for the asker alone, {} read and {} write quorums chosen",
        chosen[0].len(),
        chosen[1].len()
    );
    let answers = 2 * inputs;
    let often = great * 20 >= answers && turned * 20 >= answers && asked * 40 >= answers;
    let rich = ties * 5 >= answers && none * 10 >= answers && often;
    ensure!(rich && chosen[0].len() == 49 && chosen[1].len() == 27, "the inputs are too poor: {counted}");
    Ok(counted)
}

/// The two functions of the library agree: no quorum is answered exactly where the live mask is none, at any distances; and what is
/// chosen is a quorum inside the live mask.
fn none_without_a_quorum(random: &mut Random, rounds: usize) -> Verdict {
    let mut none = 0;
    for live in 0..=ALL {
        for kind in KINDS {
            for _ in 0..rounds {
                let got = ffi::nearest(kind, live, &bytes_of(&some_distances(random)), some_asker(random));
                if ffi::is_quorum(kind, live) {
                    let fits = got.number == number::OK && model::inside(got.mask, live) && ffi::is_quorum(kind, got.mask);
                    ensure!(fits, "{kind:?} live {live}: {got:?}");
                } else {
                    ensure!(got == refused(number::NO_QUORUM), "{kind:?} live {live} is no quorum: {got:?}");
                    none += 1;
                }
            }
        }
    }
    ensure!(none > 1000 * rounds && none < 15000 * rounds, "{none} without a quorum is too poor");
    Ok(format!("{} inputs, {none} without a quorum", 16384 * rounds))
}

/// Every live mask from 8192 on is refused with 4, whether or not its nodes contain a quorum.
fn strangers(random: &mut Random, _: usize) -> Verdict {
    let (mut count, mut with_quorum) = (0, 0);
    for live in ALL + 1..=u16::MAX {
        for kind in KINDS {
            let bytes = bytes_of(&some_distances(random));
            let got = compared(kind, live, &bytes, some_asker(random))?;
            ensure!(got == refused(number::STRANGER), "{kind:?} live {live}: {got:?}");
            count += 1;
            with_quorum += usize::from(model::is_quorum(kind, live));
        }
    }
    ensure!(count == 2 * 57344 && with_quorum > 10_000 && with_quorum < 100_000, "{count} masks, {with_quorum} quorums");
    Ok(format!("{count} calls, {with_quorum} of them with a quorum among the nodes"))
}

/// Every asker from 13 on is refused with 4, also where live has no quorum, which would be 8, or names a stranger too.
fn strange_askers(random: &mut Random, rounds: usize) -> Verdict {
    let mut count = 0;
    for asker in NODES as u8..=u8::MAX {
        for live in [0, 1, 8190, ALL, ALL + 1, u16::MAX].into_iter().chain((0..rounds).map(|_| some_live(random)).collect::<Vec<_>>()) {
            for kind in KINDS {
                let got = compared(kind, live, &bytes_of(&some_distances(random)), asker)?;
                ensure!(got == refused(number::STRANGER), "{kind:?} live {live} asker {asker}: {got:?}");
                count += 1;
            }
        }
    }
    Ok(format!("{count} calls"))
}

/// Every length from 0 to 60 but 26, together with masks and askers that would be refused with 4 or 8 or taken: 1 goes first. Some long ones too.
fn lengths(random: &mut Random, _: usize) -> Verdict {
    let others = (0..=60).filter(|&length| length != DISTANCES).chain([255, 256, 282, 1207, 65536 + 26]);
    let mut count = 0;
    for length in others {
        let bytes: Vec<u8> = (0..length).map(|_| random.below(256) as u8).collect();
        for live in [0, 1, 8190, ALL, ALL + 1, 40000, u16::MAX] {
            for (kind, asker) in KINDS.into_iter().flat_map(|kind| [0, 12, 13, u8::MAX].map(|asker| (kind, asker))) {
                let got = compared(kind, live, &bytes, asker)?;
                ensure!(got == refused(number::LENGTH), "{kind:?} live {live} asker {asker} length {length}: {got:?}");
                count += 1;
            }
        }
    }
    ensure!(count == 65 * 7 * 2 * 4, "{count} calls, not 3640");
    Ok(format!("{count} calls"))
}

/// Re-entrant: four threads at once get the model's answers, each on its own inputs.
fn threads(random: &mut Random, rounds: usize) -> Verdict {
    let inputs = 10_000 * rounds;
    in_four_threads(random, |random| {
        for _ in 0..inputs {
            let bytes = bytes_of(&some_distances(random));
            let (live, asker) = (some_live(random), some_asker(random));
            for kind in KINDS {
                compared(kind, live, &bytes, asker)?;
            }
        }
        Ok(())
    })?;
    Ok(format!("4 times {inputs} inputs of both kinds"))
}
