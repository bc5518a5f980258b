//! A table that closes for good comes at every moment of a transaction: what is under way goes on to its last done, and only the next begin is closed.

use super::seen::{Case, Seen, STEPS};
use super::{Run, Setup, SETUP};
use crate::model::coordinator::Call;
use crate::model::hours::{encode, Table, Window};
use crate::model::message::WRITE;
use crate::model::number;
use crate::model::quorum::{nodes, ALL, NODES};
use crate::model::record::phase;
use crate::model::station::Step;
use crate::runner::{ensure, Verdict};

const NODE: u8 = 5;
const OBJECT: u8 = 7;

/// The minute of every begin, which is open at first.
const MINUTE: u16 = 600;

/// The nodes of the write quorum that this node chooses when all are live and every distance is 1.
const PARTY: u16 = 439;

fn begin(timestamp: u32) -> Step {
    Step::Host { node: NODE, call: Call::Begin { live: ALL, distances: [1, 0].repeat(NODES), timestamp, day: 9, minute: MINUTE } }
}

/// One transaction, from its begin to its last done.
fn transaction() -> Vec<Step> {
    let host = |call| Step::Host { node: NODE, call };
    let there_and_back = |to: u8| {
        let deliver = Step::Deliver { at: 0, kept: false };
        [Step::Send { node: NODE, to, object: OBJECT }, deliver.clone(), deliver]
    };
    let mut steps = vec![begin(1), host(Call::Open { object: OBJECT, mode: WRITE }), host(Call::SetValue { object: OBJECT, value: 70 })];
    steps.extend(there_and_back(0));
    steps.extend([host(Call::Found { object: OBJECT }), host(Call::RequestCommit)]);
    for _ in ["votes", "dones"] {
        steps.extend(nodes(PARTY).flat_map(|to| there_and_back(to as u8)));
    }
    steps
}

/// The same table at every node.
fn load_everywhere(run: &mut Run, table: &Table) -> Result<(), String> {
    (0..NODES as u8).try_for_each(|node| run.take(Step::Load { node, list: encode(table) }))
}

/// How many steps were refused so far, and with this number.
fn refused(seen: &Seen, number: u8) -> (usize, usize) {
    let accepted: usize = (0..STEPS.len()).map(|step| seen.numbers[step][0]).sum();
    (seen.steps() - accepted, seen.numbers[0][usize::from(number)])
}

pub fn at_every_moment() -> Verdict {
    let open = Table { windows: vec![Window { start: MINUTE, end: MINUTE + 1 }], dates: vec![10] };
    let closed = [
        Table::default(),
        Table { windows: vec![Window { start: MINUTE + 1, end: MINUTE + 2 }], dates: vec![] },
        Table { windows: open.windows.clone(), dates: vec![8, 9] },
    ];
    let steps = transaction();
    for (moment, closed) in (1..=steps.len()).flat_map(|moment| closed.iter().map(move |table| (moment, table))) {
        let mut seen = Seen::default();
        let mut run = Run::new(ALL, Setup { library: true, ..SETUP }, &mut seen);
        load_everywhere(&mut run, &open)?;
        for (place, step) in steps.iter().enumerate() {
            if place == moment {
                load_everywhere(&mut run, closed)?;
            }
            run.take(step.clone())?;
        }
        if moment == steps.len() {
            load_everywhere(&mut run, closed)?;
        }
        ensure!(refused(run.seen, number::CLOSED) == (0, 0), "closed before step {moment}: a step of what was under way is refused");
        ensure!(run.station.records[usize::from(NODE)].phase == phase::IDLE, "closed before step {moment}: it does not end");
        run.take(begin(2))?;
        ensure!(refused(run.seen, number::CLOSED) == (1, 1), "closed before step {moment}: the next begin is not closed");
        load_everywhere(&mut run, &open)?;
        run.take(begin(2))?;
        run.check()?;
        ensure!(refused(run.seen, number::CLOSED) == (1, 1), "open again: the next begin is refused");
        ensure!(run.seen.of(Case::Committed) == 1 && run.seen.of(Case::Begun) == 2, "not one commit and two begins");
    }
    Ok(format!("{} moments, {} tables", steps.len(), closed.len()))
}
