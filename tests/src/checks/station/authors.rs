//! Who wrote last at a station: by which steps it changes, and what was compared.

use crate::model::image::Author;
use crate::model::message::{kind, Message, COMMIT, WRITE};
use crate::model::replica::Standing;
use crate::model::station::{Event, Station, Step};
use crate::model::OBJECTS;
use crate::runner::ensure;

/// What was met of authors.
#[derive(Debug, Default)]
pub struct Authors {
    /// Objects whose newest copies were compared at rest with the one-by-one running, in every read quorum; of these written by a transaction, by
    /// nobody, and by whom is unknown.
    pub compared: usize,
    pub written: usize,
    pub nobody: usize,
    pub unknown: usize,
    /// Copies taken in whose author is unknown; copies whose unknown author a commit replaced.
    pub taken: usize,
    pub replaced: usize,
}

impl Authors {
    /// Every newest copy has these.
    pub fn add(&mut self, last: &[Author; OBJECTS]) {
        let count = |author: Author| last.iter().filter(|&&it| it == author).count();
        self.compared += OBJECTS;
        self.nobody += count(Author::NOBODY);
        self.unknown += count(Author::UNKNOWN);
        self.written += last.iter().filter(|author| author.serial > 0).count();
    }

    /// Whether scenarios from blank met enough.
    pub fn rich(&self, rounds: usize) -> bool {
        self.compared >= 12_000 * rounds && self.written >= 200 * rounds && self.nobody >= 2000 * rounds && self.unknown == 0
    }

    pub fn words(&self) -> String {
        let Authors { compared, written, nobody, unknown, taken, replaced } = self;
        format!(
            "last writers of {compared} objects compared at rest, {written} known, {nobody} nobody, {unknown} unknown; \
             {taken} copies taken in with an unknown one, {replaced} of them replaced"
        )
    }
}

/// The objects that a message commits.
fn commits(message: &Message) -> Vec<u8> {
    let is_commit = message.kind == kind::OUTCOME && message.words == [COMMIT];
    let written = message.entries.iter().filter(|entry| is_commit && entry.mode == WRITE);
    written.map(|entry| entry.object).collect()
}

/// "Until the next commit": who wrote last changes by a commit that its replica holds, for each object that it writes, and by nothing else. How many
/// unknown ones it replaced.
pub fn moved(before: &Station, event: &Event, after: &Station) -> Result<usize, String> {
    let (Step::Deliver { at, .. }, Ok(_)) = (&event.step, &event.told) else { return Ok(0) };
    let message = &before.pool[*at];
    let node = usize::from(message.to);
    let held = before.is_on(message.to) && Standing::of(&before.images[node], message.transaction) == Standing::Held;
    let written = if held { commits(message) } else { vec![] };
    let mut replaced = 0;
    for (object, (old, new)) in (0..).zip(before.images[node].copies.iter().zip(&after.images[node].copies)) {
        let writes = written.contains(&object);
        let expected = if writes { Author { owner: message.transaction.owner, serial: message.transaction.serial } } else { old.author };
        ensure!(new.author == expected, "node {node}, object {object}: {message:?} makes {:?} {:?}", old.author, new.author);
        replaced += usize::from(writes && old.author == Author::UNKNOWN);
    }
    Ok(replaced)
}
