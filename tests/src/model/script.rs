//! The station program: how it reads a line of a scenario, and what it prints, from docs/SCENARIOS.md.

use super::classes::encode_weights;
use super::coordinator::Call;
use super::history::History;
use super::image::Author;
use super::message::{kind, Message, READ, WRITE, YES};
use super::quorum::{nodes, only, ALL, NODES};
use super::station::{blank, Event, Station, Step};
use super::{Fault, OBJECTS};

/// A line has at most so many bytes.
pub const LONGEST: usize = 160;

/// A `list` line has at most so many numbers, and the list.
pub const LINE_NUMBERS: usize = 16;
pub const LIST_NUMBERS: usize = 4097;

/// What a line says.
#[derive(Clone, Debug, PartialEq, Eq)]
pub enum Line {
    /// Nothing, but spaces and a comment.
    Nothing,
    Bad,
    Blank(u16),
    /// The day and the minute of the begins behind it.
    Clock(u32, u16),
    /// Numbers for the list; none empties it.
    List(Vec<u32>),
    /// Steps that take the list: a table of packing hours for a node, a table of weight classes, and a batch with its stamp and live nodes.
    Hours(u8),
    Classes(u8),
    Batch(u8, u32, u16),
    /// Any other step. A begin is given the clock's day and minute when it is taken.
    Step(Step),
}

/// "Base ten, with a `-` before it where it is negative; within 64 bits with a sign."
fn number(word: &[u8]) -> Option<i64> {
    let text = std::str::from_utf8(word).ok()?;
    let digits = text.strip_prefix('-').unwrap_or(text);
    if digits.is_empty() || !digits.bytes().all(|byte| byte.is_ascii_digit()) {
        return None;
    }
    text.parse().ok()
}

/// The words of a line: its first word, and the numbers behind it. None where a word is no number.
fn words(line: &[u8]) -> Option<(&[u8], Vec<i64>)> {
    let said = line.split(|&byte| byte == b'#').next().unwrap_or(line);
    let mut words = said.split(|&byte| byte == b' ').filter(|word| !word.is_empty());
    let first = words.next().unwrap_or(b"");
    let numbers: Option<Vec<i64>> = words.map(number).collect();
    numbers.map(|numbers| (first, numbers))
}

/// A number of 8, 16 or 32 bits.
fn bits<T: TryFrom<i64>>(number: i64) -> Option<T> {
    T::try_from(number).ok()
}

/// Thirteen distances as bytes; "without distances each is 1".
fn distances(numbers: &[i64]) -> Option<Vec<u8>> {
    let list: Option<Vec<u16>> = if numbers.is_empty() { Some(vec![1; NODES]) } else { numbers.iter().map(|&n| bits(n)).collect() };
    let list = list.filter(|list| list.len() == NODES)?;
    Some(list.into_iter().flat_map(u16::to_le_bytes).collect())
}

/// A host call by its word; none for another word, or where its numbers do not fit.
fn call(word: &[u8], numbers: &[i64]) -> Option<(u8, Call)> {
    let node = bits(*numbers.first()?)?;
    let call = match (word, &numbers[1..]) {
        (b"begin", [stamp, live, rest @ ..]) => {
            Call::Begin { live: bits(*live)?, distances: distances(rest)?, timestamp: bits(*stamp)?, day: 0, minute: 0 }
        }
        (b"read", [object]) => Call::Open { object: bits(*object)?, mode: READ },
        (b"write", [object]) => Call::Open { object: bits(*object)?, mode: WRITE },
        (b"set", [object, value]) => Call::SetValue { object: bits(*object)?, value: *value },
        (b"found", [object]) => Call::Found { object: bits(*object)? },
        (b"reselect", [live, rest @ ..]) => Call::Reselect { live: bits(*live)?, distances: distances(rest)? },
        (b"ask", []) => Call::RequestCommit,
        (b"abort", []) => Call::Abort,
        _ => return None,
    };
    Some((node, call))
}

/// A step by its word.
fn step(word: &[u8], numbers: &[i64]) -> Option<Step> {
    if let Some((node, call)) = call(word, numbers) {
        return Some(Step::Host { node, call });
    }
    let place = |number: i64| bits::<u8>(number).map(usize::from);
    Some(match (word, numbers) {
        (b"send", [node, to, object]) => Step::Send { node: bits(*node)?, to: bits(*to)?, object: bits(*object)? },
        (b"deliver", [at]) => Step::Deliver { at: place(*at)?, kept: false },
        (b"keep", [at]) => Step::Deliver { at: place(*at)?, kept: true },
        (b"drop", [at]) => Step::Drop { at: place(*at)? },
        (b"on", [node]) => Step::Switch { node: bits(*node)?, on: true },
        (b"off", [node]) => Step::Switch { node: bits(*node)?, on: false },
        _ => return None,
    })
}

/// What a line without its newline says.
pub fn read_line(line: &[u8]) -> Line {
    if line.len() > LONGEST {
        return Line::Bad;
    }
    let Some((word, numbers)) = words(line) else { return Line::Bad };
    match (word, &numbers[..]) {
        (b"", []) => Line::Nothing,
        (b"blank", [mask]) => bits(*mask).map_or(Line::Bad, Line::Blank),
        (b"clock", [day, minute]) => bits(*day).zip(bits(*minute)).map_or(Line::Bad, |(day, minute)| Line::Clock(day, minute)),
        (b"list", list) if list.len() <= LINE_NUMBERS => {
            list.iter().map(|&number| bits(number)).collect::<Option<Vec<u32>>>().map_or(Line::Bad, Line::List)
        }
        (b"hours", [node]) => bits(*node).map_or(Line::Bad, Line::Hours),
        (b"classes", [node]) => bits(*node).map_or(Line::Bad, Line::Classes),
        (b"batch", [node, stamp, live]) => match (bits(*node), bits(*stamp), bits(*live)) {
            (Some(node), Some(stamp), Some(live)) => Line::Batch(node, stamp, live),
            _ => Line::Bad,
        },
        _ => step(word, &numbers).map_or(Line::Bad, Line::Step),
    }
}

/// A list as the bytes of a table of packing hours: its first number n in 1 byte, the 2n behind it in 2 bytes each, then one in 1 byte, and all that
/// follow in 4 bytes each. None where a number is too wide for its place.
pub fn laid(list: &[u32]) -> Option<Vec<u8>> {
    let last_of_windows = 2 * list.first().map_or(0, |&count| count as usize);
    let mut bytes = Vec::new();
    for (place, &number) in list.iter().enumerate() {
        if place == 0 || place == last_of_windows + 1 {
            bytes.push(u8::try_from(number).ok()?);
        } else if place <= last_of_windows {
            bytes.extend(u16::try_from(number).ok()?.to_le_bytes());
        } else {
            bytes.extend(number.to_le_bytes());
        }
    }
    Some(bytes)
}

/// A list as the bytes of a table of weight classes: its first number n in 1 byte, the n behind it in 2 bytes each, and all that follow in 1 byte each.
pub fn laid_classes(list: &[u32]) -> Option<Vec<u8>> {
    let last_of_bounds = list.first().map_or(0, |&count| count as usize);
    let mut bytes = Vec::new();
    for (place, &number) in list.iter().enumerate() {
        if place == 0 || place > last_of_bounds {
            bytes.push(u8::try_from(number).ok()?);
        } else {
            bytes.extend(u16::try_from(number).ok()?.to_le_bytes());
        }
    }
    Some(bytes)
}

/// A list as the bytes of a batch: how many numbers it has in 2 bytes, then each in 2 bytes.
pub fn laid_weights(list: &[u32]) -> Option<Vec<u8>> {
    let weights: Option<Vec<u16>> = list.iter().map(|&number| u16::try_from(number).ok()).collect();
    weights.map(|weights| encode_weights(&weights))
}

/// The documents' word of a number.
fn word_of(number: u8) -> &'static str {
    const WORDS: [&str; 15] = [
        "length",
        "damaged",
        "garbled",
        "stranger",
        "out of turn",
        "no such tally",
        "eight open",
        "no quorum",
        "number used up",
        "busy",
        "not ready",
        "pool full",
        "closed",
        "bounds",
        "tally twice",
    ];
    WORDS[usize::from(number) - 1]
}

/// "A vote is `yes` or `no`, an outcome `commit` or `abort`."
fn word_of_kind(message: &Message) -> &'static str {
    let agrees = message.words == [YES];
    match message.kind {
        kind::FETCH => "fetch",
        kind::COPY => "copy",
        kind::ASK => "ask",
        kind::VOTE if agrees => "yes",
        kind::VOTE => "no",
        kind::OUTCOME if agrees => "commit",
        kind::OUTCOME => "abort",
        kind::DONE => "done",
        _ => "yield",
    }
}

/// A message with its fields.
pub fn show(message: &Message) -> String {
    let Message { from, to, transaction, .. } = message;
    let (owner, serial, stamp) = (transaction.owner, transaction.serial, transaction.stamp);
    let mut text = format!("{} {from} to {to} for {owner}.{serial} stamp {stamp}", word_of_kind(message));
    for entry in &message.entries {
        let mode = if entry.mode == READ { "read" } else { "write" };
        text += &format!(" {mode} {} version {} value {}", entry.object, entry.version, entry.value);
    }
    for rival in &message.rivals {
        text += &format!(" rival {}.{}", rival.owner, rival.serial);
    }
    text
}

/// What an accepted step answered, by its kind; nothing where it has nothing to tell.
fn answered(step: &Step, answer: i64) -> String {
    match step {
        Step::Host { call: Call::Begin { .. } | Call::Batch { .. } | Call::Reselect { .. }, .. } => format!(" quorum {answer}"),
        Step::Host { call: Call::RequestCommit, .. } => format!(" participants {answer}"),
        Step::Host { call: Call::Found { .. }, .. } => format!(" value {answer}"),
        Step::Deliver { .. } => String::from(["", " committed", " aborted", " ready", " finished"][answer as usize]),
        _ => String::new(),
    }
}

/// "OWNER/SERIAL", a dash where nobody wrote, a question mark where it is unknown who did.
fn show_author(author: Author) -> String {
    match author {
        Author::NOBODY => String::from("-"),
        Author::UNKNOWN => String::from("?"),
        Author { owner, serial } => format!("{owner}/{serial}"),
    }
}

/// The newest copies of an object.
struct Newest {
    version: u32,
    value: i64,
    nodes: u16,
    author: Author,
}

/// What came of a line, for a test to count.
#[derive(Clone, Debug, PartialEq, Eq)]
pub enum Taken {
    Nothing,
    Bad,
    /// A `blank`, and whether it was refused.
    Blank(bool),
    Clock,
    List,
    Step(Event),
}

/// The program under way, with all that it has printed.
pub struct Program {
    station: Station,
    history: History,
    /// Whether a scenario runs, which then has an end.
    runs: bool,
    /// The day and the minute of the next begin.
    clock: (u32, u16),
    list: Vec<u32>,
    line: usize,
    pub printed: Vec<u8>,
    /// The scenarios that ended: whether at rest, whether settled.
    pub ends: Vec<(bool, bool)>,
}

impl Program {
    /// "Before the first `blank` every node is on."
    pub fn new() -> Program {
        let (station, history) = (blank(ALL), History::new(ALL, true));
        Program { station, history, runs: false, clock: (0, 0), list: vec![], line: 0, printed: vec![], ends: vec![] }
    }

    fn print(&mut self, text: &str) {
        self.printed.extend(text.bytes());
        self.printed.push(b'\n');
    }

    /// The line itself behind its number.
    fn echo(&mut self, line: &[u8]) {
        self.printed.extend(format!("{} ", self.line).bytes());
        self.printed.extend(line);
        self.printed.push(b'\n');
    }

    fn refused(&mut self, number: u8) {
        self.print(&format!("  {number} {}", word_of(number)));
    }

    /// The newest copies of an object: version, the nodes that have it, and the value and the author of the lowest node's.
    fn newest(&self, object: usize) -> Newest {
        let copy = |node: usize| &self.station.images[node].copies[object];
        let version = nodes(ALL).map(|node| copy(node).version).max().expect("thirteen nodes");
        let having: Vec<usize> = nodes(ALL).filter(|&node| copy(node).version == version).collect();
        let first = copy(having[0]);
        Newest { version, value: first.value, nodes: having.iter().map(|&node| only(node)).sum(), author: first.author }
    }

    /// The end of the scenario that runs, if one does.
    pub fn end(&mut self) {
        if !self.runs {
            return;
        }
        self.print("end");
        let replayed = self.history.last_values();
        for object in 0..OBJECTS {
            let (Newest { version, value, nodes, author }, replay) = (self.newest(object), replayed[object]);
            if version != 0 || replay != 0 {
                let by = show_author(author);
                self.print(&format!("  object {object} version {version} value {value} nodes {nodes} by {by} replay {replay}"));
            }
        }
        for node in nodes(ALL) {
            if let Some(table) = &self.station.settings[node].classes {
                let tenths = self.station.waiting(node).map(|tenths| tenths.to_string());
                self.print(&format!("  waiting {node} {}", tenths[..table.objects.len()].join(" ")));
            }
        }
        let (at_rest, settled) = (self.station.at_rest(), self.history.settled());
        let yes = |fact: bool| if fact { "yes" } else { "no" };
        self.print(&format!("  at rest {}", yes(at_rest)));
        self.print(&format!("  settled {}", yes(settled)));
        self.ends.push((at_rest, settled));
    }

    fn bad(&mut self) -> Taken {
        self.print(&format!("line {}: no such step, nothing done", self.line));
        Taken::Bad
    }

    /// A `blank`: the scenario that runs ends and a new one starts, with its clock at 0 0 and an empty list. A mask of nodes that are not there is refused.
    fn anew(&mut self, line: &[u8], mask: u16) -> Taken {
        if mask > ALL {
            self.echo(line);
            self.refused(super::number::STRANGER);
            return Taken::Blank(true);
        }
        self.end();
        (self.station, self.history, self.runs) = (blank(mask), History::new(mask, true), true);
        (self.clock, self.list) = ((0, 0), vec![]);
        self.echo(line);
        Taken::Blank(false)
    }

    /// A `clock` is no step: it is printed, and later begins carry it. Whether a scenario runs stays as it was.
    fn set_clock(&mut self, line: &[u8], day: u32, minute: u16) -> Taken {
        self.echo(line);
        self.clock = (day, minute);
        Taken::Clock
    }

    /// A `list` is no step either. A line that would make the list longer than it may be is bad.
    fn add_to_list(&mut self, line: &[u8], numbers: &[u32]) -> Taken {
        if self.list.len() + numbers.len() > LIST_NUMBERS {
            return self.bad();
        }
        self.echo(line);
        if numbers.is_empty() {
            self.list.clear();
        }
        self.list.extend(numbers);
        Taken::List
    }

    /// An `hours`, a `classes` or a `batch` takes the list, whatever its number; where a number is too wide for its place the line is bad, and the list
    /// stays.
    fn take_list(&mut self, line: &[u8], laid: Option<Vec<u8>>, step: impl Fn(Vec<u8>) -> Step) -> Result<Taken, String> {
        let Some(list) = laid else { return Ok(self.bad()) };
        self.list.clear();
        self.take_step(line, step(list))
    }

    /// A step: "`takes` with the message that it names, `ok` with what was answered or the number with its word, `puts` with the message put".
    fn take_step(&mut self, line: &[u8], mut step: Step) -> Result<Taken, String> {
        self.runs = true;
        if let Step::Host { call: Call::Begin { day, minute, .. } | Call::Batch { day, minute, .. }, .. } = &mut step {
            (*day, *minute) = self.clock;
        }
        self.echo(line);
        if let Step::Deliver { at, .. } | Step::Drop { at } = step {
            if let Some(message) = self.station.pool.get(at).map(show) {
                self.print(&format!("  takes {message}"));
            }
        }
        let event = self.station.step(step, Fault::None);
        self.history.feed(&event, &self.station)?;
        match &event.told {
            Err(number) => self.refused(*number),
            // A batch that is given up is refused too.
            Ok(told) if told.number != super::number::OK => self.refused(told.number),
            Ok(told) => {
                self.print(&format!("  ok{}", answered(&event.step, told.answer)));
                if let Some(message) = &told.put {
                    self.print(&format!("  puts {}", show(message)));
                }
            }
        }
        Ok(Taken::Step(event))
    }

    /// A line without its newline. An error only where demand 3 fails in the model itself.
    pub fn take(&mut self, line: &[u8]) -> Result<Taken, String> {
        self.line += 1;
        match read_line(line) {
            Line::Nothing => Ok(Taken::Nothing),
            Line::Bad => Ok(self.bad()),
            Line::Blank(mask) => Ok(self.anew(line, mask)),
            Line::Clock(day, minute) => Ok(self.set_clock(line, day, minute)),
            Line::List(numbers) => Ok(self.add_to_list(line, &numbers)),
            Line::Hours(node) => self.take_list(line, laid(&self.list), |list| Step::Load { node, list }),
            Line::Classes(node) => self.take_list(line, laid_classes(&self.list), |list| Step::LoadClasses { node, list }),
            Line::Batch(node, timestamp, live) => {
                let distances = distances(&[]).expect("thirteen");
                let call = |list| Call::Batch { live, distances: distances.clone(), timestamp, day: 0, minute: 0, list };
                self.take_list(line, laid_weights(&self.list), |list| Step::Host { node, call: call(list) })
            }
            Line::Step(step) => self.take_step(line, step),
        }
    }

    /// How the station stands, for a test that makes the next step.
    pub fn station(&self) -> &Station {
        &self.station
    }

    /// What the next begin and the next step that takes the list would carry.
    pub fn clock(&self) -> (u32, u16) {
        self.clock
    }

    pub fn list(&self) -> &[u32] {
        &self.list
    }
}

/// All that the program prints for a text.
pub fn output(text: &[u8]) -> Result<Vec<u8>, String> {
    let mut program = Program::new();
    for line in super::program::lines(text) {
        program.take(line)?;
    }
    program.end();
    Ok(program.printed)
}
