//! Lists of reads and jumps, and of register steps, on files that need not be finished, each with its own index, against the plain machine;
//! and lists on a cut recording beside the whole one.

use plain::words::WalkerWords;
use plain::{PRELUDE, Record, TRAILER};

use crate::cuts;
use crate::files;
use crate::grammar::{self, Chunk, Contents};
use crate::interface::{LIBRARY, PLAIN};
use crate::lists::{self, Call, Names, Runner, Side, calls_for, seek_near, stamp_of};
use crate::random::Random;
use crate::registers;
use crate::said::{Said, accepted, refused, said_read};
use crate::tally::{Tally, hex};

/// Lists on a recording that was cut: what is left of it is worked out from its chunks.
const CUT: Names = [
    "list, cut, on plain",
    "list, cut, on original",
    "list, cut, on library",
];
const CUT_STEPS: [&str; 2] = [
    "register steps, cut, on plain",
    "register steps, cut, on library",
];

/// Lists on any file, or on its bytes before an unknown tag.
pub const ANY: Names = [
    "list, any file, on plain",
    "list, any file, on original",
    "list, any file, on library",
];
const ANY_STEPS: [&str; 2] = [
    "register steps, any, on plain",
    "register steps, any, on library",
];

/// Lists on a cut recording and on the whole one.
const BESIDE: Names = [
    "cut beside whole on plain",
    "cut beside whole on original",
    "cut beside whole on library",
];

/// Calls that tell where a walker is in a file with these records: a read, a seek of no stream, and of each stream seeks to its first stamp,
/// to its last, which may be that of a cut chunk, and beside it.
fn telling_calls(records: &[Record]) -> Vec<Call> {
    let mut calls = vec![Call::Read, Call::Seek(2, 0)];
    for stream in [0, 1] {
        let mut stamps = records.iter().map(stamp_of);
        let last = stamps.rfind(|(of, _)| *of == stream);
        let last = last.map_or(0, |(_, stamp)| stamp as i64);
        let mut requests = vec![0, last - 1, last, last + 1];
        requests.sort();
        requests.dedup();
        calls.extend(requests.iter().map(|request| Call::Seek(stream, *request)));
    }
    calls
}

/// A list for a file with these records: to the last of them and a read there, to the end and a read there, away, a seek that is refused, to
/// the end by reads, beside the last, and to it again.
pub fn telling_list(records: &[Record]) -> Vec<Call> {
    let (stream, stamp) = records.last().map_or((0, 0), stamp_of);
    let (other, stamp) = (1 - stream, stamp as i64);
    let mut list = vec![
        Call::Seek(stream, stamp),
        Call::Read,
        Call::Seek(stream, stamp + 1),
        Call::Read,
        Call::Seek(other, i64::MIN),
        Call::Seek(2, stamp),
        Call::Read,
        Call::Seek(stream, 0),
    ];
    list.extend(vec![Call::Read; records.len() + 1]);
    for request in [stamp - 1, stamp] {
        list.extend([Call::Seek(stream, request), Call::Read]);
    }
    list
}

/// Runs lists on that part of a file that has an index. Where it is not all of the file, the index of the file is refused there with 31.
fn on_file(tally: &mut Tally, file: &[u8], lists: impl FnOnce(&mut Tally, &mut Runner)) {
    let (part, contents) = Contents::indexed(file);
    if part.len() < file.len() {
        let refusal = refused(31, part.len() as u64);
        let said = [PLAIN, LIBRARY].map(|side| side.build_chunk_index(file, &mut []));
        tally.equal("31 before a list", [refusal; 2], said, || hex(file));
    }
    lists(tally, &mut Runner::new(ANY, part, &contents));
}

/// The telling list on any file. Before an unknown tag that is the first there is a prelude alone: one is enough of those.
pub fn any_file(tally: &mut Tally, file: &[u8]) {
    on_file(tally, file, |tally, runner| {
        if runner.file.len() != PRELUDE || file.len() == PRELUDE {
            runner.run(tally, &telling_list(&runner.contents.records));
        }
    });
}

/// All lists of up to so many telling calls.
fn all_up_to(tally: &mut Tally, runner: &mut Runner, most: u32) {
    let calls = telling_calls(&runner.contents.records);
    for count in 0..=most {
        files::all_lists(&calls, count, |list| runner.run(tally, list));
    }
}

/// All lists of up to two telling calls on any file.
fn all_on(tally: &mut Tally, file: &[u8]) {
    on_file(tally, file, |tally, runner| all_up_to(tally, runner, 2));
}

/// A finished recording, to be cut.
struct Recording<'a> {
    file: &'a [u8],
    chunks: Vec<Chunk>,
    whole: Contents,
}

impl<'a> Recording<'a> {
    fn new(file: &'a [u8]) -> Self {
        Self {
            file,
            chunks: grammar::finished(file).expect("a finished recording"),
            whole: Contents::finished(file),
        }
    }

    /// Its first n bytes, and what they hold. The rest of the recording stands after them, where no call may look.
    fn cut_to(&self, n: u64) -> (&'a [u8], Contents) {
        let contents = Contents::cut(self.file, &self.chunks, n);
        (&self.file[..n as usize], contents)
    }
}

/// A side in a cut recording, and the same in the whole one, each with its own index.
struct Beside<'a> {
    recording: &'a Recording<'a>,
    n: u64,
    /// How many records the cut file has.
    records: usize,
    cut: Box<dyn Side + 'a>,
    whole: Box<dyn Side + 'a>,
}

impl<'a> Beside<'a> {
    /// The three sides, for a recording that is cut to n bytes.
    fn sides(recording: &'a Recording, n: u64) -> Vec<Self> {
        let (file, contents) = recording.cut_to(n);
        let records = contents.records.len();
        let cut = lists::sides(file, records).into_iter();
        let whole = lists::sides(recording.file, recording.chunks.len());
        cut.zip(whole)
            .map(|(cut, whole)| Self {
                recording,
                n,
                records,
                cut,
                whole,
            })
            .collect()
    }

    /// A read of the whole recording as it is where the recording is cut: the same if it gave a packet whose chunk ends within n bytes, else
    /// End.
    fn surviving(&self, said: Said<7>) -> Said<7> {
        let [_, packet, _, start, length, ..] = said.out;
        if packet == 1 && start + length <= self.n {
            said
        } else {
            accepted(&[])
        }
    }

    /// The number of the record that a seek went to, in a file that has so many; that number where it went to the end.
    fn went_to(&self, walker: WalkerWords, records: usize) -> Option<usize> {
        if walker[4] == 1 {
            return Some(records);
        }
        let mut chunks = self.recording.chunks.iter();
        chunks.position(|chunk| chunk.offset == walker[0])
    }

    /// Whether a call on both is as it must be: a read on the cut file is what survives of that on the whole one. A seek goes to the same
    /// record where the cut file has it, with the same stamp, cursor and counts, and else to the end.
    fn same(&mut self, call: Call) -> bool {
        let Call::Seek(stream, request) = call else {
            let whole = self.whole.read();
            return self.cut.read() == self.surviving(whole);
        };
        let [cut, whole] = [&mut self.cut, &mut self.whole].map(|side| side.seek(stream, request));
        if stream > 1 {
            return cut == refused(42, 0) && whole == cut;
        }
        let [cut_words, whole_words] = [&self.cut, &self.whole].map(|side| side.walker());
        let to = self.went_to(cut_words, self.records);
        let in_whole = self.went_to(whole_words, self.recording.chunks.len());
        let there = to == Some(self.records) || cut == whole && cut_words[..4] == whole_words[..4];
        let accepted = cut.number == 0 && whole.number == 0;
        accepted && to == in_whole.map(|number| number.min(self.records)) && there
    }

    /// Whether each packet that a list on the cut file gives is one of the whole recording's drain, and survives.
    fn packets_survive(&mut self, list: &[Call]) -> bool {
        let drained = &self.recording.whole.packets;
        let drained: Vec<Said<7>> = drained.iter().map(|p| said_read(Ok(Some(*p)))).collect();
        list.iter().all(|call| match call {
            Call::Seek(stream, request) => {
                self.cut.seek(*stream, *request);
                true
            }
            Call::Read => {
                let said = self.cut.read();
                let known = drained.contains(&said) || said == accepted(&[]);
                known && said == self.surviving(said)
            }
        })
    }

    /// A list on the cut file, another on the whole one, and then one on both together and reads to the end. Where the first two are not
    /// empty the third begins with a seek, which then has both walkers stand alike.
    fn run(&mut self, apart: [&[Call]; 2], together: &[Call]) -> bool {
        self.cut.restart();
        self.whole.restart();
        let survive = self.packets_survive(apart[0]);
        for call in apart[1] {
            match call {
                Call::Read => _ = self.whole.read(),
                Call::Seek(stream, request) => _ = self.whole.seek(*stream, *request),
            }
        }
        let reads = vec![Call::Read; self.recording.chunks.len() + 1];
        let mut calls = together.iter().chain(&reads);
        survive && calls.all(|call| self.same(*call))
    }
}

/// Lists on a cut recording beside the whole one, on each of its sides.
fn beside(tally: &mut Tally, sides: &mut [Beside], apart: [&[Call]; 2], together: &[Call]) {
    for (name, side) in BESIDE.iter().zip(sides) {
        let same = side.run(apart, together);
        tally.judge(name, same, || {
            let (n, file) = (side.n, hex(side.recording.file));
            format!("{together:?} after {apart:?} on {n} bytes of {file}")
        });
    }
}

/// All lists of up to so many telling calls on a recording cut to n bytes; all lists of two, with those of the whole one, on both; and lists
/// of steps.
fn all_cut(tally: &mut Tally, random: &mut Random, recording: &Recording, n: u64, most: u32) {
    let (file, contents) = recording.cut_to(n);
    all_up_to(tally, &mut Runner::new(CUT, file, &contents), most);
    for _ in 0..4 {
        registers::list(tally, random, CUT_STEPS, file, &contents);
    }
    let mut calls = telling_calls(&contents.records);
    calls.extend(&telling_calls(&recording.whole.records)[2..]);
    let mut sides = Beside::sides(recording, n);
    files::all_lists(&calls, 2, |list| beside(tally, &mut sides, [&[]; 2], list));
}

/// Short lists on short files, in full.
pub fn short(tally: &mut Tally, random: &mut Random) {
    let mut recordings = files::shapes();
    recordings.push(files::nested());
    for file in &recordings {
        let recording = Recording::new(file);
        for n in PRELUDE as u64..=file.len() as u64 {
            all_cut(tally, random, &recording, n, 3);
        }
        for more in 1..20 {
            all_on(tally, &[&file[..], &vec![b'0'; more]].concat());
        }
        all_on(tally, &[&file[..], TRAILER].concat());
        all_on(tally, &[&file[..], &file[PRELUDE..]].concat());
    }
    shorter_than_a_prelude(tally, random);
    preludes(tally);
}

/// Files that end before a chunk can stand in them: the first bytes of a recording, and bytes that elsewhere would be chunks.
fn shorter_than_a_prelude(tally: &mut Tally, random: &mut Random) {
    let example = files::example();
    let recording = Recording::new(&example);
    let chunks = example[PRELUDE..].repeat(9);
    for n in 0..PRELUDE {
        all_cut(tally, random, &recording, n as u64, 2);
        all_on(tally, &chunks[..n]);
    }
}

/// Each byte of E's prelude put wrong, in the whole file and in one that is cut in its last chunk, which has a record.
fn preludes(tally: &mut Tally) {
    let mut file = files::example();
    for at in 0..PRELUDE {
        file[at] ^= 0xff;
        all_on(tally, &file);
        all_on(tally, &file[..343]);
        file[at] ^= 0xff;
    }
}

/// Lists on any file, and a list of steps.
pub fn round(tally: &mut Tally, random: &mut Random, file: &[u8]) {
    on_file(tally, file, |tally, runner| {
        for _ in 0..3 {
            runner.run(tally, &calls_for(random, &runner.contents.records));
        }
        registers::list(tally, random, ANY_STEPS, runner.file, runner.contents);
    });
}

/// Lists on a recording that is cut to telling lengths and inside its chunks, on it and on the whole one; and lists of steps.
pub fn cut_round(tally: &mut Tally, random: &mut Random, file: &[u8]) {
    let recording = Recording::new(file);
    let mut lengths = cuts::lengths(random, &recording.chunks, file.len() as u64);
    let inside = |chunk: &Chunk| chunk.offset + 8 + random.below(chunk.length.max(1));
    lengths.extend(recording.chunks.iter().map(inside));
    for _ in 0..4 {
        let n = random.pick(&lengths);
        let (file, contents) = recording.cut_to(n);
        let [here, there] = [&contents, &recording.whole].map(|contents| &contents.records[..]);
        let mut list = |records| calls_for(random, records);
        let (in_cut, in_whole, mut after) = (list(here), list(there), list(here));
        Runner::new(CUT, file, &contents).run(tally, &in_cut);
        let mut sides = Beside::sides(&recording, n);
        beside(tally, &mut sides, [&[]; 2], &in_cut);
        beside(tally, &mut sides, [&[]; 2], &in_whole);
        after.insert(0, seek_near(random, there));
        beside(tally, &mut sides, [&in_cut, &in_whole], &after);
        registers::list(tally, random, CUT_STEPS, file, &contents);
    }
}
