//! The register block (docs/FORMAT.md, 17): what the request says of every step, bit by bit, from what the library's read and jump answer by
//! themselves, in terms that share nothing with the plain implementation's step; and the blocks, readers and lists of steps that are fed to
//! the comparison.

use plain::words::{WalkerWords, walker_words};
use plain::{AUDIO, COUNT_LIMIT, PRELUDE, RECORD, REGISTERS, Record, VIDEO, Walker};

use crate::calls::{self, Guarded};
use crate::files;
use crate::grammar::Contents;
use crate::interface::{LIBRARY, PLAIN};
use crate::lists::{self, Call, Machine, OriginalSide, Side, WordsSide};
use crate::pages;
use crate::random::Random;
use crate::said::{Said, accepted, refused, said_read};
use crate::suites;
use crate::tally::{Tally, hex};

/// What a step is run on.
#[derive(Clone, Copy)]
pub struct Reader<'a> {
    /// What its reads read.
    pub file: &'a [u8],
    /// The records that its seeks go by.
    pub table: &'a [u8],
    /// Where it stands before the step.
    pub walker: WalkerWords,
}

/// What a block's command is by itself: a read or a jump of the library, or nothing.
struct Alone {
    /// The number of its refusal, or 0.
    number: u32,
    /// `out` of a read that gave a packet.
    packet: Option<[u64; 7]>,
    /// The stamp that was given.
    stamp: Option<u64>,
    /// The walker after it.
    walker: WalkerWords,
}

/// The signed number in a block of 16 bytes.
fn request_of(block: &[u8]) -> i64 {
    let bytes = block[8..].iter().rev();
    bytes.fold(0, |number, byte| number << 8 | i64::from(*byte))
}

/// The read or jump that a block asks for, none where it is refused or its command is 0.
fn call_of(block: &[u8]) -> Option<Call> {
    match block {
        _ if block.len() != 16 => None,
        [1, ..] => Some(Call::Read),
        [2, ..] => Some(Call::Seek(0, request_of(block))),
        [3, ..] => Some(Call::Seek(1, request_of(block))),
        _ => None,
    }
}

impl Alone {
    fn of(reader: &Reader, block: &[u8]) -> Self {
        let mut walker = reader.walker;
        let (number, packet, stamp) = match call_of(block) {
            None => (0, None, None),
            Some(Call::Read) => {
                let Said { number, out } = LIBRARY.next_packet(reader.file, &mut walker);
                let packet = (out[1] == 1).then_some(out);
                (number, packet, packet.map(|out| out[5]))
            }
            Some(Call::Seek(stream, request)) => {
                let table = reader.table;
                let said = LIBRARY.seek_to_via_index(table, &mut walker, stream, request);
                let stamp = (said.number == 0).then_some(said.out[1]);
                (said.number, None, stamp)
            }
        };
        Self {
            number,
            packet,
            stamp,
            walker,
        }
    }

    /// A bit of status after it.
    fn status(&self, bit: u32) -> bool {
        match bit {
            0 => self.packet.is_some(),
            1 => self.walker[4] == 1,
            2 => self.walker[5] == 1,
            3 => self.number > 0,
            _ => false,
        }
    }

    /// A bit of pending after it: one that rises, or one that was pending and is not acknowledged.
    fn pending(&self, given: &[u8], bit: u32) -> bool {
        let [was, enabled, pending, acknowledged] = [1, 2, 3, 4].map(|at| given[at] >> bit & 1 > 0);
        match (enabled, was, self.status(bit)) {
            (true, false, true) => true,
            _ => pending && !acknowledged,
        }
    }

    /// The byte at a place of the block after it.
    fn byte(&self, given: &[u8], at: usize) -> u8 {
        match at {
            0 | 4 => 0,
            1 => byte_of(|bit| self.status(bit)),
            3 => byte_of(|bit| self.pending(given, bit)),
            5 => self.number as u8,
            8.. => self
                .stamp
                .map_or(given[at], |stamp| (stamp >> (8 * (at - 8))) as u8),
            _ => given[at],
        }
    }
}

/// The byte of these bits.
fn byte_of(is_set: impl Fn(u32) -> bool) -> u8 {
    (0..8).filter(|bit| is_set(*bit)).map(|bit| 1 << bit).sum()
}

/// The number that refuses the step itself, if one does.
fn refusal(walker: &WalkerWords, block: &[u8]) -> Option<u32> {
    let [.., end, cut, _] = *walker;
    match block {
        _ if end > 1 || cut > 1 => Some(1),
        _ if block.len() != 16 => Some(74),
        [0..=3, ..] => None,
        _ => Some(75),
    }
}

/// Whether a step answered and left, as walker and block, what the request says. A step that is refused left both as they were.
pub fn stands(reader: &Reader, given: &[u8], said: Said<7>, left: (WalkerWords, &[u8])) -> bool {
    if let Some(number) = refusal(&reader.walker, given) {
        return said == refused(number, 0) && left == (reader.walker, given);
    }
    let alone = Alone::of(reader, given);
    let out = alone.packet.unwrap_or([0; 7]);
    let block: Vec<u8> = (0..16).map(|at| alone.byte(given, at)).collect();
    said == Said { number: 0, out } && left == (alone.walker, &block)
}

/// Short blocks, and telling readers, in full.
pub fn short(tally: &mut Tally) {
    written_out(tally);
    let mut random = Random(106);
    let file = recording();
    let table = index_of(&file);
    let fresh = Reader {
        file: &file,
        table: &table,
        walker: walker_words(&Walker::fresh()),
    };
    commands_and_lengths(tally, &mut random, &fresh);
    masks(tally, &mut random, &fresh);
    requests(tally, &mut random, &fresh);
    readers(tally, &mut random, &fresh);
}

/// The index of a file that has one, else no records.
fn index_of(file: &[u8]) -> Vec<u8> {
    let records = plain::records(file).unwrap_or_default();
    records.iter().flat_map(Record::bytes).collect()
}

/// A step on a reader, which stays.
fn step(tally: &mut Tally, reader: &Reader, block: &[u8]) {
    let (mut walker, mut block) = (reader.walker, block.to_vec());
    calls::register_step(tally, reader.file, reader.table, &mut walker, &mut block);
}

/// A step that is written out.
struct WrittenOut {
    /// How many bytes of the index of E are its table.
    table_len: usize,
    block: [u8; REGISTERS],
    number: u32,
    /// What is given, after the place.
    packet: [u64; 6],
    left: [u8; REGISTERS],
}

/// Steps on E from a fresh walker, one after another.
const WRITTEN_OUT: [WrittenOut; 9] = [
    // The picture; all four bits may interrupt.
    WrittenOut {
        table_len: 48,
        block: [1, 0, 15, 0, 0, 9, 6, 7, 1, 2, 3, 4, 5, 6, 7, 8],
        number: 0,
        packet: [1, 0, 324, 3, 0, 1],
        left: [0, 1, 15, 1, 0, 0, 6, 7, 0, 0, 0, 0, 0, 0, 0, 0],
    },
    // The sound: a packet was waiting already, and acknowledge clears what was pending.
    WrittenOut {
        table_len: 48,
        block: [1, 1, 15, 1, 1, 0, 6, 7, 0, 0, 0, 0, 0, 0, 0, 0],
        number: 0,
        packet: [1, 1, 335, 10, 0, 2],
        left: [0, 1, 15, 0, 0, 0, 6, 7, 0, 0, 0, 0, 0, 0, 0, 0],
    },
    // The end, acknowledged and risen in one step; the request stays.
    WrittenOut {
        table_len: 48,
        block: [1, 0xf1, 0xff, 0xf2, 0x72, 0, 6, 7, 8, 0, 0, 0, 0, 0, 0, 0],
        number: 0,
        packet: [0; 6],
        left: [0, 2, 0xff, 0x82, 0, 0, 6, 7, 8, 0, 0, 0, 0, 0, 0, 0],
    },
    // There is no second picture: the end, after which stands one picture.
    WrittenOut {
        table_len: 48,
        block: [2, 0, 13, 0, 0, 0, 6, 7, 5, 0, 0, 0, 0, 0, 0, 0],
        number: 0,
        packet: [0; 6],
        left: [0, 2, 13, 0, 0, 0, 6, 7, 1, 0, 0, 0, 0, 0, 0, 0],
    },
    // A ragged table: the seek is refused, and the reader is at the end as before.
    WrittenOut {
        table_len: 47,
        block: [3, 5, 15, 1, 0, 0, 6, 7, 1, 0, 0, 0, 0, 0, 0, 0],
        number: 0,
        packet: [0; 6],
        left: [0, 10, 15, 11, 0, 41, 6, 7, 1, 0, 0, 0, 0, 0, 0, 0],
    },
    // Nothing is asked of the table, and nothing was refused.
    WrittenOut {
        table_len: 47,
        block: [0, 10, 15, 11, 9, 41, 6, 7, 1, 0, 0, 0, 0, 0, 0, 0],
        number: 0,
        packet: [0; 6],
        left: [0, 2, 15, 2, 0, 0, 6, 7, 1, 0, 0, 0, 0, 0, 0, 0],
    },
    // The sound at or after sample -1.
    WrittenOut {
        table_len: 48,
        block: [
            3, 2, 15, 2, 0, 0, 6, 7, 255, 255, 255, 255, 255, 255, 255, 255,
        ],
        number: 0,
        packet: [0; 6],
        left: [0, 0, 15, 2, 0, 0, 6, 7, 0, 0, 0, 0, 0, 0, 0, 0],
    },
    // No command.
    WrittenOut {
        table_len: 48,
        block: [4, 3, 15, 2, 2, 9, 6, 7, 1, 0, 0, 0, 0, 0, 0, 0],
        number: 75,
        packet: [0; 6],
        left: [4, 3, 15, 2, 2, 9, 6, 7, 1, 0, 0, 0, 0, 0, 0, 0],
    },
    // The sound again, which does not ask about the table.
    WrittenOut {
        table_len: 47,
        block: [1, 0, 0, 2, 0, 0, 6, 7, 1, 0, 0, 0, 0, 0, 0, 0],
        number: 0,
        packet: [1, 1, 335, 10, 0, 2],
        left: [0, 1, 0, 2, 0, 0, 6, 7, 0, 0, 0, 0, 0, 0, 0, 0],
    },
];

fn written_out(tally: &mut Tally) {
    let file = files::example();
    let table = index_of(&file);
    for side in [PLAIN, LIBRARY] {
        let mut walker = walker_words(&Walker::fresh());
        for (i, step) in WRITTEN_OUT.iter().enumerate() {
            let mut lent = Guarded::new(&step.block);
            let table = &table[..step.table_len];
            let said = side.register_step(&file, table, &mut walker, lent.lent());
            let mut expected = accepted(&step.packet);
            expected.number = step.number;
            let same = said == expected && lent.holds(&step.left);
            tally.judge("register_step", same, || {
                format!("written out, {i}: {said:?} {}", hex(lent.lent()))
            });
        }
    }
}

/// A recording in which no two chunks of a stream have equal stamps, but for the last two blocks.
fn recording() -> Vec<u8> {
    files::recording(&[
        (VIDEO, &[0xff, 0xd8, 0xd9]),
        (AUDIO, &[0, 0, 0, 0, 2, 0, 0, 0, 0x11]),
        (VIDEO, &[]),
        (AUDIO, &[0, 0, 0, 0, 0x2c, 1, 0, 0]),
        (AUDIO, &[1, 2, 3]),
        (AUDIO, &[0, 0, 0, 0, 5, 0, 0, 0]),
        (VIDEO, &[1]),
    ])
}

/// A block of arbitrary bytes, but for command and request.
fn block_of(random: &mut Random, command: u8, request: i64) -> Vec<u8> {
    let mut block = random.bytes(REGISTERS);
    block[0] = command;
    block[8..].copy_from_slice(&request.to_le_bytes());
    block
}

/// All commands, and all lengths of a block up to 40 bytes with commands that exist and not, on a fresh walker and on words of no walker.
fn commands_and_lengths(tally: &mut Tally, random: &mut Random, fresh: &Reader) {
    let none = Reader {
        walker: [316, 0, 0, 0, 0, 2, u64::MAX],
        ..*fresh
    };
    for reader in [fresh, &none] {
        for command in 0..=255 {
            for request in [-1, 1, i64::MAX] {
                step(tally, reader, &block_of(random, command, request));
            }
        }
        for command in [0, 1, 2, 3, 4, 255] {
            for length in 0..=40 {
                let mut block = block_of(random, command, 1);
                block.resize(length, 0xc3);
                step(tally, reader, &block);
            }
        }
    }
}

/// All lower halves of status, enable, pending and acknowledge with each of four commands: none at a cut end, a read that gives a packet
/// after a cut, a seek to the end after a cut, and one that is refused at a cut end. The upper halves are arbitrary.
fn masks(tally: &mut Tally, random: &mut Random, fresh: &Reader) {
    let marked = |end, table| Reader {
        table,
        walker: [316, 0, 0, 0, end, 1, u64::MAX],
        ..*fresh
    };
    let (whole, ragged) = (fresh.table, &fresh.table[1..]);
    for (command, reader) in [
        (0, marked(1, whole)),
        (1, marked(0, whole)),
        (2, marked(0, whole)),
        (3, marked(1, ragged)),
    ] {
        for lower in 0..=u16::MAX {
            let mut block = block_of(random, command, 100);
            for (i, mask) in block[1..5].iter_mut().enumerate() {
                *mask = *mask & 0xf0 | (lower >> (4 * i)) as u8 & 0x0f;
            }
            step(tally, &reader, &block);
        }
    }
}

/// Requests at and beside the stamps and the ends of the type, and those of which a part of the bytes would be answered otherwise; over the
/// recording's index, and over one with great stamps.
fn requests(tally: &mut Tally, random: &mut Random, fresh: &Reader) {
    let great = [0, 1 << 32, 1 << 61, COUNT_LIMIT - 1].map(|samples| (AUDIO, samples));
    let great = Reader {
        table: &pages::table_of(&great),
        ..*fresh
    };
    let stamps = [0, 1, 2, 3, 302, 307];
    let powers = (0..64).map(|n| 1i64 << n).chain([i64::MAX, i64::MIN]);
    for near in powers.chain(stamps) {
        for request in [-1, 0, 1].map(|by| near.wrapping_add(by)) {
            for sign in [1, -1] {
                for command in 0..=3 {
                    let block = block_of(random, command, request.wrapping_mul(sign));
                    step(tally, fresh, &block);
                    step(tally, &great, &block);
                }
            }
        }
    }
}

/// Telling walkers of a recording: at each chunk and at the trailer, with each of the marks and both, and past its trailer; inside a chunk,
/// at the file's end and past it; at the range's end and past it; and none.
fn walkers_of(file: &[u8]) -> Vec<WalkerWords> {
    let mut walker = walker_words(&Walker::fresh());
    let mut walkers = vec![walker];
    while PLAIN.next_packet(file, &mut walker).out[1] == 1 {
        walkers.push(walker);
    }
    walkers.push(walker);
    let length = file.len() as u64;
    let (most, over) = (COUNT_LIMIT, COUNT_LIMIT + 1);
    let unmarked = |cursor, frames, samples, blocks| [cursor, frames, samples, blocks, 0, 0, 345];
    walkers.extend([
        [316, 0, 0, 0, 1, 0, u64::MAX],
        [316, 0, 0, 0, 0, 1, u64::MAX],
        [316, 0, 0, 0, 1, 1, u64::MAX],
        unmarked(318, 7, 8, 9),
        unmarked(length, 7, 8, 9),
        unmarked(length + 1, 7, 8, 9),
        unmarked(316, most, most, most),
        [most, most, most, most, 1, 1, 0],
        unmarked(over, 0, 0, 0),
        unmarked(316, over, 0, 0),
        unmarked(316, 0, over, 0),
        unmarked(316, 0, 0, over),
        [over, over, over, over, 1, 1, 0],
        [316, 0, 0, 0, 2, 0, u64::MAX],
        [over, 0, 0, 0, 0, 256, u64::MAX],
    ]);
    walkers
}

/// Telling tables: the index itself, none, parts of it that are whole records and that are not, and with a record that is refused.
fn tables_of(index: &[u8]) -> Vec<Vec<u8>> {
    let (mut tag, mut samples) = (index.to_vec(), index.to_vec());
    tag[RECORD] ^= 1;
    samples[2 * RECORD - 1] = 0x40;
    let parts = [0, 1, RECORD - 1, RECORD, index.len() - 1, index.len()];
    let mut tables: Vec<Vec<u8>> = parts.map(|length| index[..length].to_vec()).into();
    tables.extend([tag, samples]);
    tables
}

/// Files of a recording: whole, cut everywhere after the prelude and a little before, with a tag that is unknown, and empty.
fn files_of(file: &[u8]) -> Vec<Vec<u8>> {
    let cuts = [0, 8].into_iter().chain(PRELUDE - 1..=file.len());
    let mut files: Vec<Vec<u8>> = cuts.map(|length| file[..length].to_vec()).collect();
    let mut damaged = file.to_vec();
    damaged[PRELUDE] ^= 1;
    files.push(damaged);
    files
}

/// Every telling walker with every telling file and table, by each command.
fn readers(tally: &mut Tally, random: &mut Random, fresh: &Reader) {
    let walkers = walkers_of(fresh.file);
    let tables = tables_of(fresh.table);
    for file in files_of(fresh.file) {
        for walker in &walkers {
            for table in &tables {
                let reader = Reader {
                    file: &file,
                    table,
                    walker: *walker,
                };
                for command in 0..=4 {
                    let request = random.pick(&[i64::MIN, -1, 0, 1, 2, 3, 302, i64::MAX]);
                    step(tally, &reader, &block_of(random, command, request));
                }
            }
        }
    }
}

/// What a controller leaves for the next step: all of the block anew or a part of it, now and then of another length or with a command that
/// is none.
fn leave(random: &mut Random, block: &mut Vec<u8>, request: i64) {
    if block.len() != REGISTERS || random.once_in(2) {
        *block = random.bytes(REGISTERS);
    }
    if random.once_in(2) {
        block[8..].copy_from_slice(&request.to_le_bytes());
    }
    block[4] = random.next() as u8;
    block[0] = match random.below(10) {
        0 => random.next() as u8,
        _ => random.below(4) as u8,
    };
    if random.once_in(12) {
        let length = random.pick(&[15, 17, random.0 as usize % 40]);
        block.resize(length, random.next() as u8);
    }
}

/// A request at or beside the frames or the samples before a record of the table, or any.
fn near_a_record(random: &mut Random, table: &[u8]) -> i64 {
    let (records, _) = table.as_chunks();
    if records.is_empty() || random.once_in(3) {
        return random.word() as i64;
    }
    let record = Record::read(&random.pick(records));
    let stamp = random.pick(&[u64::from(record.frames), record.samples]);
    (stamp as i64).wrapping_add(random.below(3) as i64 - 1)
}

/// Arbitrary blocks, walkers and tables on a file, with a few steps from each.
pub fn round(tally: &mut Tally, random: &mut Random, file: &[u8]) {
    let index = index_of(file);
    let mut block = Vec::new();
    for _ in 0..4 {
        let table = match random.below(3) {
            0 => suites::random_table(random),
            _ => index.clone(),
        };
        let mut walker = match random.below(3) {
            0 => walker_words(&Walker::fresh()),
            _ => suites::random_walker(random, file.len() as u64),
        };
        for _ in 0..3 {
            let request = near_a_record(random, &table);
            leave(random, &mut block, request);
            calls::register_step(tally, file, &table, &mut walker, &mut block);
        }
    }
}

/// A list of steps, beside the plain machine, and beside the original, whose own reads and seeks are those of the steps.
struct Steps<'a> {
    machine: Machine<'a>,
    original: OriginalSide,
    side: WordsSide<'a>,
}

impl Steps<'_> {
    /// Whether a step gives the packet of both, and of a seek the original's stamp, which is the machine's at a record; whether status then
    /// has the machine's marks; and whether the walker is the original's and may be the machine's. A step that is refused changes nothing.
    fn step(&mut self, block: &mut [u8]) -> bool {
        let (walker, given) = (self.side.walker, block.to_vec());
        let said = self.side.step(block);
        if let Some(number) = refusal(&walker, &given) {
            return said == refused(number, 0) && *block == given && self.side.walker == walker;
        }
        let same = match call_of(&given) {
            None => said == accepted(&[]),
            Some(Call::Read) => {
                let read = said_read(Ok(self.machine.read()));
                said == read && said == self.original.read()
            }
            Some(Call::Seek(stream, request)) => {
                let stamp = request_of(block) as u64;
                let told = self.original.seek(stream, request);
                let found = self.machine.seek(stream, request);
                let at_record = found == Ok(Some(stamp)) || found == Ok(None);
                said == accepted(&[]) && at_record && told == accepted(&[stamp])
            }
        };
        let [end, cut, _] = self.machine.marks();
        let told = u64::from(block[1]) == said.out[1] | end << 1 | cut << 2 && block[5] == 0;
        let walker = self.side.walker;
        same && told && walker == self.original.walker() && self.machine.fits(&walker)
    }
}

/// A request at a stamp or beside it, a small one, or any.
fn request_for(random: &mut Random, records: &[Record]) -> i64 {
    match random.below(4) {
        0 | 1 => lists::near_a_stamp(random, records).1,
        2 => random.below(6) as i64 - 2,
        _ => random.word() as i64,
    }
}

/// A list of steps on a finished recording.
pub fn finished(tally: &mut Tally, random: &mut Random, file: &[u8]) {
    let names = ["register steps on plain", "register steps on library"];
    list(tally, random, names, file, &Contents::finished(file));
}

/// A list of steps on a file with these contents from a fresh walker, whatever is left in the block between them.
pub fn list(
    tally: &mut Tally,
    random: &mut Random,
    names: [&'static str; 2],
    file: &[u8],
    contents: &Contents,
) {
    let (seed, count) = (random.next(), random.size(16));
    for (name, interface) in names.into_iter().zip([PLAIN, LIBRARY]) {
        let mut random = Random(seed);
        let mut block = Vec::new();
        let mut steps = Steps {
            machine: Machine::new(contents),
            original: OriginalSide::new(file),
            side: WordsSide::new(interface, file, contents.records.len()),
        };
        for i in 0..count {
            let request = request_for(&mut random, &contents.records);
            leave(&mut random, &mut block, request);
            let given = block.clone();
            let same = steps.step(&mut block);
            tally.judge(name, same, || {
                let (given, left) = (hex(&given), hex(&block));
                format!("step {i} from {given} to {left} on {}", hex(file))
            });
        }
        let indexed = steps.side.records() == Some(&contents.records);
        let same = indexed && lists::ends_same(&mut steps.machine, &mut steps.side);
        tally.judge(name, same, || {
            format!("what is left after {count} steps on {}", hex(file))
        });
    }
}
