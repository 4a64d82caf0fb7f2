//! Whole lists of calls: reads and seeks on a file with its own index against the plain machine, and writing calls from a fresh state.

use plain::words::{self, WalkerWords};
use plain::{Answer, Packet, Record, TRAILER, VIDEO, Walker, Writer, ask};

use crate::calls;
use crate::files;
use crate::grammar::{self, Contents};
use crate::interface::{Interface, LIBRARY, PLAIN};
use crate::original::{self, Told};
use crate::random::Random;
use crate::said::{Said, Write, accepted, refused, said_read};
use crate::tally::{Tally, hex};

/// A read or a seek.
#[derive(Clone, Copy, Debug)]
pub enum Call {
    Read,
    Seek(u32, i64),
}

/// The stream and the stamp of a record.
pub fn stamp_of(record: &Record) -> (u32, u64) {
    if record.tag == VIDEO {
        (0, record.frames.into())
    } else {
        (1, record.samples)
    }
}

/// A list for a file with these records, which now and then reads to the end.
pub fn calls_for(random: &mut Random, records: &[Record]) -> Vec<Call> {
    let mut list = Vec::new();
    for _ in 0..random.size(16) {
        list.push(match random.below(6) {
            0 | 1 => Call::Read,
            2 | 3 => seek_near(random, records),
            4 => Call::Seek(random.below(2) as u32, random.below(6) as i64 - 2),
            _ => Call::Seek(any_stream(random), random.word() as i64),
        });
        if random.once_in(12) {
            list.extend(vec![Call::Read; records.len() + 1]);
        }
    }
    list
}

/// A stream, now and then one that does not exist.
fn any_stream(random: &mut Random) -> u32 {
    match random.below(3) {
        2 => random.word32().max(2),
        stream => stream as u32,
    }
}

/// The stream of one of the records, and a request at its stamp or beside it; often of the last, whose chunk may be cut.
pub fn near_a_stamp(random: &mut Random, records: &[Record]) -> (u32, i64) {
    let Some(last) = records.last() else {
        return (0, 0);
    };
    let any = random.pick(records);
    let (stream, stamp) = stamp_of(if random.once_in(2) { last } else { &any });
    (stream, stamp as i64 + random.below(3) as i64 - 1)
}

/// A seek to one of the records or beside it, now and then by the other stream.
pub fn seek_near(random: &mut Random, records: &[Record]) -> Call {
    let (stream, request) = near_a_stamp(random, records);
    Call::Seek(stream ^ random.once_in(4) as u32, request)
}

/// The plain machine: a position among the records of a file, which is their number at the end, and two marks. A read at a record that has
/// no packet, that of a cut chunk, is End and stays there.
pub struct Machine<'a> {
    contents: &'a Contents,
    position: usize,
    /// Set by a read that is End and by a seek to the end, cleared by a seek to a record.
    end: bool,
    /// Whether a read came to where the chunks of the file stop.
    met: bool,
}

impl<'a> Machine<'a> {
    /// At the first record.
    pub fn new(contents: &'a Contents) -> Self {
        Self {
            contents,
            position: 0,
            end: false,
            met: false,
        }
    }

    /// The packet at the position; none at a chunk that is cut, and at the end.
    pub fn read(&mut self) -> Option<Packet> {
        let Some(packet) = self.contents.packets.get(self.position) else {
            self.met |= !self.end;
            self.end = true;
            return None;
        };
        self.position += 1;
        Some(*packet)
    }

    /// The stamp of the record that the seek goes to, none at the end.
    pub fn seek(&mut self, stream: u32, request: i64) -> Answer<Option<u64>> {
        ask(stream <= 1, 42, 0)?;
        let records = &self.contents.records;
        let mut stamps = records.iter().map(stamp_of);
        let found = stamps.position(|(of, stamp)| of == stream && stamp as i128 >= request as i128);
        self.position = found.unwrap_or(records.len());
        self.end = found.is_none();
        Ok(found.map(|i| stamp_of(&records[i]).1))
    }

    /// The marks of a walker that ran the same list: end, cut, and the trailer.
    pub fn marks(&self) -> [u64; 3] {
        let (end, met) = (self.end as u64, self.met as u64);
        match self.contents.trailer {
            None => [end, met, u64::MAX],
            Some(offset) => [end, 0, if self.met { offset } else { u64::MAX }],
        }
    }

    /// Whether a walker that ran the same list may be this one: its marks are the machine's, and at a record it stands there.
    pub fn fits(&self, walker: &WalkerWords) -> bool {
        let at = self.contents.records.get(self.position);
        let placed = at.is_none_or(|record| {
            let [offset, frames, blocks] = [record.offset, record.frames, record.blocks];
            walker[..4] == [offset.into(), frames.into(), record.samples, blocks.into()]
        });
        placed && walker[4..] == self.marks()
    }
}

/// One of those that run lists, each with a walker of its own.
pub trait Side {
    fn read(&mut self) -> Said<7>;
    fn seek(&mut self, stream: u32, request: i64) -> Said<2>;
    /// The walker's words.
    fn walker(&self) -> WalkerWords;
    /// Takes a fresh walker.
    fn restart(&mut self);
    /// The records that its seeks go by, none where it could not build an index of so many.
    fn records(&self) -> Option<&[Record]>;
}

/// The library or the plain implementation, each with the index that it built.
pub struct WordsSide<'a> {
    interface: Interface,
    file: &'a [u8],
    index: Vec<u8>,
    records: Option<Vec<Record>>,
    pub walker: WalkerWords,
}

impl<'a> WordsSide<'a> {
    /// With a fresh walker, and room for exactly so many records.
    pub fn new(interface: Interface, file: &'a [u8], records: usize) -> Self {
        let mut index = vec![0; plain::RECORD * records];
        let all = interface.build_chunk_index(file, &mut index) == accepted(&[records as u64]);
        Self {
            interface,
            file,
            records: all.then(|| original::read_table(&index)),
            index,
            walker: words::walker_words(&Walker::fresh()),
        }
    }

    /// A step of the register block.
    pub fn step(&mut self, block: &mut [u8]) -> Said<7> {
        let (index, walker) = (&self.index, &mut self.walker);
        self.interface
            .register_step(self.file, index, walker, block)
    }
}

impl Side for WordsSide<'_> {
    fn read(&mut self) -> Said<7> {
        self.interface.next_packet(self.file, &mut self.walker)
    }

    fn seek(&mut self, stream: u32, request: i64) -> Said<2> {
        let (index, walker) = (&self.index, &mut self.walker);
        self.interface
            .seek_to_via_index(index, walker, stream, request)
    }

    fn walker(&self) -> WalkerWords {
        self.walker
    }

    fn restart(&mut self) {
        self.walker = words::walker_words(&Walker::fresh());
    }

    fn records(&self) -> Option<&[Record]> {
        self.records.as_deref()
    }
}

/// The original, with the index that it built.
pub struct OriginalSide {
    file: original::File,
    records: Option<Vec<Record>>,
    walker: Walker,
}

impl OriginalSide {
    /// With a fresh walker.
    pub fn new(file: &[u8]) -> Self {
        let mut file = original::File::new(file);
        Self {
            records: file.records().ok(),
            file,
            walker: Walker::fresh(),
        }
    }
}

impl Side for OriginalSide {
    fn read(&mut self) -> Said<7> {
        match self.file.next_packet(&mut self.walker) {
            Told::Said(said) => said,
            _ => refused(u32::MAX, 0),
        }
    }

    /// Stream 2 panics in the original: that stands for 42.
    fn seek(&mut self, stream: u32, request: i64) -> Said<2> {
        let records = self.records.as_deref().unwrap_or_default();
        match original::seek_to_via_index(records, &mut self.walker, stream, request) {
            Told::Said(said) => said,
            Told::Panicked if stream > 1 => refused(42, 0),
            _ => refused(u32::MAX, 0),
        }
    }

    fn walker(&self) -> WalkerWords {
        words::walker_words(&self.walker)
    }

    fn restart(&mut self) {
        self.walker = Walker::fresh();
    }

    fn records(&self) -> Option<&[Record]> {
        self.records.as_deref()
    }
}

/// Those that run lists on a file, each with a fresh walker and room for exactly so many records.
pub fn sides(file: &[u8], records: usize) -> [Box<dyn Side + '_>; 3] {
    [
        Box::new(WordsSide::new(PLAIN, file, records)),
        Box::new(OriginalSide::new(file)),
        Box::new(WordsSide::new(LIBRARY, file, records)),
    ]
}

/// The names that lists on a file are counted by, for each of the sides.
pub type Names = [&'static str; 3];

/// Runs lists on a file, on each side from a fresh walker.
pub struct Runner<'a> {
    names: Names,
    /// The file.
    pub file: &'a [u8],
    /// What the lists meet in it.
    pub contents: &'a Contents,
    sides: [Box<dyn Side + 'a>; 3],
}

impl<'a> Runner<'a> {
    /// On a file with these contents.
    pub fn new(names: Names, file: &'a [u8], contents: &'a Contents) -> Self {
        Self {
            names,
            file,
            contents,
            sides: sides(file, contents.records.len()),
        }
    }

    /// A list on each side, against the plain machine. All leave the same walker, at the end too, where the machine fixes no position.
    pub fn run(&mut self, tally: &mut Tally, list: &[Call]) {
        let mut left = None;
        for (name, side) in self.names.iter().zip(&mut self.sides) {
            let differs = differs(self.contents, list, &mut **side);
            let walker = side.walker();
            let same = differs.is_none() && *left.get_or_insert(walker) == walker;
            tally.judge(name, same, || {
                let walkers = format!("plain leaves {left:?}, this {walker:?}");
                format!("{differs:?}, {walkers}, of {list:?} on {}", hex(self.file))
            });
        }
    }
}

/// What differs from the plain machine, if anything, where a side runs a list from a fresh walker: the index that it goes by, the answer of
/// a call or the walker after it, or what is left after the list.
pub fn differs(contents: &Contents, list: &[Call], side: &mut dyn Side) -> Option<String> {
    side.restart();
    let mut machine = Machine::new(contents);
    let mut calls = list.iter();
    if side.records() != Some(&contents.records) {
        Some("the index".into())
    } else if let Some(i) = calls.position(|call| !step(&mut machine, side, *call)) {
        Some(format!("call {i}"))
    } else {
        let same = ends_same(&mut machine, side);
        (!same).then(|| "what is left".into())
    }
}

/// Runs a list of reads and seeks on a finished recording, on each side.
pub fn reads_and_seeks(tally: &mut Tally, random: &mut Random, file: &[u8]) {
    let names = ["list on plain", "list on original", "list on library"];
    let contents = Contents::finished(file);
    let list = calls_for(random, &contents.records);
    Runner::new(names, file, &contents).run(tally, &list);
}

/// Whether a call on a side answers what it does on the machine, and leaves a walker that may be the machine's; the same one where it is
/// refused.
fn step(machine: &mut Machine, side: &mut dyn Side, call: Call) -> bool {
    let given = side.walker();
    let same = match call {
        Call::Read => side.read() == said_read(Ok(machine.read())),
        Call::Seek(stream, request) => {
            let said = side.seek(stream, request);
            match machine.seek(stream, request) {
                Err(refusal) => {
                    said == refused(refusal.number, refusal.place) && side.walker() == given
                }
                Ok(Some(stamp)) => said == accepted(&[stamp]),
                // The stamp of a seek to the end is not compared.
                Ok(None) => said == accepted(&said.out[1..]),
            }
        }
    };
    same && machine.fits(&side.walker())
}

/// What is left after a list: the walker may be the machine's, and its reads give the packets from there on, then End, and End again.
pub fn ends_same(machine: &mut Machine, side: &mut dyn Side) -> bool {
    let packets = machine.contents.packets.len();
    let mut reads = machine.position.min(packets)..packets + 2;
    machine.fits(&side.walker()) && reads.all(|_| step(machine, side, Call::Read))
}

/// A list of writing calls from a fresh state; if a header and a trailer were accepted, the file is finished and holds the packets
/// that were accepted. So it does with a trailer put behind it, if a header was accepted and no trailer.
pub fn writing_calls(tally: &mut Tally, random: &mut Random) {
    let settings = plain::Settings {
        width: random.word32(),
        height: random.word32(),
        fps: random.word32().max(1),
        rate: random.word32(),
        channels: 1,
    };
    let mut writer = words::writer_words(&Writer::fresh(settings));
    let room = random.pick(&[316, 330, 400, 600, 600, 600]) + random.size(8);
    let mut buf = random.bytes(room);
    let mut taken: Vec<(u32, Vec<u8>)> = Vec::new();
    let (mut header, mut trailer) = (false, false);
    for kind in kinds(random) {
        let payload = files::payload(random);
        let stream = if random.once_in(9) {
            random.word32()
        } else {
            random.below(2) as u32
        };
        let call = match kind {
            Kind::Header => Write::Header,
            Kind::Packet => Write::Packet(&payload, stream),
            Kind::Trailer => Write::Trailer,
        };
        if calls::write(tally, &mut writer, &mut buf, call).number != 0 {
            continue;
        }
        match kind {
            Kind::Header => header = true,
            Kind::Packet => taken.push((stream, payload)),
            Kind::Trailer => trailer = true,
        }
    }
    if header {
        let behind = if trailer { &[][..] } else { &TRAILER[..] };
        let file = &[&buf[..writer[7] as usize], behind].concat();
        let finished = calls::check(tally, file);
        let same = finished && holds(file, &taken);
        tally.judge("list of writing calls", same, || {
            format!("{taken:?} in {}", hex(file))
        });
    }
}

#[derive(Clone, Copy)]
enum Kind {
    Header,
    Packet,
    Trailer,
}

/// Every second list is in order, so that many files get finished; in the others anything may follow anything.
fn kinds(random: &mut Random) -> Vec<Kind> {
    let packets = random.size(10);
    if random.once_in(2) {
        let mut kinds = vec![Kind::Packet; packets];
        kinds.insert(0, Kind::Header);
        kinds.push(Kind::Trailer);
        return kinds;
    }
    let any = |_| match random.below(10) {
        0 | 1 => Kind::Header,
        9 => Kind::Trailer,
        _ => Kind::Packet,
    };
    (0..packets + 2).map(any).collect()
}

fn holds(file: &[u8], taken: &[(u32, Vec<u8>)]) -> bool {
    let chunks = grammar::finished(file).unwrap();
    let packets = grammar::drain(file, &chunks);
    packets.len() == taken.len()
        && packets
            .iter()
            .zip(taken)
            .all(|((packet, _), (stream, payload))| {
                let start = packet.start as usize;
                packet.stream == *stream
                    && file[start..start + packet.length as usize] == payload[..]
            })
}
