//! The original's answers in 01's terms.

use std::cell::RefCell;
use std::io::Cursor;
use std::panic::{AssertUnwindSafe, catch_unwind};
use std::rc::Rc;

use original::AmvDemuxerError;
use original::demuxer::{AmvDemuxer, ChunkIndexEntry, WalkState};
use original::muxer::{AmvMuxer, MuxState};
use original::parse::{self, ChunkKind};
use oxideav_core::{
    CodecId, CodecParameters, Demuxer, Error, Muxer, Packet, Rational, StreamInfo, TimeBase,
};

use plain::{Record, Settings, Walker, Writer};

use crate::lent::{Lent, Shared};
use crate::said::{Said, Write, accepted, refused};
use crate::texts::{UNKNOWN_TEXT, number_of, writer_number};

/// An answer of the original.
#[derive(Clone, Copy, Debug, PartialEq, Eq)]
pub enum Told<const N: usize> {
    Said(Said<N>),
    /// A refusal that names no place.
    Number(u32),
    Panicked,
}

fn caught<T>(call: impl FnOnce() -> T) -> Option<T> {
    catch_unwind(AssertUnwindSafe(call)).ok()
}

fn told<const N: usize, const M: usize>(answer: Result<[u64; M], (u32, Option<u64>)>) -> Told<N> {
    match answer {
        Ok(values) => Told::Said(accepted(&values)),
        Err((number, Some(place))) => Told::Said(refused(number, place)),
        Err((number, None)) => Told::Number(number),
    }
}

fn number_of_error(error: AmvDemuxerError) -> (u32, Option<u64>) {
    match error {
        AmvDemuxerError::InvalidData(text) => number_of(&text),
        _ => (UNKNOWN_TEXT, None),
    }
}

pub fn parse(file: &[u8], strict: bool) -> Told<16> {
    let parsed = caught(|| parse::parse_prelude(file, strict).map_err(number_of_error));
    let Some(parsed) = parsed else {
        return Told::Panicked;
    };
    told(parsed.map(|(header, wave, start)| {
        [
            header.micros_per_frame as u64,
            header.width as u64,
            header.height as u64,
            header.fps as u64,
            header.flag_one as u64,
            header.reserved_30 as u64,
            header.duration_packed as u64,
            wave.format_tag as u64,
            wave.channels as u64,
            wave.samples_per_sec as u64,
            wave.avg_bytes_per_sec as u64,
            wave.block_align as u64,
            wave.bits_per_sample as u64,
            wave.cb_size as u64,
            start,
        ]
    }))
}

pub fn header(body: &[u8]) -> Told<8> {
    let parsed = parse::AmvHeader::parse(body).map_err(number_of_error);
    told(parsed.map(|header| {
        [
            header.micros_per_frame as u64,
            header.width as u64,
            header.height as u64,
            header.fps as u64,
            header.flag_one as u64,
            header.reserved_30 as u64,
            header.duration_packed as u64,
        ]
    }))
}

pub fn wave(body: &[u8]) -> Told<8> {
    let parsed = parse::AmvWaveFormat::parse(body).map_err(number_of_error);
    told(parsed.map(|wave| {
        [
            wave.format_tag as u64,
            wave.channels as u64,
            wave.samples_per_sec as u64,
            wave.avg_bytes_per_sec as u64,
            wave.block_align as u64,
            wave.bits_per_sample as u64,
            wave.cb_size as u64,
        ]
    }))
}

/// Tag and length.
pub fn chunk_header(bytes: &[u8]) -> Told<3> {
    let parsed = parse::ChunkHeader::parse(bytes).map_err(number_of_error);
    told(parsed.map(|header| [u32::from_le_bytes(header.tag) as u64, header.size as u64]))
}

/// State, count, and the number of the refusal of `validate_sentinels`, or 0.
pub fn preamble(body: &[u8]) -> Told<4> {
    let parsed = parse::AmvAudioPreamble::parse(body).map_err(number_of_error);
    told(parsed.map(|preamble| {
        let sentinels = preamble.validate_sentinels().map_err(number_of_error);
        [
            preamble.state as u64,
            preamble.decoded_sample_count as u64,
            sentinels.map_or_else(|(number, _)| number as u64, |()| 0),
        ]
    }))
}

pub fn validate_movi_interleave(tags: &[u32]) -> Told<1> {
    let kinds: Vec<ChunkKind> = tags.iter().map(|tag| kind_of(*tag)).collect();
    told(
        parse::validate_movi_interleave(&kinds)
            .map(|()| [])
            .map_err(number_of_error),
    )
}

fn kind_of(tag: u32) -> ChunkKind {
    ChunkKind::classify(tag.to_le_bytes())
}

fn tag_of(kind: ChunkKind) -> u32 {
    u32::from_le_bytes(match kind {
        ChunkKind::Video => parse::VIDEO_CHUNK_TAG,
        ChunkKind::Audio => parse::AUDIO_CHUNK_TAG,
        ChunkKind::Other(tag) => tag,
    })
}

pub fn from_frame_count(frames: u64, fps: u32) -> u32 {
    parse::AmvDuration::from_frame_count(frames, fps).to_packed()
}

/// The demuxer over one file.
pub struct File {
    bytes: Rc<[u8]>,
    demuxer: AmvDemuxer,
}

fn state_of(walker: &Walker) -> WalkState {
    WalkState {
        cursor: walker.cursor,
        frames: walker.frames as i64,
        samples: walker.samples as i64,
        blocks: walker.blocks,
        end: walker.end,
        cut: walker.cut,
        trailer: walker.trailer,
    }
}

fn walker_of(state: WalkState) -> Walker {
    Walker {
        cursor: state.cursor,
        frames: state.frames as u64,
        samples: state.samples as u64,
        blocks: state.blocks,
        end: state.end,
        cut: state.cut,
        trailer: state.trailer,
    }
}

impl File {
    pub fn new(bytes: &[u8]) -> Self {
        let bytes: Rc<[u8]> = bytes.into();
        let demuxer = AmvDemuxer::over(Box::new(Cursor::new(bytes.clone())));
        Self { bytes, demuxer }
    }

    /// The words of a read: packet or End, stream, start, length, stamp, duration.
    pub fn next_packet(&mut self, walker: &mut Walker) -> Told<7> {
        self.demuxer.set_state(state_of(walker));
        let start = walker.cursor.wrapping_add(8);
        let answer = self.demuxer.next_packet();
        *walker = walker_of(self.demuxer.state());
        match answer {
            Err(Error::Eof) => Told::Said(accepted(&[0; 6])),
            Err(Error::Invalid(text)) => told::<7, 0>(Err(number_of(&text))),
            Err(Error::Other(_)) => Told::Number(UNKNOWN_TEXT),
            Ok(packet) => Told::Said(accepted(&self.packet_words(&packet, start))),
        }
    }

    /// A packet holds a copy of its payload, and three things more: the decode stamp, which is the stamp; the key-frame flag, which
    /// is set; and a time base. Where the copy or one of the first two is otherwise, the length is made one that never agrees.
    fn packet_words(&self, packet: &Packet, start: u64) -> [u64; 6] {
        let end = start as usize + packet.data.len();
        let same = self.bytes.get(start as usize..end) == Some(&packet.data[..]);
        let usual = packet.dts == packet.pts && packet.flags.keyframe;
        [
            1,
            packet.stream_index as u64,
            start,
            if same && usual {
                packet.data.len() as u64
            } else {
                u64::MAX
            },
            packet.pts.map_or(u64::MAX, |stamp| stamp as u64),
            packet.duration.map_or(0, |duration| duration as u64),
        ]
    }

    /// The packets of each stream that reads from the start give, until the first that gives none.
    pub fn drained(&mut self) -> [u64; 2] {
        let mut walker = Walker::fresh();
        let mut counts = [0; 2];
        while let Told::Said(said) = self.next_packet(&mut walker)
            && said.out[1] == 1
        {
            counts[said.out[2] as usize] += 1;
        }
        counts
    }

    /// The records, or the refusal.
    pub fn records(&mut self) -> Result<Vec<Record>, Told<2>> {
        self.demuxer
            .build_chunk_index()
            .map_err(|error| told::<2, 0>(Err(number_of_error(error))))?;
        let index = self.demuxer.chunk_index().unwrap();
        Ok(index.iter().map(record_of).collect())
    }
}

fn record_of(entry: &ChunkIndexEntry) -> Record {
    Record {
        tag: tag_of(entry.kind),
        offset: entry.file_offset as u32,
        frames: entry.video_pts_before as u32,
        blocks: entry.audio_blocks_before as u32,
        samples: entry.audio_pts_before as u64,
    }
}

fn entry_of(record: &Record) -> ChunkIndexEntry {
    ChunkIndexEntry::new(
        record.offset as u64,
        kind_of(record.tag),
        record.frames as i64,
        record.samples as i64,
        record.blocks as u64,
    )
}

/// The records of a table.
pub fn read_table(table: &[u8]) -> Vec<Record> {
    let (records, _) = table.as_chunks();
    records.iter().map(Record::read).collect()
}

/// The private seek over the records.
pub fn seek_to_via_index(
    records: &[Record],
    walker: &mut Walker,
    stream: u32,
    request: i64,
) -> Told<2> {
    let mut demuxer = AmvDemuxer::over(Box::new(Cursor::new([])));
    demuxer.set_index(records.iter().map(entry_of).collect());
    demuxer.set_state(state_of(walker));
    let answer = caught(|| demuxer.seek_by_index(stream, request));
    *walker = walker_of(demuxer.state());
    match answer {
        Some(Ok(stamp)) => Told::Said(accepted(&[stamp as u64])),
        Some(Err(_)) => Told::Number(UNKNOWN_TEXT),
        None => Told::Panicked,
    }
}

/// The public seek over the records. Its refusals have no number in 01: 42 stands for a stream that it does not know, and
/// `NEGATIVE` for a request below 0.
pub fn seek_to(records: &[Record], walker: &mut Walker, stream: u32, request: i64) -> Told<2> {
    let mut demuxer = AmvDemuxer::over(Box::new(Cursor::new([])));
    demuxer.set_index(records.iter().map(entry_of).collect());
    demuxer.set_state(state_of(walker));
    let answer = demuxer.seek_to(stream, request);
    *walker = walker_of(demuxer.state());
    match answer {
        Ok(stamp) => Told::Said(accepted(&[stamp as u64])),
        Err(Error::Invalid(text)) if text.contains("must be non-negative") => {
            Told::Number(NEGATIVE)
        }
        Err(Error::Invalid(text)) if text.contains("stream_index must be 0") => Told::Number(42),
        Err(_) => Told::Number(UNKNOWN_TEXT),
    }
}

pub const NEGATIVE: u32 = 998;

/// What a writing call of the original says and leaves. It keeps no ended mark and no count of bytes; `position` is where its
/// writer stands.
#[derive(Clone, Copy, Debug, PartialEq, Eq)]
pub struct Wrote {
    pub number: u32,
    pub begun: bool,
    pub frames: u64,
    pub position: u64,
}

fn mux_state(writer: &Writer) -> MuxState {
    let settings = writer.settings;
    MuxState {
        width: settings.width,
        height: settings.height,
        fps: settings.fps,
        rate: settings.rate,
        channels: settings.channels,
        begun: writer.begun,
        frames: writer.frames,
    }
}

/// A writing call on a muxer whose writer stands at `written` in the buffer.
pub fn write(writer: &Writer, buf: &mut Vec<u8>, call: Write) -> Wrote {
    let bytes = Rc::new(RefCell::new(std::mem::take(buf)));
    let lent = Rc::new(RefCell::new(Lent {
        bytes: bytes.clone(),
        position: writer.written,
        end: writer.written,
    }));
    let mut muxer = AmvMuxer::over(Box::new(Shared(lent.clone())), mux_state(writer));
    let answer = match call {
        Write::Header => muxer.write_header(),
        Write::Packet(payload, stream) => {
            let time = TimeBase::new(1, 1);
            muxer.write_packet(&Packet::new(stream, time, payload.to_vec()))
        }
        Write::Trailer => muxer.write_trailer(),
    };
    let state = muxer.state();
    *buf = bytes.take();
    Wrote {
        number: answer.map_or_else(|error| writer_number(&error), |()| 0),
        begun: state.begun,
        frames: state.frames,
        position: lent.borrow().position,
    }
}

pub fn build_prelude_bytes(writer: &Writer, duration: u32) -> Vec<u8> {
    original::muxer::prelude_bytes(mux_state(writer), duration)
}

/// The number that a begun muxer gives to a frame with that payload, which goes by value because it may be very long.
pub fn write_by_value(payload: Vec<u8>) -> u32 {
    let mut writer = Writer::fresh(crate::files::EXAMPLE_SETTINGS);
    writer.begun = true;
    let mut muxer = AmvMuxer::over(Box::new(Cursor::new(Vec::new())), mux_state(&writer));
    let answer = muxer.write_packet(&Packet::new(0, TimeBase::new(1, 1), payload));
    answer.map_or_else(|error| writer_number(&error), |()| 0)
}

/// The records of a file that goes by value.
pub fn records_by_value(file: Vec<u8>) -> Option<Vec<Record>> {
    let mut demuxer = AmvDemuxer::over(Box::new(Cursor::new(file)));
    demuxer.build_chunk_index().ok()?;
    Some(demuxer.chunk_index()?.iter().map(record_of).collect())
}

/// Whether `open` takes the settings.
pub fn open(settings: &Settings) -> bool {
    let stream = |index, params| StreamInfo {
        index,
        time_base: TimeBase::new(1, 1),
        duration: None,
        start_time: None,
        params,
    };
    let mut video = CodecParameters::video(CodecId::new("video"));
    video.width = Some(settings.width);
    video.height = Some(settings.height);
    video.frame_rate = Some(Rational::new(settings.fps as i64, 1));
    let mut audio = CodecParameters::audio(CodecId::new("audio"));
    audio.sample_rate = Some(settings.rate);
    audio.channels = Some(settings.channels);
    let writer = Box::new(Cursor::new(Vec::new()));
    AmvMuxer::open(writer, &[stream(0, video), stream(1, audio)]).is_ok()
}
