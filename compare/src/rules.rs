//! The known differences. Each rule has the name of its row in docs/DIFFERENCES.md, says when it applies, and says what the original
//! then answers instead: a difference that the rule does not predict exactly fails.

use plain::{Settings, Walker, Writer};

use crate::files::push_chunk;
use crate::original::{NEGATIVE, Told, Wrote};
use crate::said::{Said, Write, accepted, said_read};

pub const CUT_SIZE: &str = "a tag that is there, its size cut";
pub const FILE_LIMIT: &str = "length of a file";
pub const WALKER_RANGE: &str = "walker out of range";
pub const TABLE_ROOM: &str = "table too short for the index";
pub const TABLE_LENGTH: &str = "a table that is no whole number of records";
pub const STREAM: &str = "stream 2 in the indexed seek";
pub const RECORDS: &str = "records of an unknown kind, or with 2^62 samples or more";
pub const STATE_WORDS: &str = "state words out of their field's range";
pub const FAILED_WRITE: &str = "a write that fails";
pub const AFTER_TRAILER: &str = "a packet or trailer after the trailer";
pub const BEGUN_SHORT: &str = "begun with fewer than 316 bytes written";
pub const WRITE_LIMIT: &str = "a write that ends past the file limit";
pub const NEGATIVE_REQUESTS: &str = "negative requests";
pub const OPEN: &str = "zero width, height, fps or rate, other channel counts";
pub const RUN_LENGTH: &str = "a run length above 921,599 seconds";
/// This one is about 01, and not about the original: 02 has another order of a jump's questions.
pub const STREAM_FIRST: &str =
    "a jump of a stream that does not exist, over a table that is no whole number of records";

/// All of them, so that the driver can tell which were never met and which stand in no row.
pub const ALL: [&str; 16] = [
    CUT_SIZE,
    FILE_LIMIT,
    WALKER_RANGE,
    TABLE_ROOM,
    TABLE_LENGTH,
    STREAM,
    RECORDS,
    STATE_WORDS,
    FAILED_WRITE,
    AFTER_TRAILER,
    BEGUN_SHORT,
    WRITE_LIMIT,
    NEGATIVE_REQUESTS,
    OPEN,
    RUN_LENGTH,
    STREAM_FIRST,
];

/// What the original is expected to answer.
pub struct Expected<T> {
    pub rule: Option<&'static str>,
    /// None where the original cannot be asked.
    pub answer: Option<T>,
}

impl<T> Expected<T> {
    pub fn same(answer: T) -> Self {
        Self {
            rule: None,
            answer: Some(answer),
        }
    }

    fn by(rule: &'static str, answer: T) -> Self {
        Self {
            rule: Some(rule),
            answer: Some(answer),
        }
    }

    fn unasked(rule: &'static str) -> Self {
        Self {
            rule: Some(rule),
            answer: None,
        }
    }
}

/// Offsets of the five sizes.
const SIZES: [u64; 5] = [28, 104, 168, 224, 280];

pub fn parse(plain: Said<16>) -> Expected<Told<16>> {
    if plain.number == 11 && SIZES.contains(&plain.out[0]) {
        return Expected::by(CUT_SIZE, Told::Panicked);
    }
    Expected::same(Told::Said(plain))
}

/// Answer and walker of a read.
pub fn next_packet(
    file: &[u8],
    given: Option<Walker>,
    plain: Said<7>,
    left: Option<Walker>,
) -> Expected<(Told<7>, Walker)> {
    let (Some(mut walker), Some(left)) = (given, left) else {
        return Expected::unasked(STATE_WORDS);
    };
    if plain.number != 32 {
        return Expected::same((Told::Said(plain), left));
    }
    let said = said_read(plain::read_on(file, &mut walker));
    Expected::by(WALKER_RANGE, (Told::Said(said), walker))
}

/// Answer and walker of a seek.
pub fn seek_to_via_index(
    table: &[u8],
    given: Option<Walker>,
    stream: u32,
    request: i64,
    plain: Said<2>,
    left: Option<Walker>,
) -> Expected<(Told<2>, Walker)> {
    let (Some(mut walker), Some(left)) = (given, left) else {
        return Expected::unasked(STATE_WORDS);
    };
    let rule = match plain.number {
        41 => return Expected::unasked(TABLE_LENGTH),
        42 => return Expected::by(STREAM, (Told::Panicked, walker)),
        43 => RECORDS,
        32 => WALKER_RANGE,
        _ => return Expected::same((Told::Said(plain), left)),
    };
    let stamp = plain::jump(table.as_chunks().0, &mut walker, stream, request);
    Expected::by(rule, (Told::Said(accepted(&[stamp])), walker))
}

/// Answer and walker of the public seek: it refuses what the private one takes or panics at, and then changes nothing.
pub fn seek_to(
    stream: u32,
    request: i64,
    walker: Walker,
    private: (Told<2>, Walker),
) -> Expected<(Told<2>, Walker)> {
    if request < 0 {
        Expected::by(NEGATIVE_REQUESTS, (Told::Number(NEGATIVE), walker))
    } else if stream > 1 {
        Expected::same((Told::Number(42), walker))
    } else {
        Expected::same(private)
    }
}

/// Whether `open` takes the settings: 01's writer takes all.
pub fn open(settings: &Settings) -> Expected<bool> {
    let zero = [settings.width, settings.height, settings.fps, settings.rate].contains(&0);
    if zero || settings.channels != 1 {
        Expected::by(OPEN, false)
    } else {
        Expected::same(true)
    }
}

/// What 02 has for every run length above the cap: 255 h, 59 min, 59 s.
pub const LONGEST: [u8; 4] = [59, 59, 255, 0];

/// The original's run length where it is above the cap: the hours stop at 255, and the minutes go on to 255.
fn uncapped(frames: u64, fps: u32) -> Option<[u8; 4]> {
    let seconds = frames.checked_div(fps.into())?;
    let after_hours = seconds.checked_sub(255 * 3600)?;
    let minutes = after_hours / 60;
    (minutes > 59).then_some([(after_hours % 60) as u8, minutes.min(255) as u8, 255, 0])
}

/// A run length, packed.
pub fn from_frame_count(frames: u64, fps: u32, plain: u32) -> Expected<u32> {
    match uncapped(frames, fps) {
        Some(bytes) => Expected::by(RUN_LENGTH, u32::from_le_bytes(bytes)),
        None => Expected::same(plain),
    }
}

/// What a writing call says and leaves, with the buffer's bytes after it. `given` and `buf` are those before the call.
pub fn write(given: &Writer, buf: &[u8], call: Write) -> Expected<(Wrote, Vec<u8>)> {
    let mut writer = *given;
    let mut bytes = buf.to_vec();
    let answer = call.on(&mut writer, &mut bytes);
    let number = answer.map_or_else(|refusal| refusal.number, |()| 0);
    let wrote = Wrote {
        number,
        begun: writer.begun,
        frames: writer.frames,
        position: writer.written,
    };
    match number {
        55 => {
            // There is no ended mark: the call goes on as if it were clear.
            let unended = Writer {
                ended: false,
                ..*given
            };
            let expected = write(&unended, buf, call);
            Expected {
                rule: expected.rule.or(Some(AFTER_TRAILER)),
                answer: expected.answer,
            }
        }
        56 => Expected::unasked(BEGUN_SHORT),
        54 => Expected::by(FAILED_WRITE, failed_write(given, buf, call)),
        0 if matches!(call, Write::Trailer) => trailer(given, wrote, bytes),
        _ => Expected::same((wrote, bytes)),
    }
}

/// An accepted trailer, whose run length is the original's.
fn trailer(given: &Writer, wrote: Wrote, mut bytes: Vec<u8>) -> Expected<(Wrote, Vec<u8>)> {
    let Some(run_length) = uncapped(given.frames, given.settings.fps) else {
        return Expected::same((wrote, bytes));
    };
    bytes[84..88].copy_from_slice(&run_length);
    Expected::by(RUN_LENGTH, (wrote, bytes))
}

/// The frame counts, and what fits is written.
fn failed_write(given: &Writer, buf: &[u8], call: Write) -> (Wrote, Vec<u8>) {
    let (at, text) = match call {
        Write::Header => (0, plain::build_prelude_bytes(given.settings, 0).to_vec()),
        Write::Packet(payload, stream) => {
            let mut chunk = Vec::new();
            push_chunk(&mut chunk, plain::stream_tag(stream), payload);
            (given.written, chunk)
        }
        Write::Trailer => (given.written, plain::TRAILER.to_vec()),
    };
    let mut bytes = buf.to_vec();
    let fits = (buf.len() as u64).saturating_sub(at).min(text.len() as u64);
    if fits > 0 {
        bytes[at as usize..(at + fits) as usize].copy_from_slice(&text[..fits as usize]);
    }
    let frame = matches!(call, Write::Packet(_, 0));
    let wrote = Wrote {
        number: 54,
        begun: given.begun,
        frames: given.frames.saturating_add(frame as u64),
        position: at + fits,
    };
    (wrote, bytes)
}
