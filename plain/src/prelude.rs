//! The prelude: its bytes (docs/FORMAT.md, 2) and both parses (4).

use crate::{Answer, PRELUDE, ask, refuse, u16_at, u32_at, within_limit};

/// What a writer puts into the prelude.
#[derive(Clone, Copy, Debug, PartialEq, Eq)]
pub struct Settings {
    /// Pixels in a row.
    pub width: u32,
    /// Rows.
    pub height: u32,
    /// Frames a second.
    pub fps: u32,
    /// Samples a second.
    pub rate: u32,
    /// Channels.
    pub channels: u16,
}

/// What is asked about when a prelude is parsed.
enum Item {
    Tag(&'static [u8; 4]),
    Size(u32),
    Body(usize),
}

/// The tags, sizes and bodies with their offsets, in the order of these.
const ITEMS: [(usize, Item); 22] = [
    (0, Item::Tag(b"RIFF")),
    (8, Item::Tag(b"AMV ")),
    (12, Item::Tag(b"LIST")),
    (20, Item::Tag(b"hdrl")),
    (24, Item::Tag(b"amvh")),
    (28, Item::Size(56)),
    (32, Item::Body(56)),
    (88, Item::Tag(b"LIST")),
    (96, Item::Tag(b"strl")),
    (100, Item::Tag(b"strh")),
    (104, Item::Size(56)),
    (164, Item::Tag(b"strf")),
    (168, Item::Size(36)),
    (208, Item::Tag(b"LIST")),
    (216, Item::Tag(b"strl")),
    (220, Item::Tag(b"strh")),
    (224, Item::Size(48)),
    (276, Item::Tag(b"strf")),
    (280, Item::Size(20)),
    (284, Item::Body(20)),
    (304, Item::Tag(b"LIST")),
    (312, Item::Tag(b"movi")),
];

/// The microseconds a frame.
fn micros(fps: u32) -> u32 {
    1_000_000u32.checked_div(fps).unwrap_or(0)
}

/// The average bytes a second.
fn average(rate: u32) -> u32 {
    rate.saturating_mul(2)
}

/// The prelude of these settings with a packed run length.
#[inline]
pub fn build_prelude_bytes(settings: Settings, duration: u32) -> [u8; PRELUDE] {
    let mut bytes = [0; PRELUDE];
    let mut put = |at: usize, field: &[u8]| bytes[at..at + field.len()].copy_from_slice(field);
    for (at, item) in &ITEMS {
        match item {
            Item::Tag(tag) => put(*at, *tag),
            Item::Size(size) => put(*at, &size.to_le_bytes()),
            Item::Body(_) => {}
        }
    }
    put(32, &micros(settings.fps).to_le_bytes());
    put(64, &settings.width.to_le_bytes());
    put(68, &settings.height.to_le_bytes());
    put(72, &settings.fps.to_le_bytes());
    put(76, &1u32.to_le_bytes());
    put(84, &duration.to_le_bytes());
    put(284, &1u16.to_le_bytes());
    put(286, &settings.channels.to_le_bytes());
    put(288, &settings.rate.to_le_bytes());
    put(292, &average(settings.rate).to_le_bytes());
    put(296, &2u16.to_le_bytes());
    put(298, &16u16.to_le_bytes());
    bytes
}

/// What a parse gives; the first chunk always stands at 316.
#[derive(Clone, Copy, Debug, PartialEq, Eq)]
pub struct Prelude {
    /// The fields of the body at 32.
    pub header: Header,
    /// The fields of the body at 284.
    pub wave: Wave,
}

/// The fields of the body at 32.
#[derive(Clone, Copy, Debug, PartialEq, Eq)]
pub struct Header {
    /// Microseconds a frame.
    pub micros: u32,
    /// Pixels in a row.
    pub width: u32,
    /// Rows.
    pub height: u32,
    /// Frames a second.
    pub fps: u32,
    /// 1 in a device's file.
    pub flag: u32,
    /// 0 in a device's file.
    pub reserved: u32,
    /// The packed run length.
    pub duration: u32,
}

impl Header {
    /// The fields of a body of at least 56 bytes.
    pub fn read(body: &[u8]) -> Self {
        Self {
            micros: u32_at(body, 0),
            width: u32_at(body, 32),
            height: u32_at(body, 36),
            fps: u32_at(body, 40),
            flag: u32_at(body, 44),
            reserved: u32_at(body, 48),
            duration: u32_at(body, 52),
        }
    }
}

/// The fields of the body at 284.
#[derive(Clone, Copy, Debug, PartialEq, Eq)]
pub struct Wave {
    /// 1 in a device's file.
    pub format: u16,
    /// 1 in a device's file.
    pub channels: u16,
    /// Samples a second.
    pub rate: u32,
    /// Average bytes a second.
    pub average: u32,
    /// 2 in a device's file.
    pub align: u16,
    /// 16 in a device's file.
    pub bits: u16,
    /// 0 in a device's file.
    pub cb_size: u16,
}

impl Wave {
    /// The fields of a body of at least 18 bytes.
    pub fn read(body: &[u8]) -> Self {
        Self {
            format: u16_at(body, 0),
            channels: u16_at(body, 2),
            rate: u32_at(body, 4),
            average: u32_at(body, 8),
            align: u16_at(body, 12),
            bits: u16_at(body, 14),
            cb_size: u16_at(body, 16),
        }
    }
}

/// Asks 11, 12 and 13 of each item, and gives the fields of the bodies.
fn ask_items(file: &[u8]) -> Answer<Prelude> {
    for (at, item) in &ITEMS {
        let (at, place) = (*at, *at as u64);
        let width = match item {
            Item::Body(width) => *width,
            _ => 4,
        };
        let Some(bytes) = file.get(at..at + width) else {
            return refuse(11, place);
        };
        match item {
            Item::Tag(tag) => ask(bytes == *tag, 12, place)?,
            Item::Size(size) => ask(bytes == size.to_le_bytes(), 13, place)?,
            Item::Body(_) => {}
        }
    }
    Ok(Prelude {
        header: Header::read(&file[32..88]),
        wave: Wave::read(&file[284..304]),
    })
}

/// Asks 11 to 24, and gives the fields of the bodies.
pub(crate) fn ask_strictly(file: &[u8]) -> Answer<Prelude> {
    let prelude = ask_items(file)?;
    let header = prelude.header;
    ask(header.fps > 0, 14, 72)?;
    ask(header.micros == micros(header.fps), 15, 32)?;
    ask(header.flag == 1, 16, 76)?;
    ask(header.reserved == 0, 17, 80)?;
    for (from, to) in [(36, 64), (108, 164), (172, 208), (228, 276)] {
        if let Some(at) = file[from..to].iter().position(|byte| *byte != 0) {
            return refuse(18, (from + at) as u64);
        }
    }
    let wave = prelude.wave;
    ask(wave.format == 1, 19, 284)?;
    ask(wave.channels == 1, 20, 286)?;
    ask(wave.average == average(wave.rate), 21, 292)?;
    ask(wave.align == 2, 22, 296)?;
    ask(wave.bits == 16, 23, 298)?;
    ask(wave.cb_size == 0, 24, 300)?;
    Ok(prelude)
}

/// The fields of a file's prelude. Refuses with 10 to 13.
pub fn parse(file: &[u8]) -> Answer<Prelude> {
    within_limit(file)?;
    ask_items(file)
}

/// The fields of a prelude that is as a device writes it. Refuses with 10 to 24.
pub fn parse_strict(file: &[u8]) -> Answer<Prelude> {
    within_limit(file)?;
    ask_strictly(file)
}
