//! A stand-in of our own for the types and traits of `oxideav_core` that the three compared files name: the smallest that lets
//! them compile. Nothing here decides anything that is compared; the types carry values and the traits name the calls.

use std::io::{Read, Seek, Write};

pub trait ReadSeek: Read + Seek {}
impl<T: Read + Seek> ReadSeek for T {}

pub trait WriteSeek: Write + Seek {}
impl<T: Write + Seek> WriteSeek for T {}

#[derive(Debug, Clone, PartialEq, Eq)]
pub enum Error {
    Eof,
    Invalid(String),
    Other(String),
}

impl Error {
    pub fn invalid(text: impl Into<String>) -> Self {
        Self::Invalid(text.into())
    }

    pub fn other(text: impl Into<String>) -> Self {
        Self::Other(text.into())
    }
}

pub type Result<T> = std::result::Result<T, Error>;

#[derive(Debug, Clone, Copy, PartialEq, Eq)]
pub struct Rational {
    pub num: i64,
    pub den: i64,
}

impl Rational {
    pub fn new(num: i64, den: i64) -> Self {
        Self { num, den }
    }
}

#[derive(Debug, Clone, Copy, PartialEq, Eq)]
pub struct TimeBase(Rational);

impl TimeBase {
    pub fn new(num: i64, den: i64) -> Self {
        Self(Rational::new(num, den))
    }

    pub fn as_rational(self) -> Rational {
        self.0
    }
}

#[derive(Debug, Clone, Copy, PartialEq, Eq)]
pub struct CodecId(pub &'static str);

impl CodecId {
    pub fn new(name: &'static str) -> Self {
        Self(name)
    }
}

#[derive(Debug, Clone, Copy, PartialEq, Eq)]
pub enum MediaType {
    Video,
    Audio,
}

#[derive(Debug, Clone, Copy, PartialEq, Eq)]
pub enum PixelFormat {
    Yuv420P,
}

#[derive(Debug, Clone, Copy, PartialEq, Eq)]
pub enum SampleFormat {
    S16,
}

#[derive(Debug, Clone, Copy, PartialEq, Eq)]
pub struct ChannelLayout(pub u16);

impl ChannelLayout {
    pub fn from_count(count: u16) -> Self {
        Self(count)
    }
}

#[derive(Debug, Clone, Copy)]
pub struct CodecParameters {
    pub codec_id: CodecId,
    pub media_type: MediaType,
    pub width: Option<u32>,
    pub height: Option<u32>,
    pub pixel_format: Option<PixelFormat>,
    pub frame_rate: Option<Rational>,
    pub sample_rate: Option<u32>,
    pub channels: Option<u16>,
    pub sample_format: Option<SampleFormat>,
    pub channel_layout: Option<ChannelLayout>,
}

impl CodecParameters {
    pub fn video(codec_id: CodecId) -> Self {
        Self::empty(codec_id, MediaType::Video)
    }

    pub fn audio(codec_id: CodecId) -> Self {
        Self::empty(codec_id, MediaType::Audio)
    }

    fn empty(codec_id: CodecId, media_type: MediaType) -> Self {
        Self {
            codec_id,
            media_type,
            width: None,
            height: None,
            pixel_format: None,
            frame_rate: None,
            sample_rate: None,
            channels: None,
            sample_format: None,
            channel_layout: None,
        }
    }
}

#[derive(Debug, Clone, Copy)]
pub struct StreamInfo {
    pub index: u32,
    pub time_base: TimeBase,
    pub duration: Option<i64>,
    pub start_time: Option<i64>,
    pub params: CodecParameters,
}

#[derive(Debug, Clone, Copy, Default)]
pub struct PacketFlags {
    pub keyframe: bool,
}

#[derive(Debug, Clone)]
pub struct Packet {
    pub stream_index: u32,
    pub time_base: TimeBase,
    pub data: Vec<u8>,
    pub pts: Option<i64>,
    pub dts: Option<i64>,
    pub duration: Option<i64>,
    pub flags: PacketFlags,
}

impl Packet {
    pub fn new(stream_index: u32, time_base: TimeBase, data: Vec<u8>) -> Self {
        Self {
            stream_index,
            time_base,
            data,
            pts: None,
            dts: None,
            duration: None,
            flags: PacketFlags::default(),
        }
    }
}

pub trait Demuxer {
    fn format_name(&self) -> &str;
    fn streams(&self) -> &[StreamInfo];
    fn next_packet(&mut self) -> Result<Packet>;
    fn duration_micros(&self) -> Option<i64>;
    fn seek_to(&mut self, stream_index: u32, requested_pts: i64) -> Result<i64>;
}

pub trait Muxer {
    fn format_name(&self) -> &str;
    fn write_header(&mut self) -> Result<()>;
    fn write_packet(&mut self, packet: &Packet) -> Result<()>;
    fn write_trailer(&mut self) -> Result<()>;
}
