//! The three compared files as modules of one crate, with the names that they expect at its root.

// Much of the three files is not compared, and some of it is not public.
#![allow(dead_code, unused_imports)]

include!(concat!(env!("OUT_DIR"), "/modules.rs"));

/// The file that they are compiled from: a panic of theirs names it.
pub const SOURCE: &str = concat!(env!("OUT_DIR"), "/modules.rs");

pub use demuxer::AmvDemuxerError;
pub use parse::DurationConsistency;

pub const CONTAINER_NAME: &str = "amv";
pub const AUDIO_CODEC_ID: &str = "adpcm_amv";
pub const VIDEO_DIRECT_CODEC_ID: &str = "amv_video";

/// Decoding pictures and sound is no part of what is compared: the two decoders only have to be named.
pub struct DecodedFrame;

pub enum ChromaUpsample {
    Nearest,
}

pub fn decode_frame_from_payload_with(
    _: &parse::AmvHeader,
    _: &[u8],
    _: ChromaUpsample,
) -> oxideav_core::Result<DecodedFrame> {
    Err(oxideav_core::Error::other("not built"))
}

pub fn decode_audio_payload(_: &[u8]) -> oxideav_core::Result<Vec<i16>> {
    Err(oxideav_core::Error::other("not built"))
}
