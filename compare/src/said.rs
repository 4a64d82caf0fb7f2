//! Answers and writing calls, in the form that all sides are compared in.

use plain::words::read_out;
use plain::{Answer, Packet, Refusal, Writer};

/// What a call answers: its number, and its `out`, of which the first word is the place.
#[derive(Clone, Copy, Debug, PartialEq, Eq)]
pub struct Said<const N: usize> {
    pub number: u32,
    pub out: [u64; N],
}

/// Acceptance, with the words after the place; those that are not named are 0.
pub fn accepted<const N: usize>(values: &[u64]) -> Said<N> {
    let mut out = [0; N];
    out[1..1 + values.len()].copy_from_slice(values);
    Said { number: 0, out }
}

/// A refusal.
pub fn refused<const N: usize>(number: u32, place: u64) -> Said<N> {
    let mut out = [0; N];
    out[0] = place;
    Said { number, out }
}

/// An answer, with the words after the place.
pub fn said<const N: usize, const M: usize>(answer: Answer<[u64; M]>) -> Said<N> {
    match answer {
        Ok(values) => accepted(&values),
        Err(Refusal { number, place }) => refused(number, place),
    }
}

/// The answer of a read.
pub fn said_read(answer: Answer<Option<Packet>>) -> Said<7> {
    match answer {
        Ok(read) => Said {
            number: 0,
            out: read_out(read),
        },
        Err(Refusal { number, place }) => refused(number, place),
    }
}

/// A writing call.
#[derive(Clone, Copy, Debug)]
pub enum Write<'a> {
    Header,
    Packet(&'a [u8], u32),
    Trailer,
}

impl Write<'_> {
    /// The call on the plain implementation's writer.
    pub fn on(self, writer: &mut Writer, buf: &mut [u8]) -> Answer<()> {
        match self {
            Write::Header => writer.write_header(buf),
            Write::Packet(payload, stream) => writer.write_packet(buf, payload, stream),
            Write::Trailer => writer.write_trailer(buf),
        }
    }
}
