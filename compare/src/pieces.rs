//! The pieces that the C interface does not have, single bodies (docs/FORMAT.md, 10) and the builder of preludes: a second implementation
//! against the original alone.

use plain::words::{header_words, wave_words};
use plain::{Answer, Header, Wave, ask, u32_at};

use crate::original::{self, Told};
use crate::random::Random;
use crate::said::said;
use crate::tally::{Tally, hex};

fn parse_header(body: &[u8]) -> Answer<Header> {
    ask(body.len() >= 56, 28, 0)?;
    Ok(Header::read(body))
}

fn parse_wave(body: &[u8]) -> Answer<Wave> {
    ask(body.len() >= 18, 27, 0)?;
    let mut wave = Wave::read(body);
    if body.len() < 20 {
        wave.cb_size = 0;
    }
    Ok(wave)
}

/// Tag and length.
pub fn parse_chunk_header(bytes: &[u8]) -> Answer<[u64; 2]> {
    ask(bytes.len() >= 8, 29, 0)?;
    Ok([u32_at(bytes, 0), u32_at(bytes, 4)].map(u64::from))
}

/// State and count, and whether the count is above 0.
pub fn parse_preamble(body: &[u8]) -> Answer<(u32, u32, Answer<()>)> {
    ask(body.len() >= 8, 25, 0)?;
    let count = u32_at(body, 4);
    Ok((u32_at(body, 0), count, ask(count > 0, 26, 0)))
}

fn preamble_words((state, count, above): (u32, u32, Answer<()>)) -> [u64; 3] {
    let number = above.map_or_else(|refusal| refusal.number, |()| 0);
    [state, count, number].map(u64::from)
}

fn told<const N: usize, const M: usize>(answer: Answer<[u64; M]>) -> Told<N> {
    Told::Said(said(answer))
}

/// Every length up to 60, with bytes of all kinds.
pub fn bodies(tally: &mut Tally, random: &mut Random) {
    for length in 0..60 {
        let mut body = random.bytes(length);
        if random.once_in(2) {
            body.iter_mut().skip(4).take(4).for_each(|byte| *byte = 0);
        }
        let input = || hex(&body);
        let ours = told(parse_header(&body).map(header_words));
        tally.equal("AmvHeader::parse", ours, original::header(&body), input);
        let ours = told(parse_wave(&body).map(wave_words));
        tally.equal("AmvWaveFormat::parse", ours, original::wave(&body), input);
        let ours = told(parse_chunk_header(&body));
        let theirs = original::chunk_header(&body);
        tally.equal("ChunkHeader::parse", ours, theirs, input);
        let ours = told(parse_preamble(&body).map(preamble_words));
        let theirs = original::preamble(&body);
        tally.equal("AmvAudioPreamble::parse", ours, theirs, input);
    }
}

/// The prelude's builder, with a run length of its own; the header call has it with 0.
pub fn build_prelude_bytes(tally: &mut Tally, random: &mut Random) {
    let settings = plain::Settings {
        width: random.word32(),
        height: random.word32(),
        fps: random.word32(),
        rate: random.word32(),
        channels: random.word32() as u16,
    };
    let duration = random.word32();
    let ours = plain::build_prelude_bytes(settings, duration).to_vec();
    let theirs = original::build_prelude_bytes(&plain::Writer::fresh(settings), duration);
    tally.equal("build_prelude_bytes", ours, theirs, || {
        format!("{settings:?} {duration}")
    });
}
