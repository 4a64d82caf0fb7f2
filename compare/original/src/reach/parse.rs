// Ours, in the module of parse.rs: its prelude is not public.

/// What `AmvPrelude` holds, in public types.
pub type PreludeParts = (AmvHeader, AmvWaveFormat, u64);

pub fn parse_prelude(file: &[u8], strict: bool) -> Result<PreludeParts, AmvDemuxerError> {
    let prelude = if strict {
        AmvPrelude::parse_strict(file)?
    } else {
        AmvPrelude::parse(file)?
    };
    Ok((
        prelude.header,
        prelude.audio_format,
        prelude.movi_payload_start,
    ))
}
