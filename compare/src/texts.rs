//! The original's refusals are texts: each is given 01's number by its words, and the place that it names.

use oxideav_core::Error;

/// A text that is none of those that are known. No number of 01 is this one, so it never agrees.
pub const UNKNOWN_TEXT: u32 = 999;

/// Number and place for the words of a text. A place of `None` here is one that the text names itself, in hexadecimal after
/// "at offset" or in decimal after "#".
const TEXTS: [(&str, u32, Option<u64>); 30] = [
    ("slice too short for", 11, None),
    ("expected FOURCC", 12, None),
    ("amvh body length must be", 13, Some(28)),
    ("video strh body length must be", 13, Some(104)),
    ("video strf body length must be", 13, Some(168)),
    ("audio strh body length must be", 13, Some(224)),
    ("audio strf body length must be", 13, Some(280)),
    ("prelude slice shorter than amvh body", 11, Some(32)),
    ("prelude slice shorter than audio strf body", 11, Some(284)),
    ("fps must be > 0", 14, Some(72)),
    ("dwMicroSecPerFrame=", 15, Some(32)),
    ("amvh +0x2C", 16, Some(76)),
    ("amvh +0x30", 17, Some(80)),
    ("expected all-zero", 18, None),
    ("audio strf +0x00", 19, Some(284)),
    ("audio strf +0x02", 20, Some(286)),
    ("audio strf +0x08", 21, Some(292)),
    ("audio strf +0x0C", 22, Some(296)),
    ("audio strf +0x0E", 23, Some(298)),
    ("audio strf +0x10", 24, Some(300)),
    ("unexpected chunk tag", 31, None),
    ("got video (00dc)", 62, None),
    ("got audio (01wb)", 63, None),
    ("must be 00dc or 01wb", 64, None),
    ("chunk count must be even", 65, None),
    ("amvh body must be", 28, Some(0)),
    ("audio strf body must be at least", 27, Some(0)),
    ("chunk header needs", 29, Some(0)),
    ("01wb payload preamble needs", 25, Some(0)),
    ("decoded_sample_count must be > 0", 26, Some(0)),
];

/// Number and place of a text; no place where it names none.
pub fn number_of(text: &str) -> (u32, Option<u64>) {
    for (words, number, place) in TEXTS {
        if text.contains(words) {
            return (number, place.or_else(|| named_place(text)));
        }
    }
    (UNKNOWN_TEXT, None)
}

fn named_place(text: &str) -> Option<u64> {
    if let Some((_, hex)) = text.rsplit_once("at offset 0x") {
        return u64::from_str_radix(hex, 16).ok();
    }
    let (_, rest) = text.rsplit_once('#')?;
    let digits = rest.split(|c: char| !c.is_ascii_digit()).next()?;
    digits.parse().ok()
}

const WRITER_TEXTS: [(&str, u32); 5] = [
    ("write_header called twice", 50),
    ("called before write_header", 51),
    ("chunk size exceeds 4 GiB", 52),
    ("stream_index must be 0", 53),
    ("amv: write ", 54),
];

/// The number of a muxer's refusal. Its texts name no place.
pub fn writer_number(error: &Error) -> u32 {
    let (Error::Invalid(text) | Error::Other(text)) = error else {
        return UNKNOWN_TEXT;
    };
    WRITER_TEXTS
        .iter()
        .find(|(words, _)| text.contains(words))
        .map_or(UNKNOWN_TEXT, |(_, number)| *number)
}
