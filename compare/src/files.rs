//! Recordings: good ones, damaged ones, and all short ones over an alphabet of telling words.

use plain::{AUDIO, PRELUDE, Settings, TRAILER, VIDEO};

use crate::random::Random;

pub const EXAMPLE_SETTINGS: Settings = Settings {
    width: 8,
    height: 8,
    fps: 12,
    rate: 8000,
    channels: 1,
};

/// A finished recording with E's settings and these chunks, each a tag and a payload.
pub fn recording(chunks: &[(u32, &[u8])]) -> Vec<u8> {
    let mut file = plain::build_prelude_bytes(EXAMPLE_SETTINGS, 0).to_vec();
    for (tag, payload) in chunks {
        push_chunk(&mut file, *tag, payload);
    }
    file.extend(TRAILER);
    file
}

/// 01's small file E.
pub fn example() -> Vec<u8> {
    recording(&[
        (VIDEO, &[0xff, 0xd8, 0xd9]),
        (AUDIO, &[0, 0, 0, 0, 2, 0, 0, 0, 0x11, 0x22]),
    ])
}

/// Files with chunks of telling lengths, each to be cut everywhere.
pub fn shapes() -> Vec<Vec<u8>> {
    let lengths: [&[(u32, usize)]; 7] = [
        &[],
        &[(AUDIO, 1), (AUDIO, 2), (AUDIO, 3), (AUDIO, 4)],
        &[(AUDIO, 5), (AUDIO, 6), (VIDEO, 1), (AUDIO, 1)],
        &[(AUDIO, 7), (AUDIO, 8), (AUDIO, 9)],
        &[(VIDEO, 0), (AUDIO, 0), (VIDEO, 1)],
        &[(VIDEO, 8), (VIDEO, 9), (AUDIO, 12), (AUDIO, 3)],
        &[(AUDIO, 16), (VIDEO, 2)],
    ];
    let shape = |chunks: &[(u32, usize)]| {
        let chunk = |(tag, length): &(u32, usize)| (*tag, &[5; 16][..*length]);
        recording(&chunks.iter().map(chunk).collect::<Vec<_>>())
    };
    let mut files = vec![example()];
    files.extend(lengths.map(shape));
    files
}

/// A recording whose payloads could be taken for chunks and trailers, so that some cuts of it end as a finished one does.
pub fn nested() -> Vec<u8> {
    let inner = &example()[PRELUDE..].repeat(2)[..];
    recording(&[(VIDEO, inner), (AUDIO, inner), (VIDEO, TRAILER)])
}

pub fn push_chunk(file: &mut Vec<u8>, tag: u32, payload: &[u8]) {
    file.extend(tag.to_le_bytes());
    file.extend((payload.len() as u32).to_le_bytes());
    file.extend(payload);
}

/// A finished recording.
pub fn finished(random: &mut Random) -> Vec<u8> {
    let settings = Settings {
        width: random.word32(),
        height: random.word32(),
        fps: random.word32().max(1),
        rate: random.word32(),
        channels: 1,
    };
    let mut file = plain::build_prelude_bytes(settings, random.word32()).to_vec();
    push_chunks(random, &mut file);
    file.extend(TRAILER);
    file
}

fn push_chunks(random: &mut Random, file: &mut Vec<u8>) {
    let paired = random.once_in(3);
    for i in 0..random.size(9) {
        let video = if paired {
            i % 2 == 0
        } else {
            random.once_in(2)
        };
        let payload = payload(random);
        push_chunk(file, if video { VIDEO } else { AUDIO }, &payload);
    }
}

/// A payload of a telling length, its count at a boundary more often than not.
pub fn payload(random: &mut Random) -> Vec<u8> {
    let length = match random.below(4) {
        0 => random.pick(&[0, 1, 4, 7, 8, 9]),
        _ => random.size(24),
    };
    let mut payload = random.bytes(length);
    if length >= 8 && !random.once_in(4) {
        let count = random.word32();
        payload[4..8].copy_from_slice(&count.to_le_bytes());
    }
    payload
}

/// A copy of a good recording, damaged once or more.
pub fn damaged(random: &mut Random) -> Vec<u8> {
    let mut file = finished(random);
    for _ in 0..1 + random.below(3) {
        damage(random, &mut file);
    }
    file
}

fn damage(random: &mut Random, file: &mut Vec<u8>) {
    if file.is_empty() {
        return;
    }
    match random.below(8) {
        0 => file.truncate(random.size(file.len() + 1)),
        1 => {
            let near = file.len().saturating_sub(random.size(24));
            file.truncate(near);
        }
        2 => file.extend(random.bytes(1).repeat(1 + random.size(9))),
        3 => file.extend(TRAILER),
        4 => put_in_movi(random, file),
        5 => {
            let at = random.size(file.len());
            file.insert(at, random.next() as u8);
        }
        6 => {
            file.remove(random.size(file.len()));
        }
        _ => {
            let at = random.size(file.len());
            file[at] = random.next() as u8;
        }
    }
}

/// Overwrites four bytes after the prelude with a telling word.
fn put_in_movi(random: &mut Random, file: &mut [u8]) {
    if file.len() < PRELUDE + 4 {
        return;
    }
    let word = match random.below(3) {
        0 => random.word32(),
        1 => random.below(40) as u32,
        _ => u32::from_le_bytes(random.pick(&WORDS)),
    };
    let at = PRELUDE + random.size(file.len() - PRELUDE - 3);
    file[at..at + 4].copy_from_slice(&word.to_le_bytes());
}

/// A prelude whose fields are at boundaries, with a field or two put wrong.
pub fn prelude(random: &mut Random) -> Vec<u8> {
    let mut file = plain::build_prelude_bytes(
        Settings {
            width: random.word32(),
            height: random.word32(),
            fps: random.word32(),
            rate: random.word32(),
            channels: if random.once_in(4) {
                random.word32() as u16
            } else {
                1
            },
        },
        random.word32(),
    )
    .to_vec();
    for _ in 0..random.below(3) {
        if random.once_in(2) {
            let at = random.size(PRELUDE);
            file[at] ^= 1 << random.below(8);
        } else {
            let at = random.pick(&[32, 36, 60, 72, 76, 80, 284, 286, 288, 292, 296, 298, 300]);
            let wide = random.pick(&[1, 2, 4]);
            let word = random.word32().to_le_bytes();
            file[at..at + wide].copy_from_slice(&word[..wide]);
        }
    }
    if random.once_in(8) {
        file.truncate(random.size(PRELUDE + 1));
    }
    file
}

/// The words that decide where a walk goes.
pub const WORDS: [[u8; 4]; 11] = [
    *b"00dc",
    *b"01wb",
    *b"AMV_",
    *b"END_",
    *b"00wb",
    0u32.to_le_bytes(),
    1u32.to_le_bytes(),
    4u32.to_le_bytes(),
    8u32.to_le_bytes(),
    9u32.to_le_bytes(),
    u32::MAX.to_le_bytes(),
];

/// Calls `each` with every list of so many of the items.
pub fn all_lists<T: Copy>(items: &[T], count: u32, mut each: impl FnMut(&[T])) {
    let base = items.len();
    for number in 0..base.pow(count) {
        let place = |i| items[number / base.pow(i) % base];
        let list: Vec<T> = (0..count).map(place).collect();
        each(&list);
    }
}

/// Calls `each` on a good prelude followed by every list of up to `most` words, and by that with each of 1 to 3 bytes more.
pub fn all_short(most: u32, mut each: impl FnMut(&[u8])) {
    let prelude = plain::build_prelude_bytes(EXAMPLE_SETTINGS, 0);
    for count in 0..=most {
        all_lists(&WORDS, count, |words| {
            let mut file = [&prelude, words.as_flattened()].concat();
            each(&file);
            if count < most {
                for extra in [&b"0"[..], b"00", b"00d"] {
                    file.truncate(PRELUDE + 4 * count as usize);
                    file.extend(extra);
                    each(&file);
                }
            }
        });
    }
}
