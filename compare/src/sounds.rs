//! Sound blocks decoded (docs/FORMAT.md, 16): what the request says of every block, in terms that share nothing but the
//! 89 steps with those of the plain implementation, and the blocks and buffers that are fed to the comparison.

use plain::{PREAMBLE, STEPS};

use crate::calls::{self, Guarded};
use crate::interface::{LIBRARY, PLAIN};
use crate::random::Random;
use crate::said::{Said, accepted, refused};
use crate::tally::{Tally, hex};

/// What entries of a buffer are filled with.
const FILL: i16 = 0x3cc3;

/// The rise of a step for each magnitude, which is the low three bits of a nibble.
fn rises(step: u16) -> [u16; 8] {
    let [whole, half, quarter, eighth] = [1, 2, 4, 8].map(|part| step / part);
    [
        eighth,
        quarter + eighth,
        half + eighth,
        half + quarter + eighth,
        whole + eighth,
        whole + quarter + eighth,
        whole + half + eighth,
        whole + half + quarter + eighth,
    ]
}

/// The samples of the nibbles from a level and a step index on. The level's sums are std's that saturate.
fn samples_of(mut level: i16, mut step_index: u8, nibbles: impl Iterator<Item = u8>) -> Vec<i16> {
    let sample = |nibble: u8| {
        let (falls, magnitude) = (nibble / 8 == 1, nibble % 8);
        let rise = rises(STEPS[step_index as usize])[magnitude as usize];
        level = if falls {
            level.saturating_sub_unsigned(rise)
        } else {
            level.saturating_add_unsigned(rise)
        };
        step_index = if magnitude < 4 {
            step_index.saturating_sub(1)
        } else {
            (step_index + 2 * (magnitude - 3)).min(88)
        };
        level
    };
    nibbles.map(sample).collect()
}

/// The answer to a block and a buffer of that length, and the samples.
fn expected(block: &[u8], room: usize) -> (Said<2>, Vec<i16>) {
    let refusal = |number, place| (refused(number, place), Vec::new());
    let Some(([low, high, step_index, _, count @ ..], bytes)) =
        block.split_first_chunk::<PREAMBLE>()
    else {
        return refusal(25, 0);
    };
    let count = count.iter().rev().fold(0, |n, byte| n << 8 | *byte as u64);
    if *step_index > 88 {
        refusal(71, 2)
    } else if count.div_ceil(2) > bytes.len() as u64 {
        refusal(72, 4)
    } else if count > room as u64 {
        refusal(73, 0)
    } else {
        let nibbles = bytes.iter().flat_map(|byte| [byte / 16, byte % 16]);
        let level = i16::from_le_bytes([*low, *high]);
        let samples = samples_of(level, *step_index, nibbles.take(count as usize));
        (accepted(&[count]), samples)
    }
}

/// Whether the answer is the request's, the samples are the block's, and all entries after them stay; a refused block
/// has no samples.
pub fn stands(block: &[u8], given: &[i16], said: Said<2>, samples: &[i16]) -> bool {
    let (answer, decoded) = expected(block, given.len());
    said == answer
        && samples.starts_with(&decoded)
        && samples[decoded.len()..] == given[decoded.len()..]
}

/// The payload of a read that gave a sound block.
pub fn of_packet(tally: &mut Tally, file: &[u8], read: &Said<7>) {
    let [_, 1, 1, start, length, _, count] = read.out else {
        return;
    };
    let block = &file[start as usize..(start + length) as usize];
    let room = count.min(2 * length) as usize;
    calls::decode_block(tally, block, &vec![FILL; room + 1]);
}

/// Short blocks and buffers, in full.
pub fn short(tally: &mut Tally) {
    written_out(tally);
    nibbles(tally);
    questions(tally);
    lengths(tally);
    single_bytes(tally);
    many_samples(tally);
}

/// Blocks with their samples, written out.
pub const WRITTEN_OUT: [(&[u8], &[i16]); 10] = [
    // The block of 01's small file E: 7/8 + 7/4, and the step index stays at 0.
    (&[0, 0, 0, 0, 2, 0, 0, 0, 0x11, 0x22], &[1, 2]),
    // No sample, with nibbles and without.
    (&[1, 2, 3, 4, 0, 0, 0, 0, 0x77], &[]),
    (&[1, 2, 88, 4, 0, 0, 0, 0], &[]),
    // All nibbles, the falling ones first; the steps are 10, 9, 8, 7, 7, 9, 13, 23, 50, 45, 41, 37, 34, 41, 60 and 107.
    (
        &[
            0xfb, 0xff, 3, 0xaa, 16, 0, 0, 0, 0x89, 0xab, 0xcd, 0xef, 0x01, 0x23, 0x45, 0x67,
        ],
        &[
            -6, -9, -14, -18, -25, -37, -57, -98, -92, -76, -51, -20, 18, 74, 171, 370,
        ],
    ),
    // Every eighth step, the last one thrice, with the greatest rise: 53,705 is held, -28,669 is not, -90,105 is.
    (
        &[
            0, 0, 0, 0, 14, 0, 0, 0, 0x77, 0x77, 0x77, 0x77, 0x77, 0x7f, 0xf7,
        ],
        &[
            11, 41, 104, 240, 533, 1164, 2521, 5431, 11667, 25039, 32767, -28669, -32768, 28668,
        ],
    ),
    // The greatest rise of all, 61,436, up from one rail and then down to the very end of the other.
    (
        &[0x00, 0x80, 88, 0, 3, 0, 0, 0, 0x7f, 0xff],
        &[28668, -32768, -32768],
    ),
    // Each division rounds down on its own: 11/8 + 11/2 + 11/4 is 1 + 5 + 2. The last low nibble is free.
    (&[0, 0, 4, 0, 1, 0, 0, 0, 0x3f], &[8]),
    // 28,672 + 4,095 is the rail itself; with a step less it is held there; then it falls by 27,086/8.
    (
        &[0x00, 0x70, 88, 0xff, 3, 0, 0, 0, 0x00, 0x80],
        &[32767, 32767, 29382],
    ),
    // From the lowest level: a rise of 0 downwards, one of 11 that is held, and one of 30 upwards.
    (
        &[0x00, 0x80, 0, 0, 3, 0, 0, 0, 0x8f, 0x70, 0xff],
        &[-32768, -32768, -32738],
    ),
    // From step index 87 twice up by step/8 + step, held, and down again: all but the first by the step at 88.
    (
        &[0x00, 0x80, 87, 0, 4, 0, 0, 0, 0x44, 0xc8],
        &[750, 32767, -4095, -8190],
    ),
];

fn written_out(tally: &mut Tally) {
    for (block, samples) in WRITTEN_OUT {
        for side in [PLAIN, LIBRARY] {
            let mut lent = Guarded::new(&vec![FILL; samples.len()]);
            let said = side.decode_block(block, lent.lent());
            let same = said == accepted(&[samples.len() as u64]) && lent.holds(samples);
            tally.judge("decode_block", same, || {
                format!("{}: {said:?} {:?}", hex(block), lent.lent())
            });
        }
    }
}

fn block_of(level: i16, step_index: u8, count: u32, bytes: &[u8]) -> Vec<u8> {
    let [low, high] = level.to_le_bytes();
    [
        &[low, high, step_index, 0xaa],
        &count.to_le_bytes()[..],
        bytes,
    ]
    .concat()
}

/// The levels that tell what a nibble of that rise does: the rails, 0, and those at which it begins to be held.
fn telling_levels(rise: u16) -> Vec<i16> {
    let (least, most, rise) = (i16::MIN as i32, i16::MAX as i32, rise as i32);
    let near = [least, -1, 0, most, least + rise, most - rise];
    let levels = near
        .into_iter()
        .flat_map(|level| [level - 1, level, level + 1]);
    levels.flat_map(i16::try_from).collect()
}

/// Each nibble at each step index, from all telling levels; the nibble after it shows where it left the step index.
fn nibbles(tally: &mut Tally) {
    for (step_index, step) in (0..).zip(STEPS) {
        for nibble in 0..16 {
            for level in telling_levels(rises(step)[nibble as usize % 8]) {
                for next in [0, 7, 8, 15] {
                    let block = block_of(level, step_index, 2, &[nibble << 4 | next]);
                    calls::decode_block(tally, &block, &[FILL; 3]);
                }
            }
        }
    }
}

/// Blocks and buffers that the questions turn on, several of which are answered with no at once.
fn questions(tally: &mut Tally) {
    for length in 0..=PREAMBLE + 2 {
        let fits = 2 * length.saturating_sub(PREAMBLE) as u32;
        for step_index in [0, 1, 87, 88, 89, 90, 127, 128, 255] {
            for count in [
                0,
                1,
                fits.saturating_sub(1),
                fits,
                fits + 1,
                fits + 2,
                256,
                1 << 16,
                1 << 31,
                u32::MAX,
            ] {
                let mut block = block_of(-2, step_index, count, &[0x9c, 0x35]);
                block.truncate(length);
                for room in [0, 1, 2, 3, 4, 5, 256] {
                    calls::decode_block(tally, &block, &vec![FILL; room]);
                }
            }
        }
    }
}

/// All lengths of a block up to four bytes of nibbles with all counts and all lengths of a buffer up to some more.
fn lengths(tally: &mut Tally) {
    for length in 0..=4 {
        for count in 0..=10 {
            let block = block_of(300, 30, count, &[0x1f, 0x97, 0x2c, 0xe5][..length]);
            for room in 0..=11 {
                calls::decode_block(tally, &block, &vec![FILL; room]);
            }
        }
    }
}

/// Every value of every byte of a block of five samples.
fn single_bytes(tally: &mut Tally) {
    let example = block_of(-300, 20, 5, &[0x3b, 0x6c, 0xd2, 0x11]);
    for at in 0..example.len() {
        let mut block = example.clone();
        for value in 0..=255 {
            block[at] = value;
            calls::decode_block(tally, &block, &[FILL; 9]);
        }
    }
}

/// More samples than 16 bits count.
fn many_samples(tally: &mut Tally) {
    let bytes = random_nibbles(&mut Random(101), 40_000);
    let block = block_of(0, 0, 79_999, &bytes);
    calls::decode_block(tally, &block, &vec![FILL; 80_001]);
}

/// An arbitrary block, at any alignment, with buffers of several lengths and from another level.
pub fn round(tally: &mut Tally, random: &mut Random) {
    let before = random.size(8);
    let mut bytes = random.bytes(before);
    bytes.extend(random_block(random));
    let block = &mut bytes[before..];
    let fits = 2 * block.len();
    for room in [fits, random.size(fits + 1), fits + random.size(9)] {
        let given: Vec<i16> = (0..room).map(|_| random.next() as i16).collect();
        calls::decode_block(tally, block, &given);
    }
    at_the_count(tally, block);
    another_level(tally, random, block);
}

/// A buffer that has room for the count, and one that is an entry short of it.
fn at_the_count(tally: &mut Tally, block: &[u8]) {
    let (said, samples) = expected(block, usize::MAX);
    if said.number == 0 {
        calls::decode_block(tally, block, &vec![FILL; samples.len()]);
        calls::decode_block(tally, block, &vec![FILL; samples.len().saturating_sub(1)]);
    }
}

/// The block from another level: no sample of the library's moves by more than the level did.
fn another_level(tally: &mut Tally, random: &mut Random, block: &mut [u8]) {
    let Some(level) = block.first_chunk().copied().map(i16::from_le_bytes) else {
        return;
    };
    let other = match random.below(3) {
        0 => random_level(random),
        _ => level.saturating_add(random.below(200) as i16 - 100),
    };
    let [samples, others] = [level, other].map(|level| {
        block[..2].copy_from_slice(&level.to_le_bytes());
        let mut lent = Guarded::new(&vec![FILL; 2 * block.len()]);
        LIBRARY.decode_block(block, lent.lent());
        lent.lent().to_vec()
    });
    let moved = |(one, other): (&i16, &i16)| one.abs_diff(*other);
    let most = samples.iter().zip(&others).map(moved).max();
    let same = most <= Some(level.abs_diff(other));
    tally.judge("decode_block from another level", same, || {
        format!("{level} and {}: {samples:?}, {others:?}", hex(block))
    });
}

/// A level at a rail or near it, near 0, or any.
fn random_level(random: &mut Random) -> i16 {
    let near = random.pick(&[i16::MIN, 0, i16::MAX]);
    match random.below(3) {
        0 => near,
        1 => near.saturating_add(random.below(2000) as i16 - 1000),
        _ => random.next() as i16,
    }
}

/// Nibbles of all kinds, or with a large magnitude only once in a while, as sound has them.
fn random_nibbles(random: &mut Random, length: usize) -> Vec<u8> {
    let mut bytes = random.bytes(length);
    let large_once_in = random.pick(&[1, 3, 4, 20]);
    for byte in &mut bytes {
        for bit in [0x40, 0x04] {
            if !random.once_in(large_once_in) {
                *byte &= !bit;
            }
        }
    }
    bytes
}

/// Mostly one that is accepted where there is room.
fn random_block(random: &mut Random) -> Vec<u8> {
    let most = random.pick(&[3, 9, 9, 9, 9, 9, 40, 200]);
    let length = random.size(most);
    let bytes = random_nibbles(random, length);
    let fits = 2 * length as u32;
    let count = match random.below(8) {
        0 => random.below(fits as u64 + 1) as u32,
        1 => fits + 1,
        2 => random.word32(),
        3 | 4 => fits.saturating_sub(1),
        _ => fits,
    };
    let step_index = match random.below(8) {
        0 => random.pick(&[0, 88, 89, 255]),
        1 => random.next() as u8,
        _ => random.below(89) as u8,
    };
    let mut block = block_of(random_level(random), step_index, count, &bytes);
    block[3] = random.next() as u8;
    if random.once_in(16) {
        block.truncate(random.size(PREAMBLE + 1));
    }
    block
}
