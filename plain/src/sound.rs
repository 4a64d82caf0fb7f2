//! The sound block decoded (docs/FORMAT.md, 16): IMA ADPCM with 89 steps, two nibbles a byte.

use crate::{Answer, ask, u16_at, u32_at};

/// The length of a block's preamble: level, step index, a free byte, count.
pub const PREAMBLE: usize = 8;

/// The last step index.
const LAST_STEP: u8 = 88;

/// The steps of the IMA's Recommended Practices.
pub const STEPS: [u16; LAST_STEP as usize + 1] = [
    7, 8, 9, 10, 11, 12, 13, 14, 16, 17, 19, 21, 23, 25, 28, 31, 34, 37, 41, 45, 50, 55, 60, 66,
    73, 80, 88, 97, 107, 118, 130, 143, 157, 173, 190, 209, 230, 253, 279, 307, 337, 371, 408, 449,
    494, 544, 598, 658, 724, 796, 876, 963, 1060, 1166, 1282, 1411, 1552, 1707, 1878, 2066, 2272,
    2499, 2749, 3024, 3327, 3660, 4026, 4428, 4871, 5358, 5894, 6484, 7132, 7845, 8630, 9493,
    10442, 11487, 12635, 13899, 15289, 16818, 18500, 20350, 22385, 24623, 27086, 29794, 32767,
];

/// How far a nibble moves the step index, by its low three bits.
const MOVES: [i32; 8] = [-1, -1, -1, -1, 2, 4, 6, 8];

/// Writes the samples of a block into a buffer, and gives their number. Refuses with 25, 71, 72 and 73.
#[inline]
pub fn decode_block(block: &[u8], samples: &mut [i16]) -> Answer<u64> {
    decode(block, samples, |step_index, nibble| {
        change(STEPS[step_index], nibble)
    })
}

/// The same with all changes of the level in a table, which is the faster on sound: the library is timed against it.
#[inline]
pub fn decode_block_by_table(block: &[u8], samples: &mut [i16]) -> Answer<u64> {
    decode(block, samples, |step_index, nibble| {
        CHANGES[step_index][nibble as usize % 16]
    })
}

/// The call, by what a nibble changes the level at a step index.
fn decode(block: &[u8], samples: &mut [i16], change_at: impl Fn(usize, u8) -> i32) -> Answer<u64> {
    ask(block.len() >= PREAMBLE, 25, 0)?;
    let (preamble, bytes) = block.split_at(PREAMBLE);
    ask(preamble[2] <= LAST_STEP, 71, 2)?;
    let count = u32_at(preamble, 4) as usize;
    ask(count <= 2 * bytes.len(), 72, 4)?;
    ask(count <= samples.len(), 73, 0)?;
    let mut level = u16_at(preamble, 0) as i16 as i32;
    let mut step_index = preamble[2] as i32;
    // The level that a nibble leads to; then the step index moves.
    let mut sample = |nibble: u8| {
        level += change_at(step_index as usize, nibble);
        level = level.clamp(i16::MIN.into(), i16::MAX.into());
        step_index = (step_index + MOVES[nibble as usize % 8]).clamp(0, LAST_STEP.into());
        level as i16
    };
    let (pairs, last) = samples[..count].as_chunks_mut();
    for ([first, second], byte) in pairs.iter_mut().zip(bytes) {
        *first = sample(byte >> 4);
        *second = sample(byte & 15);
    }
    // The low nibble of the last byte is free where the count is odd.
    if let [only] = last {
        *only = sample(bytes[count / 2] >> 4);
    }
    Ok(count as u64)
}

/// What a nibble changes the level by: an eighth of the step, and by its low three bits the whole, a half and a quarter
/// of it, each rounded down on its own; downwards where it has bit 8.
const fn change(step: u16, nibble: u8) -> i32 {
    let step = step as i32;
    let mut rise = step / 8;
    if nibble & 4 != 0 {
        rise += step;
    }
    if nibble & 2 != 0 {
        rise += step / 2;
    }
    if nibble & 1 != 0 {
        rise += step / 4;
    }
    if nibble & 8 == 0 { rise } else { -rise }
}

/// The change by each nibble at each step index.
const CHANGES: [[i32; 16]; STEPS.len()] = {
    let mut changes = [[0; 16]; STEPS.len()];
    let mut i = 0;
    while i < 16 * STEPS.len() {
        changes[i / 16][i % 16] = change(STEPS[i / 16], i as u8 % 16);
        i += 1;
    }
    changes
};
