//! What is timed, on three sides: the library, the plain program with the library's interface, and the plain program with Rust's types.

use amv::sys as c;
use plain::words::{self, WalkerWords, WriterWords};
use plain::{PRELUDE, RECORD, REGISTERS, Settings, Walker, Writer, calls};

/// Each run gives a number that depends on its answers, so that the sides can be compared.
pub struct Side {
    pub index: fn(&[u8], &mut [u8]) -> u64,
    pub summary: fn(&[u8]) -> u64,
    pub drain: fn(&[u8]) -> u64,
    pub seeks: fn(&[u8]) -> u64,
    /// The drain, by register steps.
    pub steps: fn(&[u8]) -> u64,
    /// The seeks, by register steps.
    pub seek_steps: fn(&[u8]) -> u64,
    pub page: fn(&[u8], &mut [u8]) -> u64,
    /// Each of the blocks in turn into the same samples.
    pub sound: fn(&[Vec<u8>], &mut [i16]) -> u64,
    pub check: fn(&[u8]) -> u64,
    pub write: fn(&mut [u8], usize, &[u8]) -> u64,
}

/// So many seeks in a run, to frames spread over the table.
pub const SEEKS: i64 = 64;

const FRESH: WalkerWords = [PRELUDE as u64, 0, 0, 0, 0, 0, u64::MAX];
/// A register block that nothing was done with; every bit may interrupt.
const FRESH_BLOCK: [u8; REGISTERS] = [0, 0, 15, 0, 0, 0, 0, 0, 0, 0, 0, 0, 0, 0, 0, 0];
const FRESH_WRITER: WriterWords = [160, 120, 12, 22_050, 1, 0, 0, 0, 0];

/// A function that reads bytes, writes others from their start on, and answers how many items these are.
type Filling = unsafe extern "C" fn(*const u8, usize, *mut u8, usize, *mut [u64; 2]) -> u32;

#[inline(always)]
fn fill(function: Filling, from: &[u8], to: &mut [u8]) -> u64 {
    let mut out = [0; 2];
    let (bytes, len) = (to.as_mut_ptr(), to.len());
    let number = unsafe { function(from.as_ptr(), from.len(), bytes, len, &mut out) };
    out[1] + number as u64
}

/// What a controller leaves for a step: the command, and all that is pending acknowledged.
fn command(block: &mut [u8; REGISTERS], command: u8) {
    block[0] = command;
    block[4] = block[3];
}

/// What a controller finds after a step: status, pending, refusal and request.
fn told(block: &[u8; REGISTERS]) -> u64 {
    let [status, pending, refusal] = [1, 3, 5].map(|at| u64::from(block[at]));
    let stamp = u64::from_le_bytes(block[8..].try_into().unwrap());
    stamp + ((status + pending + refusal) << 32)
}

/// The last sample, which depends on all before it.
fn last_sample(samples: &[i16]) -> u64 {
    samples.last().map_or(0, |sample| *sample as u16 as u64)
}

/// The two sides that have the C interface differ in the functions alone.
macro_rules! side_of_words {
    ($next:path, $index:path, $summary:path, $seek:path, $step:path, $print:path, $decode:path, $check:path, $header:path, $packet:path, $trailer:path) => {
        Side {
            index: |file, table| fill($index, file, table),
            summary: |file| {
                let mut out = [0; 3];
                let number = unsafe { $summary(file.as_ptr(), file.len(), &mut out) };
                out[1] + (out[2] << 32) + number as u64
            },
            drain: |file| {
                let (mut walker, mut out) = (FRESH, [0; 7]);
                let mut sum = 0;
                loop {
                    let number = unsafe { $next(file.as_ptr(), file.len(), &mut walker, &mut out) };
                    if number != 0 || out[1] == 0 {
                        return sum;
                    }
                    sum += out[2] + (out[3] ^ out[5]) + out[4] + out[6];
                }
            },
            seeks: |table| {
                let (mut walker, mut out) = (FRESH, [0; 2]);
                let last = (table.len() / RECORD) as i64;
                let mut sum = 0;
                for i in 0..SEEKS {
                    let request = last * i / SEEKS;
                    let (from, len) = (table.as_ptr(), table.len());
                    unsafe { $seek(from, len, &mut walker, 0, request, &mut out) };
                    sum += out[1] ^ walker[0];
                }
                sum
            },
            steps: |file| {
                let (mut walker, mut out) = (FRESH, [0; 7]);
                let mut block = FRESH_BLOCK;
                let mut sum = 0;
                loop {
                    command(&mut block, 1);
                    let (bytes, len) = (file.as_ptr(), file.len());
                    let (to, none) = (block.as_mut_ptr(), std::ptr::null());
                    unsafe { $step(bytes, len, none, 0, &mut walker, to, REGISTERS, &mut out) };
                    if out[1] == 0 {
                        return sum + told(&block);
                    }
                    sum += out[2] + (out[3] ^ out[5]) + out[4] + out[6] + told(&block);
                }
            },
            seek_steps: |table| {
                let (mut walker, mut out) = (FRESH, [0; 7]);
                let mut block = FRESH_BLOCK;
                let last = (table.len() / RECORD) as i64;
                let mut sum = 0;
                for i in 0..SEEKS {
                    command(&mut block, 2);
                    block[8..].copy_from_slice(&(last * i / SEEKS).to_le_bytes());
                    let (from, len) = (table.as_ptr(), table.len());
                    let (to, none) = (block.as_mut_ptr(), std::ptr::null());
                    unsafe { $step(none, 0, from, len, &mut walker, to, REGISTERS, &mut out) };
                    sum += told(&block) ^ walker[0];
                }
                sum
            },
            page: |table, page| fill($print, table, page),
            sound: |blocks, samples| {
                let decode = |block: &Vec<u8>| {
                    let mut out = [0; 2];
                    let (bytes, len) = (block.as_ptr(), block.len());
                    let (to, room) = (samples.as_mut_ptr(), samples.len());
                    let number = unsafe { $decode(bytes, len, to, room, &mut out) };
                    out[1] + number as u64 + last_sample(samples)
                };
                blocks.iter().map(decode).sum()
            },
            check: |file| {
                let mut out = [0; 6];
                let number = unsafe { $check(file.as_ptr(), file.len(), &mut out) };
                out.iter().sum::<u64>() + number as u64
            },
            write: |buf, count, payload| {
                let (mut writer, mut out) = (FRESH_WRITER, [0]);
                let (bytes, len) = (buf.as_mut_ptr(), buf.len());
                let (from, size) = (payload.as_ptr(), payload.len());
                unsafe {
                    $header(&mut writer, bytes, len, &mut out);
                    for _ in 0..count {
                        $packet(&mut writer, bytes, len, from, size, 0, &mut out);
                    }
                    $trailer(&mut writer, bytes, len, &mut out);
                }
                writer[7]
            },
        }
    };
}

pub const LIBRARY: Side = side_of_words!(
    c::amv_next_packet,
    c::amv_build_chunk_index,
    c::amv_summary,
    c::amv_seek_to_via_index,
    c::amv_register_step,
    c::amv_print_index,
    c::amv_decode_block,
    c::amv_check,
    c::amv_write_header,
    c::amv_write_packet,
    c::amv_write_trailer
);

pub const WORDS: Side = side_of_words!(
    words::next_packet,
    words::build_chunk_index,
    words::summary,
    words::seek_to_via_index,
    words::register_step,
    words::print_index,
    words::decode_block_by_table,
    words::check,
    words::write_header,
    words::write_packet,
    words::write_trailer
);

pub const CALLS: Side = Side {
    index: |file, table| calls::build_chunk_index(file, table).unwrap(),
    summary: |file| {
        let (frames, blocks) = calls::summary(file).unwrap();
        frames + (blocks << 32)
    },
    drain: |file| {
        let mut walker = Walker::fresh();
        let mut sum = 0;
        while let Ok(Some(packet)) = calls::next_packet(file, &mut walker) {
            sum += packet.stream as u64
                + (packet.start ^ packet.stamp)
                + packet.length
                + packet.duration;
        }
        sum
    },
    seeks: |table| {
        let mut walker = Walker::fresh();
        let last = (table.len() / RECORD) as i64;
        let mut sum = 0;
        for i in 0..SEEKS {
            let request = last * i / SEEKS;
            let stamp = calls::seek_to_via_index(table, &mut walker, 0, request).unwrap();
            sum += stamp ^ walker.cursor;
        }
        sum
    },
    steps: |file| {
        let mut walker = Walker::fresh();
        let mut block = FRESH_BLOCK;
        let mut sum = 0;
        loop {
            command(&mut block, 1);
            let step = calls::register_step(file, &[], &mut walker, &mut block);
            let Ok(Some(packet)) = step else {
                return sum + told(&block);
            };
            sum += packet.stream as u64
                + (packet.start ^ packet.stamp)
                + packet.length
                + packet.duration
                + told(&block);
        }
    },
    seek_steps: |table| {
        let mut walker = Walker::fresh();
        let mut block = FRESH_BLOCK;
        let last = (table.len() / RECORD) as i64;
        let mut sum = 0;
        for i in 0..SEEKS {
            command(&mut block, 2);
            block[8..].copy_from_slice(&(last * i / SEEKS).to_le_bytes());
            calls::register_step(&[], table, &mut walker, &mut block).unwrap();
            sum += told(&block) ^ walker.cursor;
        }
        sum
    },
    page: |table, page| calls::print_index(table, page).unwrap(),
    sound: |blocks, samples| {
        let decode = |block: &Vec<u8>| {
            let count = calls::decode_block_by_table(block, samples).unwrap();
            count + last_sample(samples)
        };
        blocks.iter().map(decode).sum()
    },
    check: |file| {
        let totals = calls::check(file).unwrap();
        let paired = totals.paired as u64;
        totals.frames + totals.blocks + totals.samples + totals.trailer + paired
    },
    write: |buf, count, payload| {
        let mut writer = fresh_writer();
        calls::write_header(&mut writer, buf).unwrap();
        for _ in 0..count {
            calls::write_packet(&mut writer, buf, payload, 0).unwrap();
        }
        calls::write_trailer(&mut writer, buf).unwrap();
        writer.written
    },
};

/// The writer of `FRESH_WRITER`.
pub fn fresh_writer() -> Writer {
    Writer::fresh(Settings {
        width: 160,
        height: 120,
        fps: 12,
        rate: 22_050,
        channels: 1,
    })
}
