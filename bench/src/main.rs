//! Times the library against a plain Rust program, in one process, in turn. Prints medians and ratios, then how drain and index grow
//! with the file and how decoding grows with the block.

mod sides;

use std::hint::black_box;
use std::time::Instant;

use plain::{LINE, PREAMBLE, PRELUDE, RECORD, calls};
use sides::{CALLS, LIBRARY, Side, WORDS};

/// The payload of the small frames.
const FRAME: usize = 16;

/// A recording of at most that many bytes: payloads of 16 bytes, all frames, or frames and blocks in turn.
fn recording(bytes: usize, paired: bool) -> Vec<u8> {
    let count = (bytes - PRELUDE - 8) / (8 + FRAME);
    let mut file = vec![0; PRELUDE + count * (8 + FRAME) + 8];
    let mut writer = sides::fresh_writer();
    calls::write_header(&mut writer, &mut file).unwrap();
    for i in 0..count {
        let stream = if paired { (i % 2) as u32 } else { 0 };
        let payload = [(i % 7) as u8; FRAME];
        calls::write_packet(&mut writer, &mut file, &payload, stream).unwrap();
    }
    calls::write_trailer(&mut writer, &mut file).unwrap();
    file
}

fn chunks(file: &[u8]) -> usize {
    (file.len() - PRELUDE - 8) / (8 + FRAME)
}

/// The nibbles of the sound blocks.
#[derive(Clone, Copy)]
enum Nibbles {
    /// Made up for sound: one of three moves the step index up by two, the others down by one each, so that it stays about where it is.
    Sound,
    /// Made up for silence: none moves the step index up, so that it is held at 0.
    Quiet,
    /// All values alike: the step index is mostly at its greatest, and the level often held.
    Random,
}

/// So many sound blocks of that many samples, from a step index in the middle.
fn sound_blocks(count: usize, samples: usize, nibbles: Nibbles) -> Vec<Vec<u8>> {
    let mut state = 1u64;
    let mut random = move || {
        // A linear congruential generator, of which the high bits are taken.
        state = state
            .wrapping_mul(6_364_136_223_846_793_005)
            .wrapping_add(1);
        (state >> 60) as u8
    };
    let mut nibble = |i: usize| match nibbles {
        Nibbles::Random => random(),
        Nibbles::Sound if i.is_multiple_of(3) => random() & 8 | 4,
        Nibbles::Sound | Nibbles::Quiet => random() & 11,
    };
    let mut block = || {
        let mut block = vec![0; PREAMBLE];
        block[2] = 40;
        block[4..].copy_from_slice(&(samples as u32).to_le_bytes());
        block.extend((0..samples.div_ceil(2)).map(|i| nibble(2 * i) << 4 | nibble(2 * i + 1)));
        block
    };
    (0..count).map(|_| block()).collect()
}

/// Seconds that a run takes, and its answer.
fn timed(run: impl FnOnce() -> u64) -> (f64, u64) {
    let started = Instant::now();
    let answer = black_box(run());
    (started.elapsed().as_secs_f64(), answer)
}

fn median(times: &mut [f64]) -> f64 {
    times.sort_by(f64::total_cmp);
    times[times.len() / 2]
}

/// Runs the three sides in turn. Prints the median time of each for one item, and for each of the two plain ones the median of the
/// ratios of runs that followed each other.
fn race(name: &str, runs: usize, items: usize, mut run: impl FnMut(&Side) -> u64) {
    let sides = [&LIBRARY, &WORDS, &CALLS];
    let mut times = [const { Vec::new() }; 3];
    let mut ratios = [const { Vec::new() }; 2];
    for _ in 0..runs {
        let [library, words, calls] = sides.map(|side| timed(|| run(side)));
        assert!(
            library.1 == words.1 && words.1 == calls.1,
            "{name}: the answers differ"
        );
        ratios[0].push(library.0 / words.0);
        ratios[1].push(library.0 / calls.0);
        for (times, (time, _)) in times.iter_mut().zip([library, words, calls]) {
            times.push(time);
        }
    }
    let [library, words, calls] = times.map(|mut times| median(&mut times) * 1e9 / items as f64);
    let [to_words, to_calls] = ratios.map(|mut ratios| median(&mut ratios));
    println!("{name:36} {library:8.2} {words:8.2} {to_words:7.2} {calls:8.2} {to_calls:7.2}");
}

const BYTES: usize = 60 * 1024;

fn races(runs: usize) {
    println!(
        "{:36} {:>8} {:>8} {:>7} {:>8} {:>7}",
        "ns for one item", "library", "plain", "ratio", "types", "ratio"
    );
    let frames = recording(BYTES, false);
    let paired = recording(BYTES, true);
    let count = chunks(&frames);
    let mut table = vec![0; RECORD * count];
    race("index, 60 KiB of 16-byte frames", runs, count, |side| {
        (side.index)(&frames, &mut table)
    });
    race("index, frames and blocks", runs, count, |side| {
        (side.index)(&paired, &mut table)
    });
    race("summary, 60 KiB of 16-byte frames", runs, count, |side| {
        (side.summary)(&frames)
    });
    race("summary, frames and blocks", runs, count, |side| {
        (side.summary)(&paired)
    });
    race("drain, 60 KiB of 16-byte frames", runs, count, |side| {
        (side.drain)(&frames)
    });
    race("drain, frames and blocks", runs, count, |side| {
        (side.drain)(&paired)
    });
    race("drain by steps, 16-byte frames", runs, count, |side| {
        (side.steps)(&frames)
    });
    race("drain by steps, frames and blocks", runs, count, |side| {
        (side.steps)(&paired)
    });
    (LIBRARY.index)(&frames, &mut table);
    race(
        "seek, for a record of the table",
        runs.div_ceil(16),
        sides::SEEKS as usize * count,
        |side| (side.seeks)(&table),
    );
    race(
        "seek by steps, for a record",
        runs.div_ceil(16),
        sides::SEEKS as usize * count,
        |side| (side.seek_steps)(&table),
    );
    let mut page = vec![0; LINE * count];
    race("page, 60 KiB of 16-byte frames", runs, count, |side| {
        (side.page)(&table, &mut page)
    });
    (LIBRARY.index)(&paired, &mut table);
    race("page, frames and blocks", runs, count, |side| {
        (side.page)(&table, &mut page)
    });
    for (name, nibbles) in [
        ("sound, blocks of 1,000 samples", Nibbles::Sound),
        ("sound, near silence", Nibbles::Quiet),
        ("sound, random nibbles", Nibbles::Random),
    ] {
        let mut samples = vec![0; 1000];
        let blocks = sound_blocks(BYTES / (PREAMBLE + 500), samples.len(), nibbles);
        let decoded = blocks.len() * samples.len();
        race(name, runs, decoded, |side| {
            (side.sound)(&blocks, &mut samples)
        });
    }
    race("check, 60 KiB of 16-byte frames", runs, count, |side| {
        (side.check)(&frames)
    });
    race("check, frames and blocks", runs, count, |side| {
        (side.check)(&paired)
    });
    for length in [16, 927, 1633] {
        let payload = vec![7; length];
        let count = BYTES / (8 + length);
        let mut buf = vec![0; PRELUDE + count * (8 + length) + 8];
        race(
            &format!("write, {length}-byte frames"),
            runs,
            count,
            |side| (side.write)(&mut buf, count, &payload),
        );
    }
}

/// The library alone, on files of 1 MiB up to the largest.
fn growth(largest: usize) {
    println!(
        "{:>8} {:>10} {:>16} {:>16}",
        "MiB", "chunks", "drain, ns/chunk", "index, ns/chunk"
    );
    for mib in [1, 4, 16, 64, 256, 1024] {
        if mib > largest {
            break;
        }
        let file = recording(mib << 20, true);
        let count = chunks(&file);
        let mut table = vec![1; RECORD * count];
        let runs = if mib > 64 { 5 } else { 21 };
        let mut times = [Vec::new(), Vec::new()];
        for _ in 0..runs {
            times[0].push(timed(|| (LIBRARY.drain)(&file)).0);
            times[1].push(timed(|| (LIBRARY.index)(&file, &mut table)).0);
        }
        let [drain, index] = times.map(|mut times| median(&mut times) * 1e9 / count as f64);
        println!("{mib:8} {count:10} {drain:16.2} {index:16.2}");
    }
}

/// The library alone, on a million samples in blocks of a thousand up to one block.
fn sound_growth() {
    const SAMPLES: usize = 1_000_000;
    println!("{:>10} {:>17}", "samples", "sound, ns/sample");
    for length in [1000, 10_000, 100_000, SAMPLES] {
        let blocks = sound_blocks(SAMPLES / length, length, Nibbles::Sound);
        let mut samples = vec![0; length];
        let mut times: Vec<f64> = (0..21)
            .map(|_| timed(|| (LIBRARY.sound)(&blocks, &mut samples)).0)
            .collect();
        let sound = median(&mut times) * 1e9 / SAMPLES as f64;
        println!("{length:10} {sound:17.2}");
    }
}

fn main() {
    let words: Vec<usize> = std::env::args()
        .skip(1)
        .map(|word| word.parse().expect("RUNS and MIB are numbers"))
        .collect();
    let [runs, largest] = words[..] else {
        panic!("usage: bench RUNS MIB");
    };
    assert!(runs > 0, "RUNS is at least 1");
    races(runs);
    growth(largest);
    sound_growth();
}
