//! What is fed to the comparisons: short inputs in full, then rounds of random ones.

use plain::words::{self, WalkerWords, WriterWords};
use plain::{AUDIO, PRELUDE, RECORD, Record, VIDEO, Walker, Writer};

use crate::calls::{self, Guarded};
use crate::cuts;
use crate::files;
use crate::jumps;
use crate::lists;
use crate::original;
use crate::pages;
use crate::pieces;
use crate::random::Random;
use crate::registers;
use crate::said::Write;
use crate::seeks;
use crate::sounds;
use crate::tally::Tally;

/// Everything that reads a file: both parses, the check, the summary, the index, reads until the end, and a list of reads and jumps.
pub fn whole_file(tally: &mut Tally, bytes: &[u8], table_slack: usize) {
    let mut lent = Guarded::new(bytes);
    let file = &*lent.lent();
    calls::parse(tally, file);
    calls::check(tally, file);
    movi(tally, file, table_slack);
}

/// Everything that reads what follows the prelude.
pub fn movi(tally: &mut Tally, file: &[u8], table_slack: usize) {
    let mut original = original::File::new(file);
    calls::summary(tally, &mut original, file);
    let count = plain::records(file).map_or(2, |records| records.len());
    let exact = RECORD * count;
    let table_len = (exact + table_slack).saturating_sub(RECORD);
    calls::build_chunk_index(tally, &mut original, file, table_len);
    calls::before_unknown_tag(tally, file);
    pages::of_index(tally, file, count);
    let mut walker = words::walker_words(&Walker::fresh());
    for _ in 0..count + 2 {
        let said = calls::next_packet(tally, &mut original, file, &mut walker);
        if said.number != 0 || said.out[1] == 0 {
            break;
        }
        sounds::of_packet(tally, file, &said);
    }
    // Once more at the end.
    calls::next_packet(tally, &mut original, file, &mut walker);
    jumps::any_file(tally, file);
}

/// The short inputs, in full.
pub fn exhaustive(tally: &mut Tally, random: &mut Random) {
    tag_lists(tally);
    run_lengths(tally);
    seeks::short(tally);
    registers::short(tally);
    pages::short(tally);
    sounds::short(tally);
    cuts::short(tally);
    jumps::short(tally, random);
    for _ in 0..20 {
        pieces::bodies(tally, random);
    }
    for file in files::shapes() {
        cuts::everywhere(tally, &file);
        for cut in 0..=file.len() {
            whole_file(tally, &file[..cut], RECORD);
            for at in cut.saturating_sub(60)..=cut {
                calls::read_by_header(tally, &file[..cut], at);
            }
        }
        for more in 1..20 {
            whole_file(tally, &[&file[..], &vec![b'0'; more]].concat(), RECORD);
        }
    }
    single_bytes(tally);
    files::all_short(5, |file| {
        calls::check(tally, file);
        movi(tally, file, RECORD);
        calls::read_by_header(tally, file, PRELUDE);
    });
    for slack in 0..2 * RECORD + 2 {
        whole_file(tally, &files::example(), slack);
    }
}

/// Every value of every byte of E.
fn single_bytes(tally: &mut Tally) {
    let example = files::example();
    for at in 0..example.len() {
        let mut file = example.clone();
        for value in 0..=255 {
            file[at] = value;
            whole_file(tally, &file, RECORD);
        }
    }
}

/// All lists of up to eight tags.
fn tag_lists(tally: &mut Tally) {
    for count in 0..=8 {
        files::all_lists(&[VIDEO, AUDIO, 0], count, |tags| {
            calls::validate_movi_interleave(tally, tags);
        });
    }
}

/// Frame counts at every boundary of hours, minutes and seconds, asked for and in a trailer.
fn run_lengths(tally: &mut Tally) {
    let seconds = [
        0, 1, 59, 60, 61, 3599, 3600, 3661, 917_999, 918_000, 921_599,
    ];
    for fps in [0, 1, 2, 12, 16, 30, 1_000_000, 1_000_001, u32::MAX] {
        for s in seconds
            .into_iter()
            .chain(921_590..921_720)
            .chain(933_200..933_320)
        {
            for by in [-1, 0, 1] {
                let frames = (s * fps as u64).saturating_add_signed(by);
                calls::from_frame_count(tally, frames, fps);
                trailer(tally, frames, fps);
            }
        }
    }
}

/// The trailer of a writer that has counted so many frames.
fn trailer(tally: &mut Tally, frames: u64, fps: u32) {
    let settings = plain::Settings {
        fps,
        ..files::EXAMPLE_SETTINGS
    };
    let mut writer = words::writer_words(&Writer {
        begun: true,
        written: PRELUDE as u64,
        frames,
        ..Writer::fresh(settings)
    });
    calls::write(tally, &mut writer, &mut [0xa5; 324], Write::Trailer);
}

/// A round of random inputs for every function.
pub fn round(tally: &mut Tally, random: &mut Random) {
    for _ in 0..4 {
        calls::from_frame_count(tally, random.word(), random.word32());
        pieces::build_prelude_bytes(tally, random);
        let tags = random_tags(random);
        calls::validate_movi_interleave(tally, &tags);
        let prelude = files::prelude(random);
        calls::parse(tally, &prelude);
        calls::check(tally, &prelude);
    }
    let file = files::damaged(random);
    let slack = if random.once_in(3) {
        random.size(60)
    } else {
        RECORD
    };
    whole_file(tally, &file, slack);
    walkers(tally, random, &file);
    tables(tally, random);
    registers::round(tally, random, &file);
    jumps::round(tally, random, &file);
    pages::round(tally, random);
    sounds::round(tally, random);
    writers(tally, random);
    lists::writing_calls(tally, random);
    let file = files::finished(random);
    whole_file(tally, &file, RECORD);
    lists::reads_and_seeks(tally, random, &file);
    registers::finished(tally, random, &file);
    pages::of_recording(tally, &file);
    cuts::round(tally, random, &file);
    jumps::cut_round(tally, random, &file);
}

/// Mostly paired, so that long lists pass or fail late.
fn random_tags(random: &mut Random) -> Vec<u32> {
    let count = random.size(20);
    (0..count)
        .map(|i| match random.below(16) {
            0 => random.pick(&[VIDEO, AUDIO]),
            1 => random.word32(),
            _ => [VIDEO, AUDIO][i % 2],
        })
        .collect()
}

/// The words of an arbitrary walker, now and then out of range or of no walker; its cursor is mostly near the file.
pub fn random_walker(random: &mut Random, file_len: u64) -> WalkerWords {
    let cursor = match random.below(4) {
        0 => random.word(),
        1 => file_len.wrapping_sub(random.below(24)),
        _ => 300 + random.below(file_len.max(1)),
    };
    let mark = |random: &mut Random| if random.once_in(12) { random.word() } else { 0 };
    let trailer = random.pick(&[u64::MAX, 0, 345, random.0]);
    let mut words = [cursor, 0, 0, 0, mark(random), mark(random), trailer];
    for count in &mut words[1..4] {
        *count = if random.once_in(3) {
            random.word()
        } else {
            random.below(1 << 40)
        };
    }
    if random.once_in(4) {
        words[4 + random.size(2)] = 1;
    }
    words
}

/// Arbitrary walkers on a file, each read from for a while.
fn walkers(tally: &mut Tally, random: &mut Random, file: &[u8]) {
    let mut original = original::File::new(file);
    let offsets: Vec<u64> = plain::records(file)
        .map(|records| records.iter().map(|record| record.offset as u64).collect())
        .unwrap_or_default();
    for _ in 0..4 {
        calls::read_by_header(tally, file, random.size(file.len() + 1));
        let mut walker = random_walker(random, file.len() as u64);
        if !offsets.is_empty() && random.once_in(2) {
            walker[0] = random.pick(&offsets);
        }
        for _ in 0..3 {
            calls::next_packet(tally, &mut original, file, &mut walker);
        }
    }
}

fn random_record(random: &mut Random, good: bool) -> Record {
    let tag = random.pick(&[VIDEO, AUDIO]);
    let samples = if random.once_in(2) {
        random.below(20)
    } else {
        random.word()
    };
    Record {
        tag: if good || !random.once_in(6) {
            tag
        } else {
            random.word32()
        },
        offset: random.word32(),
        frames: if random.once_in(2) {
            random.below(20) as u32
        } else {
            random.word32()
        },
        blocks: random.word32(),
        samples: if good {
            samples % plain::COUNT_LIMIT
        } else {
            samples
        },
    }
}

/// A table of arbitrary records, now and then with one that is refused or with a part of one more.
pub fn random_table(random: &mut Random) -> Vec<u8> {
    let good = !random.once_in(3);
    let count = random.size(6);
    let mut table: Vec<u8> = (0..count)
        .flat_map(|_| random_record(random, good).bytes())
        .collect();
    if random.once_in(8) {
        let more = 1 + random.size(RECORD);
        table.extend(random.bytes(more));
    }
    table
}

/// Arbitrary tables and walkers for a seek.
fn tables(tally: &mut Tally, random: &mut Random) {
    let mut lent = Guarded::new(&random_table(random));
    let table = &*lent.lent();
    for _ in 0..6 {
        let mut walker = random_walker(random, 400);
        let stream = if random.once_in(8) {
            random.word32()
        } else {
            random.below(2) as u32
        };
        let request = match random.below(3) {
            0 => random.word() as i64,
            _ => random.below(24) as i64 - 2,
        };
        calls::seek_to_via_index(tally, table, &mut walker, stream, request);
        if let Ok(walker) = words::walker_of(&walker) {
            calls::seek_to(tally, table, walker, stream, request);
        }
    }
}

fn random_writer(random: &mut Random, room: usize) -> WriterWords {
    let written = match random.below(4) {
        0 => random.word(),
        1 => (room as u64).wrapping_sub(random.below(20)),
        _ => 316 + random.below(40),
    };
    let mut words = words::writer_words(&Writer {
        settings: plain::Settings {
            width: random.word32(),
            height: random.word32(),
            fps: random.word32(),
            rate: random.word32(),
            channels: if random.once_in(2) {
                1
            } else {
                random.word32() as u16
            },
        },
        begun: !random.once_in(3),
        ended: random.once_in(6),
        written,
        frames: random.word(),
    });
    if random.once_in(8) {
        words[random.size(7)] = random.word();
    }
    words
}

/// Arbitrary writer states and buffers.
fn writers(tally: &mut Tally, random: &mut Random) {
    let room = random.pick(&[0, 300, 314, 320, 340, 400]) + random.size(4);
    let mut buf = random.bytes(room);
    for _ in 0..3 {
        let given = random_writer(random, room);
        if let Ok(writer) = words::writer_of(&given) {
            calls::open(tally, &writer.settings);
        }
        let payload = files::payload(random);
        let stream = if random.once_in(8) {
            random.word32()
        } else {
            random.below(2) as u32
        };
        for call in [
            Write::Header,
            Write::Packet(&payload, stream),
            Write::Trailer,
        ] {
            let mut writer = given;
            calls::write(tally, &mut writer, &mut buf, call);
        }
    }
}
