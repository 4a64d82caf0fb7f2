//! Recordings that this wrapper writes, cuts and damages, and what it reads from them.

use amv::*;
use std::collections::BTreeSet;

const SETTINGS: Settings = Settings {
    width: 64,
    height: 48,
    fps: 12,
    rate: 8000,
    channels: 1,
};

/// A sound block of a number of samples.
fn block(samples: u32, fill: u8) -> Vec<u8> {
    let mut bytes = vec![fill; 4];
    bytes.extend_from_slice(&samples.to_le_bytes());
    bytes.extend(std::iter::repeat_n(fill, samples as usize / 2));
    bytes
}

/// Pictures and blocks of different lengths, some odd, one empty.
fn packets() -> Vec<(u32, Vec<u8>)> {
    (0..6u8)
        .flat_map(|n| {
            [
                (0, vec![n; [3, 0, 17, 8, 5, 1][n as usize]]),
                (1, block(10 + u32::from(n), n)),
            ]
        })
        .collect()
}

fn write(packets: &[(u32, Vec<u8>)]) -> Vec<u8> {
    let mut buf = vec![0xA5; 4096];
    let mut muxer = AmvMuxer::new(SETTINGS, &mut buf);
    muxer.write_header().unwrap();
    for (stream, data) in packets {
        muxer.write_packet(data, *stream).unwrap();
    }
    muxer.write_trailer().unwrap();
    muxer.file().to_vec()
}

fn drain<'a>(demuxer: &mut AmvDemuxer<'a>) -> Vec<Packet<'a>> {
    std::iter::from_fn(|| demuxer.next_packet().unwrap()).collect()
}

fn sent(packets: &[Packet]) -> Vec<(u32, Vec<u8>)> {
    packets
        .iter()
        .map(|p| (p.stream_index, p.data.to_vec()))
        .collect()
}

/// Where the prelude ends, and each chunk.
fn ends(packets: &[(u32, Vec<u8>)]) -> Vec<usize> {
    let mut ends = vec![316];
    for (_, data) in packets {
        ends.push(ends.last().unwrap() + 8 + data.len());
    }
    ends
}

/// 01's small file.
fn small() -> Vec<u8> {
    let settings = Settings {
        width: 8,
        height: 8,
        ..SETTINGS
    };
    let mut buf = vec![0; 353];
    let mut muxer = AmvMuxer::new(settings, &mut buf);
    muxer.write_header().unwrap();
    muxer.write_packet(&[1, 2, 3], 0).unwrap();
    muxer
        .write_packet(&[0, 0, 0, 0, 2, 0, 0, 0, 9, 9], 1)
        .unwrap();
    muxer.write_trailer().unwrap();
    assert_eq!(muxer.bytes_written(), 353);
    buf
}

#[test]
fn what_is_written_is_read() {
    let packets = packets();
    let file = write(&packets);
    let mut demuxer = AmvDemuxer::open_strict(&file).unwrap();
    assert_eq!(demuxer.header().width, 64);
    assert_eq!(demuxer.header().height, 48);
    assert_eq!(demuxer.header().fps, 12);
    assert_eq!(demuxer.audio_format().samples_per_sec, 8000);
    let read = drain(&mut demuxer);
    assert_eq!(sent(&read), packets);
    assert_eq!(
        read.iter().map(|p| p.pts).collect::<Vec<_>>(),
        [0, 0, 1, 10, 2, 21, 3, 33, 4, 46, 5, 60]
    );
    assert_eq!(read[1].duration, Some(10));
    assert_eq!(demuxer.trailer_offset(), Some(file.len() as u64 - 8));
    assert_eq!(demuxer.trailer_matches_eof(file.len() as u64), Some(true));
    assert!(demuxer.movi_interleave_balanced() && !demuxer.is_truncated());
    let totals = check(&file).unwrap();
    assert_eq!(
        (totals.frames, totals.blocks, totals.samples, totals.paired),
        (6, 6, 75, true)
    );
}

#[test]
fn every_jump_has_its_own_sound_and_clock() {
    let file = write(&packets());
    let mut demuxer = AmvDemuxer::open(&file).unwrap();
    let all = drain(&mut demuxer);
    // Jumps in an order that goes back and forth, each followed by all that is left.
    for request in [5i64, 0, 3, -7, 1, 4, 2, 9, 0] {
        for stream in [0u32, 1] {
            let first = all
                .iter()
                .position(|p| p.stream_index == stream && p.pts as i64 >= request);
            let stamp = demuxer.seek_to(stream, request).unwrap();
            match first {
                Some(k) => {
                    assert_eq!(stamp, all[k].pts);
                    assert_eq!(drain(&mut demuxer), all[k..]);
                }
                None => assert_eq!(demuxer.next_packet(), Ok(None)),
            }
        }
    }
    let before = demuxer.cursor();
    assert_eq!(
        demuxer.seek_to(2, 0),
        Err(AmvError {
            number: 42,
            place: 0
        })
    );
    assert_eq!(demuxer.cursor(), before);
}

/// Where the first tag, size or body of the prelude starts that does not end within so many bytes. Each has 4 bytes, but the two bodies.
fn first_item_lost(len: usize) -> u64 {
    let starts = [
        0, 8, 12, 20, 24, 28, 32, 88, 96, 100, 104, 164, 168, 208, 216, 220, 224, 276, 280, 284,
        304, 312,
    ];
    let end = |start| match start {
        32 => 88,
        284 => 304,
        _ => start + 4,
    };
    let lost = starts.into_iter().find(|start| end(*start) > len);
    lost.unwrap() as u64
}

#[test]
fn every_cut_is_told_and_leaves_the_packets_before_it() {
    let packets = packets();
    let file = write(&packets);
    let ends = ends(&packets);
    let all = drain(&mut AmvDemuxer::open(&file).unwrap());
    assert_eq!(sent(&all), packets);
    for len in 0..=file.len() {
        let cut = &file[..len];
        if len < 316 {
            let place = first_item_lost(len);
            let refused = Some(AmvError { number: 11, place });
            assert_eq!(check(cut).err(), refused);
            assert_eq!(AmvDemuxer::open(cut).err(), refused);
            assert_eq!(AmvDemuxer::open_strict(cut).err(), refused);
            continue;
        }
        // At full length the trailer is met, and nothing is cut.
        let finished = len == file.len();
        let whole = ends.iter().filter(|end| **end <= len).count() - 1;
        let place = ends[whole] as u64;
        let refused = AmvError { number: 60, place };
        assert_eq!(check(cut).err(), (!finished).then_some(refused));
        let mut demuxer = AmvDemuxer::open(cut).unwrap();
        assert_eq!(drain(&mut demuxer), all[..whole]);
        assert_eq!(demuxer.is_truncated(), !finished);
        assert_eq!(demuxer.trailer_offset(), finished.then_some(place));
    }
}

/// How many chunks end within so many bytes; and how many have a record there: a picture whose header is there, and sound with 8 bytes of its
/// payload, have one too.
fn within(packets: &[(u32, Vec<u8>)], len: usize) -> (usize, usize) {
    let ends = ends(packets);
    let whole = ends.iter().filter(|end| **end <= len).count() - 1;
    let there = len - ends[whole];
    let cut = match packets.get(whole) {
        Some((0, _)) => there >= 8,
        Some((_, data)) => there >= 8 + data.len().min(8),
        None => false,
    };
    (whole, whole + usize::from(cut))
}

#[test]
fn a_cut_recording_shows_what_it_plays() {
    let packets = packets();
    let file = write(&packets);
    for len in 316..=file.len() {
        let cut = &file[..len];
        let (whole, recorded) = within(&packets, len);
        let frames = packets[..whole].iter().filter(|(stream, _)| *stream == 0);
        let frames = frames.count() as u64;
        let blocks = whole as u64 - frames;
        assert_eq!(summary(cut), Ok(ChunkCounts { frames, blocks }));
        let index = ChunkIndex::build(cut).unwrap();
        assert_eq!(index.entries().count(), recorded);
    }
}

#[test]
fn a_jump_on_a_cut_recording_shows_what_the_whole_would() {
    let packets = packets();
    let file = write(&packets);
    let mut whole = AmvDemuxer::open(&file).unwrap();
    let all = drain(&mut whole);
    for len in 316..file.len() {
        let (survive, recorded) = within(&packets, len);
        let mut cut = AmvDemuxer::open(&file[..len]).unwrap();
        let mut found_cut = false;
        // Back and forth, over the end and to it.
        for request in [5i64, 99, 0, 33, 3, -7, 60, 1, 46, 4, 21, 2, 61, 10, 0] {
            for stream in [0u32, 1] {
                let stamp = cut.seek_to(stream, request).unwrap();
                assert_eq!(cut.is_truncated(), found_cut);
                let reaches = |p: &Packet| p.stream_index == stream && p.pts as i64 >= request;
                let Some(k) = all[..recorded].iter().position(reaches) else {
                    // The end, without a look at the file.
                    assert_eq!(cut.next_packet(), Ok(None));
                    assert_eq!(cut.is_truncated(), found_cut);
                    continue;
                };
                assert_eq!(whole.seek_to(stream, request), Ok(stamp));
                assert_eq!((stamp, stand(&cut).0), (all[k].pts, stand(&whole).0));
                // Where the chunk itself is cut, nothing is left.
                assert_eq!(drain(&mut cut), all[k..survive.max(k)]);
                assert_eq!(drain(&mut whole), all[k..]);
                found_cut = true;
                assert!(cut.is_truncated() && !whole.is_truncated());
            }
        }
    }
}

#[test]
fn every_damaged_byte_is_told_or_changes_only_what_it_holds() {
    let file = small();
    for at in 0..file.len() {
        for value in [0, 1, 0x30, 0x7F, 0xFF] {
            let mut damaged = file.clone();
            damaged[at] = value;
            // Nothing here may panic, and an accepted file reads to its end.
            if let Ok(totals) = check(&damaged) {
                let mut demuxer = AmvDemuxer::open_strict(&damaged).unwrap();
                let read = drain(&mut demuxer);
                assert_eq!(read.len() as u64, totals.frames + totals.blocks);
                assert_eq!(demuxer.trailer_offset(), Some(totals.trailer));
            }
        }
    }
    let mut longer = file.clone();
    longer.push(0);
    assert_eq!(
        check(&longer),
        Err(AmvError {
            number: 61,
            place: 345
        })
    );
}

#[test]
fn a_damaged_file_is_played_up_to_the_damage() {
    let packets = packets();
    let file = write(&packets);
    let mut at = 316;
    for (n, (_, data)) in packets.iter().enumerate() {
        let mut damaged = file.clone();
        damaged[at] = b'X';
        let refused = ChunkIndex::build(&damaged).unwrap_err();
        assert_eq!(refused.number, AmvError::UNKNOWN_TAG);
        assert_eq!(refused.place, at as u64);
        // The first bytes have an index, a record for each chunk before the damage, and are a file that is cut.
        let before = &damaged[..at];
        let index = ChunkIndex::build(before).unwrap();
        assert_eq!(index.entries().count(), n);
        let whole = ChunkIndex::build(&file).unwrap();
        assert_eq!(
            index.records(),
            &whole.records()[..n * ChunkIndexEntry::LEN]
        );
        let mut demuxer = AmvDemuxer::open(before).unwrap();
        assert_eq!(sent(&drain(&mut demuxer)), packets[..n]);
        assert!(demuxer.is_truncated());
        at += 8 + data.len();
    }
}

#[test]
fn the_page_of_an_index_has_a_line_for_each_record() {
    let page = ChunkIndex::build(&small()).unwrap().print().unwrap();
    let lines = [
        "V       316         0                  0",
        "A       327         1                  0",
    ];
    assert_eq!(page.lines().collect::<Vec<_>>(), lines);
    assert_eq!(page.text(), lines.concat());
    // What is read in the columns of a line is the record's.
    let index = ChunkIndex::build(&write(&packets())).unwrap();
    let page = index.print().unwrap();
    assert_eq!(page.lines().count(), 12);
    for (line, entry) in page.lines().zip(index.entries()) {
        let number = |columns: &str| columns.trim_start().parse::<u64>().unwrap();
        assert_eq!(line.len(), Page::COLUMNS);
        let picture = entry.tag == VIDEO_CHUNK_TAG;
        assert_eq!(&line[..1], if picture { "V" } else { "A" });
        assert_eq!(number(&line[1..11]), entry.file_offset.into());
        assert_eq!(number(&line[11..21]), entry.video_pts_before.into());
        assert_eq!(number(&line[21..]), entry.audio_pts_before);
    }
    let empty = ChunkIndex::from_records(Vec::new()).print().unwrap();
    assert_eq!((empty.text(), empty.lines().count()), ("", 0));
}

/// A record of a picture with the greatest offset and count of frames.
fn record(audio_pts_before: u64) -> Vec<u8> {
    let mut bytes = VIDEO_CHUNK_TAG.to_le_bytes().to_vec();
    bytes.extend([0xFF; 12]);
    bytes.extend(audio_pts_before.to_le_bytes());
    bytes
}

#[test]
fn a_page_is_printed_to_lent_bytes_or_left_as_it_was() {
    const MOST: u64 = 999_999_999_999_999_999;
    let widest = "V42949672954294967295 999999999999999999";
    let good = [record(0), record(0), record(MOST)].concat();
    let wide = [record(0), record(MOST + 1), record(MOST + 1)].concat();
    let bad = [&wide[..], &record(1 << 62)].concat();

    let mut page = [b'#'; 121];
    assert_eq!(print_index(&good, &mut page), Ok(3));
    assert_eq!(&page[80..], format!("{widest}#").as_bytes());
    assert_eq!(print_index(&good[48..], &mut page[..40]), Ok(1));
    assert_eq!(&page[..40], widest.as_bytes());

    for (table, number, place) in [
        (&good[..71], AmvError::TABLE_RAGGED, 0),
        (&bad[..], AmvError::BAD_RECORD, 72),
        (&wide[..], AmvError::SAMPLES_TOO_WIDE, 24),
        (&good[..], AmvError::TABLE_TOO_SHORT, 0),
    ] {
        // A byte too short for three lines, which is asked last.
        let mut page = [b'#'; 121];
        let refused = AmvError { number, place };
        assert_eq!(print_index(table, &mut page[..119]), Err(refused));
        assert_eq!(page, [b'#'; 121]);
        // An index makes its own page, of the length that it needs.
        let printed = ChunkIndex::from_records(table.to_vec()).print();
        let left = (number != AmvError::TABLE_TOO_SHORT).then_some(refused);
        assert_eq!(printed.err(), left);
    }
}

/// A sound block from its fields; the byte that is ignored is not 0.
fn sound(level: i16, step_index: u8, count: u32, nibbles: &[u8]) -> Vec<u8> {
    let mut bytes = level.to_le_bytes().to_vec();
    bytes.extend([step_index, 0xEE]);
    bytes.extend(count.to_le_bytes());
    bytes.extend(nibbles);
    bytes
}

#[test]
fn a_block_gives_a_sample_for_each_nibble() {
    // Every nibble once: by magnitude up, and then down.
    let all = [0x01, 0x23, 0x45, 0x67, 0x89, 0xAB, 0xCD, 0xEF];
    let expected = [
        0, 1, 4, 8, 15, 27, 47, 88, 82, 66, 41, 10, -28, -84, -181, -380,
    ];
    let mut samples = [7; 20];
    assert_eq!(decode_block(&sound(0, 0, 16, &all), &mut samples), Ok(16));
    assert_eq!(samples[..16], expected);
    assert_eq!(samples[16..], [7; 4]);
    // A smaller count gives the first of them, from either half of a byte, and the rest of the buffer stays.
    for count in 0..=16 {
        let block = sound(0, 0, count as u32, &all);
        let mut samples = [7; 20];
        assert_eq!(decode_block(&block, &mut samples), Ok(count));
        assert_eq!(samples[..count], expected[..count]);
        assert_eq!(samples[count..], [7; 20][count..]);
        assert_eq!(block_samples(&block).unwrap(), expected[..count]);
    }
    // Levels are held within 16 bits, the step index within its table.
    let loud = block_samples(&sound(i16::MAX, 88, 4, &[0x7F, 0xFF]));
    assert_eq!(loud.unwrap(), [i16::MAX, -28669, i16::MIN, i16::MIN]);
    let still = block_samples(&sound(i16::MIN, 0, 4, &[0x88, 0x88]));
    assert_eq!(still.unwrap(), [i16::MIN; 4]);
    // A count of 0 is accepted, with and without nibbles, and needs no buffer.
    assert_eq!(decode_block(&sound(5, 88, 0, &[]), &mut []), Ok(0));
    assert_eq!(block_samples(&sound(5, 88, 0, &all)), Ok(Vec::new()));
}

#[test]
fn samples_move_by_no_more_than_the_starting_level() {
    let nibbles: Vec<u8> = (0..500u32).map(|n| (n * n * 7 + n * 13) as u8).collect();
    for (from, to) in [(0i16, 1), (-32768, 32767), (-5000, 9000), (30000, 32767)] {
        let samples = |level| block_samples(&sound(level, 30, 1000, &nibbles)).unwrap();
        let most = (i32::from(from) - i32::from(to)).abs();
        for (a, b) in samples(from).into_iter().zip(samples(to)) {
            assert!((i32::from(a) - i32::from(b)).abs() <= most);
        }
    }
}

#[test]
fn a_block_that_is_refused_leaves_the_buffer() {
    let good = sound(0, 88, 4, &[0x7F, 0x80]);
    let all_wrong = sound(0, 89, 5, &[0x7F, 0x80]);
    let missing = sound(0, 88, 5, &[0x7F, 0x80]);
    let most = sound(0, 88, u32::MAX, &[0x7F, 0x80]);
    for (block, number, place) in [
        (&all_wrong[..7], AmvError::PREAMBLE_TOO_SHORT, 0),
        (&[], AmvError::PREAMBLE_TOO_SHORT, 0),
        (&all_wrong[..], AmvError::STEP_INDEX_TOO_LARGE, 2),
        (&missing[..], AmvError::NIBBLES_MISSING, 4),
        (&most[..], AmvError::NIBBLES_MISSING, 4),
        (&good[..8], AmvError::NIBBLES_MISSING, 4),
        (&good[..], AmvError::SAMPLE_BUFFER_TOO_SHORT, 0),
    ] {
        // A sample too short for four, which is asked last.
        let mut samples = [7; 5];
        let refused = AmvError { number, place };
        assert_eq!(decode_block(block, &mut samples[..3]), Err(refused));
        assert_eq!(samples, [7; 5]);
        // A buffer of the block's own is long enough.
        let left = (number != AmvError::SAMPLE_BUFFER_TOO_SHORT).then_some(refused);
        assert_eq!(block_samples(block).err(), left);
    }
}

#[test]
fn the_sound_of_a_recording_has_as_many_samples_as_the_check_says() {
    let pattern = [0x33, 0xCB, 0xB4];
    let packets: Vec<_> = (0..5u8)
        .flat_map(|n| [(0, vec![n; 3]), (1, sound(0, 20 * n, 6, &pattern))])
        .collect();
    let file = write(&packets);
    let mut demuxer = AmvDemuxer::open(&file).unwrap();
    let mut heard = 0;
    for packet in drain(&mut demuxer) {
        if packet.stream_index == 1 {
            let samples = block_samples(packet.data).unwrap();
            assert_eq!(packet.duration, Some(samples.len() as u64));
            assert_eq!(packet.pts, heard);
            heard += samples.len() as u64;
        }
    }
    assert_eq!(heard, check(&file).unwrap().samples);
}

/// A register block in which a command and its request are left, and all else is 0.
fn registers(command: u8, request: i64) -> [u8; register::BLOCK_LEN] {
    let mut block = [0; register::BLOCK_LEN];
    leave(&mut block, command, request);
    block
}

/// Leaves a command and its request.
fn leave(block: &mut [u8], command: u8, request: i64) {
    block[register::COMMAND] = command;
    block[register::REQUEST..].copy_from_slice(&request.to_le_bytes());
}

/// What the register request holds.
fn request(block: &[u8]) -> i64 {
    i64::from_le_bytes(block[register::REQUEST..].try_into().unwrap())
}

/// Where a reader stands, all of it.
fn stand(demuxer: &AmvDemuxer) -> ([u64; 4], bool, bool, Option<u64>) {
    let counts = [
        demuxer.cursor(),
        demuxer.video_frames_emitted(),
        demuxer.audio_samples_emitted(),
        demuxer.audio_blocks_emitted(),
    ];
    let (end, cut) = (demuxer.is_at_end(), demuxer.is_truncated());
    (counts, end, cut, demuxer.trailer_offset())
}

#[test]
fn a_controller_seeks_reads_and_acknowledges() {
    let file = write(&packets());
    let all = drain(&mut AmvDemuxer::open(&file).unwrap());
    let index = ChunkIndex::build(&file).unwrap();
    let mut demuxer = AmvDemuxer::open(&file).unwrap();
    let mut block = registers(command::SEEK_PICTURE, 3);
    block[register::ENABLE] = status::PACKET | status::END | status::CUT;
    assert_eq!(demuxer.register_step(&index, &mut block), Ok(None));
    assert_eq!(block[..register::REQUEST], [0, 0, 7, 0, 0, 0, 0, 0]);
    let mut read = Vec::new();
    loop {
        block[register::COMMAND] = command::READ;
        let packet = demuxer.register_step(&index, &mut block).unwrap();
        let bit = packet.map_or(status::END, |_| status::PACKET);
        assert_eq!(block[..4], [0, bit, 7, bit]);
        // A step of its own: packet falls, and can rise again.
        block[register::ACKNOWLEDGE] = block[register::PENDING];
        assert_eq!(demuxer.register_step(&index, &mut block), Ok(None));
        assert_eq!(block[register::PENDING], 0);
        let Some(packet) = packet else { break };
        assert_eq!(block[register::STATUS], 0);
        assert_eq!(request(&block), packet.pts as i64);
        read.push(packet);
    }
    assert_eq!(read, all[6..]);
    assert_eq!(block[..register::REQUEST], [0, 2, 7, 0, 0, 0, 0, 0]);
    assert_eq!(request(&block), 60);
    assert_eq!(demuxer.trailer_offset(), Some(file.len() as u64 - 8));
    // Sound has stamps of its own. Past the last of them is the end, where the samples are those before the last block.
    for (asked, given, marks) in [(22, 33, 0), (33, 33, 0), (61, 60, status::END)] {
        leave(&mut block, command::SEEK_SOUND, asked);
        assert_eq!(demuxer.register_step(&index, &mut block), Ok(None));
        assert_eq!((request(&block), block[register::STATUS]), (given, marks));
    }
}

#[test]
fn a_refused_read_or_seek_shows_in_the_block_alone() {
    let packets = packets();
    let mut damaged = write(&packets);
    let at = ends(&packets)[2];
    let index = ChunkIndex::build(&damaged).unwrap();
    damaged[at] = b'X';
    let bad = [index.records(), &[0; 24]].concat();
    let ragged = ChunkIndex::from_records(bad[1..].to_vec());
    let bad = ChunkIndex::from_records(bad);
    let mut demuxer = AmvDemuxer::open(&damaged).unwrap();
    let mut block = registers(command::SEEK_PICTURE, 1);
    block[register::ENABLE] = status::REFUSED;
    assert_eq!(demuxer.register_step(&index, &mut block), Ok(None));
    let before = stand(&demuxer);
    assert_eq!(before.0[0], at as u64);
    for (records, command, number) in [
        (&ragged, command::READ, AmvError::UNKNOWN_TAG),
        (&ragged, command::SEEK_PICTURE, AmvError::TABLE_RAGGED),
        (&bad, command::SEEK_SOUND, AmvError::BAD_RECORD),
    ] {
        leave(&mut block, command, -7);
        assert_eq!(demuxer.register_step(records, &mut block), Ok(None));
        assert_eq!(stand(&demuxer), before);
        assert_eq!(
            block[..register::REQUEST],
            [0, 8, 8, 8, 0, number as u8, 0, 0]
        );
        assert_eq!(request(&block), -7);
    }
    // The next step that is not refused clears the bit and the number; the interrupt waits to be acknowledged.
    leave(&mut block, command::SEEK_SOUND, 0);
    assert_eq!(demuxer.register_step(&index, &mut block), Ok(None));
    assert_eq!(block[..register::REQUEST], [0, 0, 8, 8, 0, 0, 0, 0]);
    block[register::COMMAND] = command::READ;
    let packet = demuxer.register_step(&index, &mut block).unwrap().unwrap();
    assert_eq!(packet.data, packets[1].1);
}

#[test]
fn a_step_that_is_refused_changes_nothing() {
    let file = write(&packets());
    let index = ChunkIndex::build(&file).unwrap();
    let mut demuxer = AmvDemuxer::open(&file).unwrap();
    demuxer.next_packet().unwrap();
    let before = stand(&demuxer);
    let long: Vec<u8> = (0..40).map(|n| 0xFF - n).collect();
    for (len, command, number) in [
        (0, 0, AmvError::WRONG_REGISTER_BLOCK),
        (15, command::READ, AmvError::WRONG_REGISTER_BLOCK),
        (17, command::READ, AmvError::WRONG_REGISTER_BLOCK),
        (15, 4, AmvError::WRONG_REGISTER_BLOCK),
        (17, 4, AmvError::WRONG_REGISTER_BLOCK),
        (16, 4, AmvError::UNKNOWN_COMMAND),
        (16, 0xFF, AmvError::UNKNOWN_COMMAND),
    ] {
        let mut block = long.clone();
        block[register::COMMAND] = command;
        let left = block.clone();
        let refused = AmvError { number, place: 0 };
        let step = demuxer.register_step(&index, &mut block[..len]);
        assert_eq!(step, Err(refused));
        assert_eq!(block, left);
        assert_eq!(stand(&demuxer), before);
    }
    // What stands after the 16 bytes is not theirs.
    let mut block = long.clone();
    block[register::COMMAND] = command::READ;
    let packet = demuxer.register_step(&index, &mut block[..16]).unwrap();
    assert_eq!(packet.unwrap().stream_index, 1);
    assert_eq!(block[16..], long[16..]);
}

/// A step by what the reader itself reads and seeks: the packet, and the block after it.
fn step_by_calls<'a>(
    demuxer: &mut AmvDemuxer<'a>,
    index: &ChunkIndex,
    found: [u8; register::BLOCK_LEN],
) -> (Option<Packet<'a>>, [u8; register::BLOCK_LEN]) {
    let mut seek = |stream| {
        let stamp = demuxer.seek_to_via_index(index, stream, request(&found));
        stamp.map(|stamp| (None, Some(stamp)))
    };
    let performed = match found[register::COMMAND] {
        command::READ => demuxer.next_packet().map(|p| (p, p.map(|p| p.pts))),
        command::SEEK_PICTURE => seek(0),
        command::SEEK_SOUND => seek(1),
        _ => Ok((None, None)),
    };
    let refusal = performed.map_or_else(|refused| refused.number as u8, |_| 0);
    let (packet, stamp) = performed.unwrap_or((None, None));
    let bit = |set: bool, bit: u8| if set { bit } else { 0 };
    let status = bit(packet.is_some(), status::PACKET)
        | bit(demuxer.is_at_end(), status::END)
        | bit(demuxer.is_truncated(), status::CUT)
        | bit(refusal != 0, status::REFUSED);
    let risen = status & !found[register::STATUS];
    let mut block = found;
    leave(&mut block, 0, stamp.map_or(request(&found), |s| s as i64));
    block[register::STATUS] = status;
    block[register::PENDING] &= !found[register::ACKNOWLEDGE];
    block[register::PENDING] |= risen & found[register::ENABLE];
    block[register::ACKNOWLEDGE] = 0;
    block[register::REFUSAL] = refusal;
    (packet, block)
}

/// Steps of one reader, and the same by calls of another, over a list of blocks; what each command came to, by its status and refusal.
fn compare_steps(
    file: &[u8],
    index: &ChunkIndex,
    blocks: impl Iterator<Item = [u8; register::BLOCK_LEN]>,
) -> BTreeSet<[u8; 3]> {
    let mut stepped = AmvDemuxer::open(file).unwrap();
    let mut called = stepped.clone();
    let mut came_to = BTreeSet::new();
    for found in blocks {
        let mut block = found;
        let packet = stepped.register_step(index, &mut block).unwrap();
        let by_calls = step_by_calls(&mut called, index, found);
        assert_eq!((packet, block), by_calls, "found {found:?}");
        assert_eq!(stand(&stepped), stand(&called), "found {found:?}");
        came_to.insert([
            found[register::COMMAND],
            block[register::STATUS],
            block[register::REFUSAL],
        ]);
    }
    came_to
}

/// Numbers that are the same in each run.
fn numbers(seed: u64) -> impl Iterator<Item = u64> {
    let next = |n: &u64| Some(n.wrapping_mul(6364136223846793005).wrapping_add(1));
    std::iter::successors(next(&seed), next).map(|n| n >> 24)
}

/// Blocks of all commands, whose other registers hold anything; requests go from before the first stamp to past the last.
fn left_blocks(seed: u64, count: usize) -> impl Iterator<Item = [u8; register::BLOCK_LEN]> {
    let mut numbers = numbers(seed);
    let mut next = move || numbers.next().unwrap();
    std::iter::repeat_with(move || {
        let request = match next() % 20 {
            0 => i64::MIN,
            1 => i64::MAX,
            n => (next() % [10, 80][n as usize % 2]) as i64 - 2,
        };
        let mut block = registers((next() % 4) as u8, request);
        block[register::STATUS..register::REQUEST].fill_with(|| next() as u8);
        block
    })
    .take(count)
}

#[test]
fn steps_do_what_reads_and_seeks_do() {
    let packets = packets();
    let file = write(&packets);
    let whole = ChunkIndex::build(&file).unwrap();
    let mut came_to = BTreeSet::new();
    for len in 316..=file.len() {
        let cut = &file[..len];
        let index = ChunkIndex::build(cut).unwrap();
        // Over its own index, and over one whose chunks it does not all have.
        for (index, seed) in [(&index, len), (&whole, 2 * len)] {
            came_to.extend(compare_steps(cut, index, left_blocks(seed as u64, 60)));
        }
    }
    let mut damaged = file.clone();
    damaged[ends(&packets)[5]] = b'X';
    let bad = [whole.records(), &[0; 24]].concat();
    for (records, seed) in [(whole.records(), 1), (&bad, 2), (&bad[1..], 3), (&[], 4)] {
        let index = ChunkIndex::from_records(records.to_vec());
        came_to.extend(compare_steps(&damaged, &index, left_blocks(seed, 200)));
    }
    // All that the bits can be came up, and each refusal.
    use {command::*, status::*};
    for command in [NONE, SEEK_PICTURE, SEEK_SOUND] {
        for status in [0, END, CUT, END | CUT] {
            assert!(
                came_to.contains(&[command, status, 0]),
                "{command} {status}"
            );
        }
    }
    for status in [PACKET, PACKET | CUT, END, END | CUT] {
        assert!(came_to.contains(&[READ, status, 0]), "read {status}");
    }
    for (command, number) in [(READ, 31), (SEEK_PICTURE, 41), (SEEK_SOUND, 43)] {
        assert!(came_to.contains(&[command, REFUSED, number]), "{number}");
    }
}

#[test]
fn an_interrupt_is_pending_where_an_enabled_bit_rises_until_it_is_acknowledged() {
    use {command::*, status::*};
    let file = write(&packets()[..3]);
    let index = ChunkIndex::build(&file).unwrap();
    let mut demuxer = AmvDemuxer::open(&file).unwrap();
    let mut block = registers(NONE, 0);
    for (command, enable, acknowledge, status, pending, what) in [
        (READ, END | CUT | REFUSED, 0, PACKET, 0, "not enabled"),
        (READ, PACKET, 0, PACKET, 0, "no rise"),
        (NONE, PACKET, 0, 0, 0, "a fall"),
        (READ, PACKET, 0, PACKET, PACKET, "a rise"),
        (READ, PACKET, 0, END, PACKET, "a fall, and packet waits"),
        (NONE, END, END, END, PACKET, "end acknowledged, no rise"),
        (NONE, 0, 0, END, PACKET, "packet waits, not enabled"),
        (SEEK_PICTURE, PACKET | END, 0, 0, PACKET, "end falls"),
        (READ, PACKET, PACKET, PACKET, PACKET, "cleared, then a rise"),
        (READ, PACKET, PACKET, PACKET, 0, "cleared, and no rise"),
        (READ, 0xFF, 0, PACKET, 0, "all enabled, no rise"),
        (READ, 0xFF, 0, END, END, "all enabled, end rises"),
        (NONE, 0xFF, 0xFF, END, 0, "all cleared"),
    ] {
        leave(&mut block, command, 0);
        block[register::ENABLE] = enable;
        block[register::ACKNOWLEDGE] = acknowledge;
        demuxer.register_step(&index, &mut block).unwrap();
        let [_, status_now, enable_now, pending_now, acknowledge_now, ..] = block;
        assert_eq!((status_now, pending_now), (status, pending), "{what}");
        assert_eq!((enable_now, acknowledge_now), (enable, 0), "{what}");
    }
    // What rises is told by the status that the step finds, whoever wrote it; bits 4 to 7 change by acknowledge alone.
    for (found, pending) in [(0xF0, 0xC2), (0xF2, 0xC0), (0x0D, 0xC2), (0, 0xC2)] {
        block[..register::REQUEST].copy_from_slice(&[NONE, found, 0xFF, 0xF1, 0x31, 0, 6, 7]);
        demuxer.register_step(&index, &mut block).unwrap();
        let left = [NONE, END, 0xFF, pending, 0, 0, 6, 7];
        assert_eq!(block[..register::REQUEST], left, "found {found}");
    }
}

#[test]
fn a_refusal_says_its_question() {
    let file = small();
    let refused = check(&file[..352]).unwrap_err();
    assert_eq!(refused.number, AmvError::CHUNK_CUT);
    assert_eq!(
        refused.to_string(),
        "refused with 60 at 345. Is the chunk whole: 8 bytes of header and all of its payload? No."
    );
    assert_eq!(refused.place_is(), "the chunk's offset");
}

#[test]
fn a_refused_call_writes_nothing() {
    let mut buf = vec![0xA5; 330];
    let mut muxer = AmvMuxer::new(SETTINGS, &mut buf);
    assert_eq!(
        muxer.write_trailer(),
        Err(AmvError {
            number: 51,
            place: 0
        })
    );
    muxer.write_header().unwrap();
    assert_eq!(
        muxer.write_header(),
        Err(AmvError {
            number: 50,
            place: 316
        })
    );
    assert_eq!(
        muxer.write_packet(&[], 2),
        Err(AmvError {
            number: 53,
            place: 316
        })
    );
    assert_eq!(
        muxer.write_packet(&[1; 7], 0),
        Err(AmvError {
            number: 54,
            place: 316
        })
    );
    assert_eq!((muxer.bytes_written(), muxer.frames_written()), (316, 0));
    muxer.write_packet(&[1; 6], 0).unwrap();
    assert_eq!(
        muxer.write_trailer(),
        Err(AmvError {
            number: 54,
            place: 330
        })
    );
    assert_eq!(
        buf[316..],
        [b'0', b'0', b'd', b'c', 6, 0, 0, 0, 1, 1, 1, 1, 1, 1]
    );
}

#[test]
fn the_other_calls() {
    let file = small();
    assert_eq!(
        summary(&file),
        Ok(ChunkCounts {
            frames: 1,
            blocks: 1
        })
    );
    let index = ChunkIndex::build(&file).unwrap();
    let entries: Vec<_> = index.entries().collect();
    assert_eq!(
        entries,
        [
            ChunkIndexEntry {
                tag: VIDEO_CHUNK_TAG,
                file_offset: 316,
                video_pts_before: 0,
                audio_blocks_before: 0,
                audio_pts_before: 0
            },
            ChunkIndexEntry {
                tag: AUDIO_CHUNK_TAG,
                file_offset: 327,
                video_pts_before: 1,
                audio_blocks_before: 0,
                audio_pts_before: 0
            },
        ]
    );
    let mut demuxer = AmvDemuxer::open(&file).unwrap();
    // A ragged table, and one with a record of no kind: a stream that does not exist is told before either.
    let bad = [index.records(), &[0; 24]].concat();
    let ragged = [&bad[..], &[0]].concat();
    for (records, stream, number, place) in [
        (&ragged, 0, AmvError::TABLE_RAGGED, 0),
        (&ragged, 2, AmvError::NO_SUCH_STREAM, 0),
        (&bad, 1, AmvError::BAD_RECORD, 48),
        (&bad, u32::MAX, AmvError::NO_SUCH_STREAM, 0),
    ] {
        let refused = AmvError { number, place };
        let index = ChunkIndex::from_records(records.clone());
        assert_eq!(demuxer.seek_to_via_index(&index, stream, 0), Err(refused));
        assert_eq!(demuxer.cursor(), 316);
    }
    assert_eq!(demuxer.seek_to_via_index(&index, 1, 1), Ok(0));
    assert_eq!(
        (
            demuxer.cursor(),
            demuxer.video_frames_emitted(),
            demuxer.audio_samples_emitted(),
            demuxer.audio_blocks_emitted()
        ),
        (335, 1, 0, 1)
    );
    assert!(demuxer.is_at_end());
    assert_eq!(
        validate_movi_interleave(&[VIDEO_CHUNK_TAG, VIDEO_CHUNK_TAG]),
        Err(AmvError {
            number: 62,
            place: 1
        })
    );
    assert_eq!(
        validate_movi_interleave(&[VIDEO_CHUNK_TAG, AUDIO_CHUNK_TAG]),
        Ok(())
    );
}

/// Hours, minutes and seconds, at the longest run length and above it as a display shows them.
#[test]
fn run_lengths_are_shown() {
    let shown = |frames, fps| {
        let duration = AmvDuration::from_frame_count(frames, fps);
        (duration.hours, duration.minutes, duration.seconds)
    };
    let most = AmvDuration::MAX_SECONDS;
    assert_eq!(shown(1116, 12), (0, 1, 33));
    assert_eq!(shown(1116, 0), (0, 0, 0));
    assert_eq!(shown(most - 1, 1), (255, 59, 58));
    for (frames, fps) in [
        (most, 1),
        (most + 1, 1),
        (12 * (most + 1), 12),
        (u64::MAX, 1),
    ] {
        assert_eq!(shown(frames, fps), (255, 59, 59), "{frames} at {fps}");
    }
}

/// A recording of 256 hours, a picture a second: it is finished, and its prelude has the longest run length.
#[test]
fn a_recording_of_256_hours() {
    let frames = AmvDuration::MAX_SECONDS + 1;
    let settings = Settings { fps: 1, ..SETTINGS };
    let mut buf = vec![0; 324 + 8 * frames as usize];
    let mut muxer = AmvMuxer::new(settings, &mut buf);
    muxer.write_header().unwrap();
    for _ in 0..frames {
        muxer.write_packet(&[], 0).unwrap();
    }
    muxer.write_trailer().unwrap();
    assert_eq!(check(muxer.file()).unwrap().frames, frames);
    let header = AmvPrelude::parse_strict(muxer.file()).unwrap().header;
    assert_eq!(header.duration_packed.to_le_bytes(), [59, 59, 255, 0]);
}
