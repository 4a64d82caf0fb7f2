//! The listing program, and FFmpeg where it is installed.

use std::fs;
use std::io::Write as _;
use std::path::{Path, PathBuf};
use std::process::{Command, Stdio};

use plain::{Settings, Walker, Writer, words};

use crate::calls;
use crate::files;
use crate::listing;
use crate::random::Random;
use crate::said::Write;
use crate::tally::{Tally, hex};

const ROOT: &str = concat!(env!("CARGO_MANIFEST_DIR"), "/..");

/// The listing program's output on some dozens of files.
pub fn listing(tally: &mut Tally, random: &mut Random) {
    let program = Path::new(ROOT).join("target/bin/list");
    if !program.exists() {
        println!("no listing program in target/bin: not compared");
        return;
    }
    let mut inputs = files::shapes();
    for cut in [0, 3, 4, 28, 200, 315, 316, 324, 342, 343, 344, 352] {
        inputs.push(files::example()[..cut].to_vec());
    }
    inputs.push([&files::example()[..], b"x"].concat());
    for length in [listing::LIMIT - 1, listing::LIMIT, listing::LIMIT + 1] {
        inputs.push(recording_of(length));
    }
    for _ in 0..20 {
        inputs.push(files::finished(random));
        inputs.push(files::damaged(random));
    }
    for input in &inputs {
        list_one(tally, &program, input);
    }
}

fn list_one(tally: &mut Tally, program: &Path, input: &[u8]) {
    let expected = listing::of(input);
    let got = output_of(Command::new(program), input);
    tally.equal("listing", expected, got, || hex(input));
}

/// A finished recording of that length.
fn recording_of(length: usize) -> Vec<u8> {
    let mut file = files::example();
    file.truncate(file.len() - 8);
    let payload = vec![7; length - file.len() - 16];
    files::push_chunk(&mut file, plain::AUDIO, &payload);
    file.extend(plain::TRAILER);
    file
}

/// What a program prints when it is given the input.
fn output_of(mut command: Command, input: &[u8]) -> String {
    let mut child = command
        .stdin(Stdio::piped())
        .stdout(Stdio::piped())
        .stderr(Stdio::null())
        .spawn()
        .expect("the program starts");
    let mut stdin = child.stdin.take().unwrap();
    let input = input.to_vec();
    // In a thread of its own, so that neither side waits for the other; a program that stops reading early is no error.
    let feeder = std::thread::spawn(move || drop(stdin.write_all(&input)));
    let output = child.wait_with_output().unwrap();
    feeder.join().unwrap();
    String::from_utf8_lossy(&output.stdout).into_owned()
}

/// Frame rates that FFmpeg takes with 22,050 samples a second.
const RATES: [u32; 7] = [10, 14, 15, 18, 21, 25, 30];

/// Recordings that FFmpeg writes are read here, and those written here are read by ffprobe; the packets must be the same.
pub fn ffmpeg(tally: &mut Tally) {
    let there = |name| Command::new(name).arg("-version").output().is_ok();
    if !there("ffmpeg") || !there("ffprobe") {
        println!("FFmpeg is not installed: not compared with it");
        return;
    }
    let dir = std::env::temp_dir().join(format!("amv-compare-{}", std::process::id()));
    fs::create_dir_all(&dir).unwrap();
    for fps in RATES {
        for frames in [fps, fps + 1] {
            one_recording(tally, &dir, fps, frames);
        }
    }
    fs::remove_dir_all(&dir).unwrap();
}

fn one_recording(tally: &mut Tally, dir: &Path, fps: u32, frames: u32) {
    let theirs = dir.join("theirs.amv");
    if !ffmpeg_writes(&theirs, fps, frames) {
        println!("this FFmpeg writes no AMV at {fps} frames a second: not compared");
        return;
    }
    let file = fs::read(&theirs).unwrap();
    let packets = packets_of(&file);
    let input = || format!("FFmpeg's recording of {frames} frames at {fps}");
    tally.equal(
        "FFmpeg writes",
        packets_by_ffprobe(&theirs),
        shown(&packets),
        input,
    );
    let refused = plain::check(&file).err();
    let refused = refused.map(|refusal| (refusal.number, refusal.place));
    tally.equal(
        "FFmpeg writes",
        expected_check(fps, &packets),
        refused,
        input,
    );
    list_one(tally, &Path::new(ROOT).join("target/bin/list"), &file);
    calls::check(tally, &file);
    let ours = dir.join("ours.amv");
    let rewritten = rewritten(tally, &file, fps, &packets);
    fs::write(&ours, &rewritten).unwrap();
    let input = || format!("our recording of {frames} frames at {fps}");
    tally.equal(
        "FFmpeg reads",
        packets_by_ffprobe(&ours),
        shown(&packets),
        input,
    );
}

fn ffmpeg_writes(to: &Path, fps: u32, frames: u32) -> bool {
    let picture = format!("testsrc=size=32x16:rate={fps}");
    let block = (22_050 / fps).to_string();
    Command::new("ffmpeg")
        .args(["-v", "error", "-y", "-f", "lavfi", "-i", &picture])
        .args(["-f", "lavfi", "-i", "sine=frequency=440:sample_rate=22050"])
        .args([
            "-c:v",
            "amv",
            "-pix_fmt",
            "yuvj420p",
            "-frames:v",
            &frames.to_string(),
        ])
        .args([
            "-c:a",
            "adpcm_ima_amv",
            "-ac",
            "1",
            "-block_size",
            &block,
            "-shortest",
        ])
        .arg(to)
        .stdin(Stdio::null())
        .stderr(Stdio::null())
        .status()
        .is_ok_and(|status| status.success())
}

/// FFmpeg rounds 1,000,000/fps, where 01 takes the quotient: 15. Where the last chunk ends at an odd offset it writes a zero byte
/// before the trailer, where 01 expects a tag: 31 there.
fn expected_check(fps: u32, packets: &[plain::Packet]) -> Option<(u32, u64)> {
    let rounded = (2_000_000 + fps) / (2 * fps);
    if rounded != 1_000_000 / fps {
        return Some((15, 32));
    }
    let end = end_of(packets);
    (end % 2 == 1).then_some((31, end))
}

/// Reads until something other than a packet.
fn packets_of(file: &[u8]) -> Vec<plain::Packet> {
    let mut walker = Walker::fresh();
    let mut packets = Vec::new();
    while let Ok(Some(packet)) = plain::next_packet(file, &mut walker) {
        packets.push(packet);
    }
    packets
}

/// Stream, length and payload's start, a line each, as ffprobe prints them.
fn shown(packets: &[plain::Packet]) -> String {
    let line = |p: &plain::Packet| format!("packet,{},{},{}\n", p.stream, p.length, p.start);
    packets.iter().map(line).collect()
}

fn packets_by_ffprobe(file: &PathBuf) -> String {
    let mut command = Command::new("ffprobe");
    command
        .args(["-v", "quiet", "-of", "csv", "-show_entries"])
        .arg("packet=stream_index,size,pos")
        .arg(file);
    output_of(command, &[])
}

/// The packets written anew.
fn rewritten(tally: &mut Tally, file: &[u8], fps: u32, packets: &[plain::Packet]) -> Vec<u8> {
    let prelude = plain::parse(file).unwrap();
    let settings = Settings {
        width: prelude.header.width,
        height: prelude.header.height,
        fps,
        rate: prelude.wave.rate,
        channels: prelude.wave.channels,
    };
    let mut writer = words::writer_words(&Writer::fresh(settings));
    let mut buf = vec![0; file.len()];
    calls::write(tally, &mut writer, &mut buf, Write::Header);
    for packet in packets {
        let start = packet.start as usize;
        let payload = &file[start..start + packet.length as usize];
        calls::write(
            tally,
            &mut writer,
            &mut buf,
            Write::Packet(payload, packet.stream),
        );
    }
    calls::write(tally, &mut writer, &mut buf, Write::Trailer);
    buf.truncate(writer[7] as usize);
    tally.equal(
        "FFmpeg writes",
        hex(&as_01_has_it(file, fps, packets)),
        hex(&buf),
        || "written anew".into(),
    );
    buf
}

/// FFmpeg's recording with the quotient at 32 and without the byte that fills an odd end: what 01's writer makes of its packets.
fn as_01_has_it(file: &[u8], fps: u32, packets: &[plain::Packet]) -> Vec<u8> {
    let mut file = file.to_vec();
    file[32..36].copy_from_slice(&(1_000_000 / fps).to_le_bytes());
    let end = end_of(packets) as usize;
    if end % 2 == 1 {
        file.remove(end);
    }
    file
}

fn end_of(packets: &[plain::Packet]) -> u64 {
    packets
        .last()
        .map_or(plain::PRELUDE as u64, |packet| packet.start + packet.length)
}
