//! AMV recordings: a safe wrapper of the proved library, with the names of the Rust original.
//!
//! Every answer comes from the library, whose contracts are proved; this crate only carries slices and words over. docs/FORMAT.md has the
//! format, every call with its questions, and what is proved of whole lists of calls. A refusal is a number and a place; the constants of
//! [`AmvError`] name the numbers. Arguments stand in the order that they have in `include/amv.h`, with what a method holds left out. A
//! refused call changes nothing.
//!
//! A file is cut where it ends before its trailer, at a chunk or inside one. What stands before can be read, indexed and jumped to. Of every
//! finished recording, cut to any length, it is proved: reads from its start give exactly the packets whose chunk ends within the cut, each as in the
//! whole recording, and then [`AmvDemuxer::is_truncated`] says so. And of every list of reads and jumps: every packet is one of the whole recording, and
//! a jump to a chunk that is there answers the stamp and plays on with the packets that it would have in the whole recording, as far as the file has
//! them.

use std::fmt;

mod refusals;
mod registers;
pub mod sys;

pub use registers::{command, register, status};

/// Why a call was refused: the number of the question, and the place where it was asked.
#[derive(Clone, Copy, Debug, PartialEq, Eq)]
pub struct AmvError {
    /// The number of the question that was answered with no.
    pub number: u32,
    /// A byte offset, or what `place_is` says.
    pub place: u64,
}

impl fmt::Display for AmvError {
    fn fmt(&self, f: &mut fmt::Formatter<'_>) -> fmt::Result {
        let (number, place, question) = (self.number, self.place, self.question());
        write!(f, "refused with {number} at {place}. {question} No.")
    }
}

impl std::error::Error for AmvError {}

/// What a call gives, or its refusal.
pub type Result<T> = std::result::Result<T, AmvError>;

/// A call's words where it was accepted, else its refusal, whose place is the first word.
fn answer<const N: usize>(number: u32, out: [u64; N]) -> Result<[u64; N]> {
    match number {
        0 => Ok(out),
        number => Err(AmvError {
            number,
            place: out[0],
        }),
    }
}

/// The fields of a file's header, as they stand in it.
#[derive(Clone, Copy, Debug, PartialEq, Eq)]
pub struct AmvHeader {
    /// Microseconds a frame; 1,000,000 / fps in a file that is strictly right.
    pub micros_per_frame: u32,
    /// Pixels in a row.
    pub width: u32,
    /// Rows.
    pub height: u32,
    /// Frames a second.
    pub fps: u32,
    /// 1 in a file that is strictly right.
    pub flag_one: u32,
    /// 0 in a file that is strictly right.
    pub reserved_30: u32,
    /// The run length as it stands in the file: seconds, minutes times 256, hours times 65536. It is not asked about, and minutes can be over
    /// 59 where another program, or this library up to version 0.3, has written it.
    pub duration_packed: u32,
}

/// The fields of a file's sound format, as they stand in it. A device fixes all but the rate.
#[derive(Clone, Copy, Debug, PartialEq, Eq)]
pub struct AmvWaveFormat {
    /// The format's number; 1.
    pub format_tag: u16,
    /// Channels; 1.
    pub channels: u16,
    /// Samples a second, the rate.
    pub samples_per_sec: u32,
    /// Bytes a second; twice the rate.
    pub avg_bytes_per_sec: u32,
    /// The align; 2.
    pub block_align: u16,
    /// Bits of a sample; 16.
    pub bits_per_sample: u16,
    /// 0.
    pub cb_size: u16,
}

/// The 316 bytes at the start of a file.
#[derive(Clone, Copy, Debug, PartialEq, Eq)]
pub struct AmvPrelude {
    /// The picture's fields.
    pub header: AmvHeader,
    /// The sound's fields.
    pub audio_format: AmvWaveFormat,
    /// The offset of the first chunk.
    pub movi_payload_start: u64,
}

impl AmvPrelude {
    /// The prelude of a file whose layout is right, which is enough to play it. Refuses with 10 to 13.
    pub fn parse(file: &[u8]) -> Result<AmvPrelude> {
        AmvPrelude::parse_with(file, false)
    }

    /// The same, of a file that also has every field as a device fixes it. Refuses with 10 to 24.
    pub fn parse_strict(file: &[u8]) -> Result<AmvPrelude> {
        AmvPrelude::parse_with(file, true)
    }

    fn parse_with(file: &[u8], strict: bool) -> Result<AmvPrelude> {
        let mut out = [0; 16];
        let number = unsafe { sys::amv_parse(file.as_ptr(), file.len(), strict, &mut out) };
        // Each word is a field of 16 or 32 bits: the library's contract says which.
        answer(number, out).map(|w| AmvPrelude {
            header: AmvHeader {
                micros_per_frame: w[1] as u32,
                width: w[2] as u32,
                height: w[3] as u32,
                fps: w[4] as u32,
                flag_one: w[5] as u32,
                reserved_30: w[6] as u32,
                duration_packed: w[7] as u32,
            },
            audio_format: AmvWaveFormat {
                format_tag: w[8] as u16,
                channels: w[9] as u16,
                samples_per_sec: w[10] as u32,
                avg_bytes_per_sec: w[11] as u32,
                block_align: w[12] as u16,
                bits_per_sample: w[13] as u16,
                cb_size: w[14] as u16,
            },
            movi_payload_start: w[15],
        })
    }
}

/// A packet.
#[derive(Clone, Copy, Debug, PartialEq, Eq)]
pub struct Packet<'a> {
    /// 0 for pictures, 1 for sound.
    pub stream_index: u32,
    /// Its payload, a part of the file.
    pub data: &'a [u8],
    /// Its stamp: the frames or the samples before it.
    pub pts: u64,
    /// Its frames or samples; none where a block has no samples.
    pub duration: Option<u64>,
}

/// The records of a file's index, 24 bytes each.
#[derive(Clone, Debug, PartialEq, Eq)]
pub struct ChunkIndex {
    records: Vec<u8>,
}

/// One record.
#[derive(Clone, Copy, Debug, PartialEq, Eq)]
pub struct ChunkIndexEntry {
    /// The chunk's tag as a number, little-endian.
    pub tag: u32,
    /// The chunk's offset in the file.
    pub file_offset: u32,
    /// The frames before it.
    pub video_pts_before: u32,
    /// The blocks before it.
    pub audio_blocks_before: u32,
    /// The samples before it.
    pub audio_pts_before: u64,
}

impl ChunkIndexEntry {
    /// The bytes of a record.
    pub const LEN: usize = 24;
}

impl ChunkIndex {
    /// The index of a file. Refuses with 10 and 31. A file that is refused with 31 at p has something other than a chunk there; its first p
    /// bytes have an index, so go on with `&file[..p]`: every chunk before p is whole, and can be read and jumped to.
    pub fn build(file: &[u8]) -> Result<ChunkIndex> {
        let counts = summary(file)?;
        // A chunk that is cut does not count, and may have a record.
        let most = (counts.frames + counts.blocks + 1) as usize;
        let mut records = vec![0; most * ChunkIndexEntry::LEN];
        let mut out = [0; 2];
        let number = unsafe {
            sys::amv_build_chunk_index(
                file.as_ptr(),
                file.len(),
                records.as_mut_ptr(),
                records.len(),
                &mut out,
            )
        };
        let count = answer(number, out)?[1] as usize;
        records.truncate(count * ChunkIndexEntry::LEN);
        Ok(ChunkIndex { records })
    }

    /// Records from elsewhere, taken as they are: a jump over them, and their page, ask whether they are good.
    pub fn from_records(records: Vec<u8>) -> ChunkIndex {
        ChunkIndex { records }
    }

    /// The bytes of all records.
    pub fn records(&self) -> &[u8] {
        &self.records
    }

    /// The records one by one; bytes that are no whole record at the end are left out.
    pub fn entries(&self) -> impl Iterator<Item = ChunkIndexEntry> + '_ {
        let word =
            |r: &[u8], at: usize| u32::from_le_bytes([r[at], r[at + 1], r[at + 2], r[at + 3]]);
        self.records
            .chunks_exact(ChunkIndexEntry::LEN)
            .map(move |r| ChunkIndexEntry {
                tag: word(r, 0),
                file_offset: word(r, 4),
                video_pts_before: word(r, 8),
                audio_blocks_before: word(r, 12),
                audio_pts_before: word(r, 16) as u64 | (word(r, 20) as u64) << 32,
            })
    }

    /// The page of the index for a strip printer. Refuses with 70 where a record has too many samples before it for its columns, and
    /// records from elsewhere with 41 and 43 too.
    pub fn print(&self) -> Result<Page> {
        let count = self.records.len() / ChunkIndexEntry::LEN;
        let mut page = vec![b' '; count * Page::COLUMNS];
        print_index(&self.records, &mut page)?;
        // Each byte is a letter, a digit or a space: the library's contract says so.
        let text = String::from_utf8(page).expect("a page is ASCII");
        Ok(Page { text })
    }
}

/// The page of an index for a strip printer: a line of 40 columns for each record, without line ends.
///
/// Column 1 is `V` for a picture or `A` for sound, 2 to 11 are the chunk's offset, 12 to 21 the frames before it, 22 to 40 the samples
/// before it. A number is decimal, at the right of its columns, with spaces left of it; column 22 is always a space. Blocks are not printed.
#[derive(Clone, Debug, PartialEq, Eq)]
pub struct Page {
    text: String,
}

impl Page {
    /// The columns of a line, which are its bytes.
    pub const COLUMNS: usize = 40;

    /// All lines, one after another.
    pub fn text(&self) -> &str {
        &self.text
    }

    /// The lines one by one, each of 40 columns, as a printer is fed with them.
    pub fn lines(&self) -> impl Iterator<Item = &str> + '_ {
        let starts = (0..self.text.len()).step_by(Page::COLUMNS);
        starts.map(|start| &self.text[start..start + Page::COLUMNS])
    }
}

/// Prints the records of an index to the front of a lent page, a line for each as [`Page`] has it, and gives the number of lines; the bytes
/// after them stay. Refuses with 41, 43, 70 and 40.
pub fn print_index(table: &[u8], page: &mut [u8]) -> Result<usize> {
    let mut out = [0; 2];
    let number = unsafe {
        sys::amv_print_index(
            table.as_ptr(),
            table.len(),
            page.as_mut_ptr(),
            page.len(),
            &mut out,
        )
    };
    answer(number, out).map(|w| w[1] as usize)
}

/// The bytes of a sound block before its nibbles: starting level, step index, a byte that is ignored, and count.
pub const AMV_AUDIO_PREAMBLE_LEN: usize = 8;

/// Decodes a sound block, which is the payload of a sound packet, to the front of a lent buffer, and gives the number of samples; the entries
/// after them stay. Two for each byte after the block's preamble are always enough, whatever its count says. Refuses with 25, 71, 72 and 73.
///
/// ```
/// // The starting level 1000, the step index 16, the count 4, and the nibbles 7, 15, 8 and 0.
/// let block = [0xE8, 0x03, 16, 0, 4, 0, 0, 0, 0x7F, 0x80];
/// let mut samples = [0; 6];
/// assert_eq!(amv::decode_block(&block, &mut samples), Ok(4));
/// assert_eq!(samples, [1063, 927, 908, 925, 0, 0]);
/// let refused = amv::decode_block(&block, &mut samples[..3]).unwrap_err();
/// assert_eq!(refused.number, amv::AmvError::SAMPLE_BUFFER_TOO_SHORT);
/// ```
pub fn decode_block(block: &[u8], samples: &mut [i16]) -> Result<usize> {
    let mut out = [0; 2];
    let number = unsafe {
        sys::amv_decode_block(
            block.as_ptr(),
            block.len(),
            samples.as_mut_ptr(),
            samples.len(),
            &mut out,
        )
    };
    answer(number, out).map(|w| w[1] as usize)
}

/// The samples of a sound block, in a buffer of their own. Its size goes by the block's bytes and not by its count, so a count that is wrong
/// takes no memory. Refuses with 25, 71 and 72.
///
/// ```
/// # let mut file = vec![0; 400];
/// # let settings = amv::Settings { width: 8, height: 8, fps: 12, rate: 8000, channels: 1 };
/// # let mut muxer = amv::AmvMuxer::new(settings, &mut file);
/// # muxer.write_header()?;
/// # muxer.write_packet(&[0xE8, 0x03, 16, 0, 4, 0, 0, 0, 0x7F, 0x80], 1)?;
/// # muxer.write_trailer()?;
/// let mut demuxer = amv::AmvDemuxer::open(&file)?;
/// while let Some(packet) = demuxer.next_packet()? {
///     if packet.stream_index == 1 {
///         let samples = amv::block_samples(packet.data)?;
///         assert_eq!(samples, [1063, 927, 908, 925]);
///     }
/// }
/// # Ok::<(), amv::AmvError>(())
/// ```
pub fn block_samples(block: &[u8]) -> Result<Vec<i16>> {
    let most = 2 * block.len().saturating_sub(AMV_AUDIO_PREAMBLE_LEN);
    let mut samples = vec![0; most];
    let count = decode_block(block, &mut samples)?;
    samples.truncate(count);
    Ok(samples)
}

/// The words of a walker.
const CURSOR: usize = 0;
const FRAMES: usize = 1;
const SAMPLES: usize = 2;
const BLOCKS: usize = 3;
const END: usize = 4;
const CUT: usize = 5;
const TRAILER: usize = 6;

/// A reader over a file in memory.
#[derive(Clone, Debug)]
pub struct AmvDemuxer<'a> {
    file: &'a [u8],
    prelude: AmvPrelude,
    walker: [u64; 7],
    index: Option<ChunkIndex>,
}

impl<'a> AmvDemuxer<'a> {
    /// A reader at the first chunk of a file whose layout is right: what it takes to play a file. Refuses with 10 to 13.
    pub fn open(file: &'a [u8]) -> Result<AmvDemuxer<'a>> {
        AmvPrelude::parse(file).map(|prelude| AmvDemuxer::over(file, prelude))
    }

    /// The same, of a file that also has every field as a device fixes it. Refuses with 10 to 24.
    pub fn open_strict(file: &'a [u8]) -> Result<AmvDemuxer<'a>> {
        AmvPrelude::parse_strict(file).map(|prelude| AmvDemuxer::over(file, prelude))
    }

    fn over(file: &'a [u8], prelude: AmvPrelude) -> AmvDemuxer<'a> {
        AmvDemuxer {
            file,
            prelude,
            walker: [prelude.movi_payload_start, 0, 0, 0, 0, 0, u64::MAX],
            index: None,
        }
    }

    /// The header of the file.
    pub fn header(&self) -> &AmvHeader {
        &self.prelude.header
    }

    /// The sound format of the file.
    pub fn audio_format(&self) -> &AmvWaveFormat {
        &self.prelude.audio_format
    }

    /// The next packet, or none at the end. Refuses with 31 at an unknown chunk, and with 32 where foreign records led to counts that are
    /// too large.
    pub fn next_packet(&mut self) -> Result<Option<Packet<'a>>> {
        let mut out = [0; 7];
        let number = unsafe {
            sys::amv_next_packet(
                self.file.as_ptr(),
                self.file.len(),
                &mut self.walker,
                &mut out,
            )
        };
        answer(number, out).map(|w| self.packet_of(w))
    }

    /// The packet that a read's or a step's words are; none where it gave none.
    fn packet_of(&self, words: [u64; 7]) -> Option<Packet<'a>> {
        let [_, is_packet, stream, offset, len, stamp, duration] = words;
        let start = offset as usize;
        (is_packet == 1).then(|| Packet {
            stream_index: stream as u32,
            data: &self.file[start..start + len as usize],
            pts: stamp,
            duration: (duration != 0).then_some(duration),
        })
    }

    /// Builds the index of the file and keeps it. Refuses with 31, and then keeps what it had.
    pub fn build_chunk_index(&mut self) -> Result<()> {
        self.index = Some(ChunkIndex::build(self.file)?);
        Ok(())
    }

    /// The index, once it is built.
    pub fn chunk_index(&self) -> Option<&ChunkIndex> {
        self.index.as_ref()
    }

    /// Jumps to the first chunk of a stream stamped at or after the request, or to the end; gives the stream's stamp there. That can be the chunk in
    /// which the file ends: the read that follows is then the end. The index is built if it is not there yet. Refuses with 31 where it cannot be
    /// built, and with 42 and 32.
    pub fn seek_to(&mut self, stream_index: u32, requested_pts: i64) -> Result<u64> {
        if self.index.is_none() {
            self.build_chunk_index()?;
        }
        let index = self.index.take().expect("it was just built");
        let sought = self.seek_to_via_index(&index, stream_index, requested_pts);
        self.index = Some(index);
        sought
    }

    /// The same over an index that is given. Refuses with 42, 41, 43 and 32, in this order.
    pub fn seek_to_via_index(
        &mut self,
        index: &ChunkIndex,
        stream_index: u32,
        requested_pts: i64,
    ) -> Result<u64> {
        let mut out = [0; 2];
        let number = unsafe {
            sys::amv_seek_to_via_index(
                index.records.as_ptr(),
                index.records.len(),
                &mut self.walker,
                stream_index,
                requested_pts,
                &mut out,
            )
        };
        answer(number, out).map(|w| w[1])
    }

    /// A step of the register block: performs what a controller has left in its 16 bytes, over an index that is given, and leaves there what
    /// became of it. Gives the packet where the command was a read and the read gave one. [`register`], [`command`] and [`status`] name what
    /// the bytes hold; include/amv.h has them in a table.
    ///
    /// Refuses with 74 and 75, and then no byte of the block is changed. A read or seek that is refused does not refuse the step: it shows in
    /// the block alone, by [`status::REFUSED`] and by its number in [`register::REFUSAL`], and the reader stays where it is.
    ///
    /// ```
    /// use amv::{command, register, status};
    /// # let mut file = vec![0; 400];
    /// # let settings = amv::Settings { width: 8, height: 8, fps: 12, rate: 8000, channels: 1 };
    /// # let mut muxer = amv::AmvMuxer::new(settings, &mut file);
    /// # muxer.write_header()?;
    /// # for _ in 0..3 {
    /// #     muxer.write_packet(&[1, 2, 3], 0)?;
    /// # }
    /// # muxer.write_trailer()?;
    /// let mut demuxer = amv::AmvDemuxer::open(&file)?;
    /// let index = amv::ChunkIndex::build(&file)?;
    /// let mut block = [0; register::BLOCK_LEN];
    /// // The controller asks for picture 2, and to be interrupted where a packet is there.
    /// block[register::ENABLE] = status::PACKET;
    /// block[register::COMMAND] = command::SEEK_PICTURE;
    /// block[register::REQUEST..].copy_from_slice(&2i64.to_le_bytes());
    /// assert_eq!(demuxer.register_step(&index, &mut block)?, None);
    /// // It reads.
    /// block[register::COMMAND] = command::READ;
    /// let packet = demuxer.register_step(&index, &mut block)?.unwrap();
    /// assert_eq!((packet.stream_index, packet.pts), (0, 2));
    /// assert_eq!(block[register::PENDING], status::PACKET);
    /// // It acknowledges. A bit interrupts where it rises, and in this step packet falls.
    /// block[register::ACKNOWLEDGE] = status::PACKET;
    /// demuxer.register_step(&index, &mut block)?;
    /// assert_eq!((block[register::PENDING], block[register::STATUS]), (0, 0));
    /// # Ok::<(), amv::AmvError>(())
    /// ```
    pub fn register_step(
        &mut self,
        index: &ChunkIndex,
        block: &mut [u8],
    ) -> Result<Option<Packet<'a>>> {
        let mut out = [0; 7];
        let number = unsafe {
            sys::amv_register_step(
                self.file.as_ptr(),
                self.file.len(),
                index.records.as_ptr(),
                index.records.len(),
                &mut self.walker,
                block.as_mut_ptr(),
                block.len(),
                &mut out,
            )
        };
        answer(number, out).map(|w| self.packet_of(w))
    }

    /// The offset of the next chunk.
    pub fn cursor(&self) -> u64 {
        self.walker[CURSOR]
    }

    /// The frames before the next chunk.
    pub fn video_frames_emitted(&self) -> u64 {
        self.walker[FRAMES]
    }

    /// The samples before the next chunk.
    pub fn audio_samples_emitted(&self) -> u64 {
        self.walker[SAMPLES]
    }

    /// The blocks before the next chunk.
    pub fn audio_blocks_emitted(&self) -> u64 {
        self.walker[BLOCKS]
    }

    /// Whether there are as many frames as blocks before the next chunk.
    pub fn movi_interleave_balanced(&self) -> bool {
        self.walker[FRAMES] == self.walker[BLOCKS]
    }

    /// Whether the reader stands at the end: a read gives none.
    pub fn is_at_end(&self) -> bool {
        self.walker[END] == 1
    }

    /// Whether the file is cut, as far as reads have found: it ends before its trailer, at a chunk or inside one.
    pub fn is_truncated(&self) -> bool {
        self.walker[CUT] == 1
    }

    /// The offset of the trailer, once a read has met it.
    pub fn trailer_offset(&self) -> Option<u64> {
        (self.walker[TRAILER] != u64::MAX).then_some(self.walker[TRAILER])
    }

    /// Whether the trailer that was met ends a file of that length; none before it is met.
    pub fn trailer_matches_eof(&self, stream_len: u64) -> Option<bool> {
        self.trailer_offset()
            .map(|offset| stream_len.checked_sub(8) == Some(offset))
    }
}

/// What a writer puts into the prelude. A finished recording needs fps above 0 and one channel; no value is refused.
#[derive(Clone, Copy, Debug, PartialEq, Eq)]
pub struct Settings {
    /// Pixels in a row.
    pub width: u32,
    /// Rows.
    pub height: u32,
    /// Frames a second.
    pub fps: u32,
    /// Samples a second.
    pub rate: u32,
    /// Channels.
    pub channels: u16,
}

/// A writer over a lent buffer.
#[derive(Debug)]
pub struct AmvMuxer<'a> {
    buf: &'a mut [u8],
    writer: [u64; 9],
}

impl<'a> AmvMuxer<'a> {
    /// A writer that has written nothing.
    pub fn new(settings: Settings, buf: &'a mut [u8]) -> AmvMuxer<'a> {
        let s = settings;
        AmvMuxer {
            buf,
            writer: [
                s.width.into(),
                s.height.into(),
                s.fps.into(),
                s.rate.into(),
                s.channels.into(),
                0,
                0,
                0,
                0,
            ],
        }
    }

    /// Writes the prelude; the first call. Refuses with 50, 55 and 54.
    pub fn write_header(&mut self) -> Result<()> {
        let mut out = [0; 1];
        let number = unsafe {
            sys::amv_write_header(
                &mut self.writer,
                self.buf.as_mut_ptr(),
                self.buf.len(),
                &mut out,
            )
        };
        answer(number, out).map(|_| ())
    }

    /// Writes a packet after what is written: stream 0 is a picture, stream 1 is sound. Refuses with 51, 55, 56, 52, 53 and 54.
    pub fn write_packet(&mut self, data: &[u8], stream_index: u32) -> Result<()> {
        let mut out = [0; 1];
        let number = unsafe {
            sys::amv_write_packet(
                &mut self.writer,
                self.buf.as_mut_ptr(),
                self.buf.len(),
                data.as_ptr(),
                data.len(),
                stream_index,
                &mut out,
            )
        };
        answer(number, out).map(|_| ())
    }

    /// Writes the trailer, and the run length into the prelude; the last call. Refuses with 51, 55, 56 and 54.
    pub fn write_trailer(&mut self) -> Result<()> {
        let mut out = [0; 1];
        let number = unsafe {
            sys::amv_write_trailer(
                &mut self.writer,
                self.buf.as_mut_ptr(),
                self.buf.len(),
                &mut out,
            )
        };
        answer(number, out).map(|_| ())
    }

    /// The bytes of the file so far.
    pub fn bytes_written(&self) -> u64 {
        self.writer[7]
    }

    /// The pictures of the file so far.
    pub fn frames_written(&self) -> u64 {
        self.writer[8]
    }

    /// The file so far: the first bytes of the buffer.
    pub fn file(&self) -> &[u8] {
        &self.buf[..self.writer[7] as usize]
    }
}

/// What the check gives of a finished recording.
#[derive(Clone, Copy, Debug, PartialEq, Eq)]
pub struct Totals {
    /// Its pictures.
    pub frames: u64,
    /// Its blocks of sound.
    pub blocks: u64,
    /// The samples of all blocks.
    pub samples: u64,
    /// The offset of the trailer.
    pub trailer: u64,
    /// Whether pictures and sound alternate, a picture first and as many of each.
    pub paired: bool,
}

/// The totals of a finished recording: the strict prelude, whole chunks, the trailer, and nothing after it. To be asked of what must be
/// finished; a file need not be to be played. Refuses with 10 to 24, 60, 61 and 31. A recording that is cut is 60; one that ends inside its
/// prelude is 11.
pub fn check(file: &[u8]) -> Result<Totals> {
    let mut out = [0; 6];
    let number = unsafe { sys::amv_check(file.as_ptr(), file.len(), &mut out) };
    answer(number, out).map(|w| Totals {
        frames: w[1],
        blocks: w[2],
        samples: w[3],
        trailer: w[4],
        paired: w[5] == 1,
    })
}

/// What a file plays, by kind.
#[derive(Clone, Copy, Debug, PartialEq, Eq)]
pub struct ChunkCounts {
    /// The pictures.
    pub frames: u64,
    /// The blocks of sound.
    pub blocks: u64,
}

/// How many pictures and blocks a file plays: as many as reads from its start give. A chunk that is cut does not count; the index may have
/// a record of it, which is then its last. Refuses with 10 and 31, as the index does.
pub fn summary(file: &[u8]) -> Result<ChunkCounts> {
    let mut out = [0; 3];
    let number = unsafe { sys::amv_summary(file.as_ptr(), file.len(), &mut out) };
    answer(number, out).map(|w| ChunkCounts {
        frames: w[1],
        blocks: w[2],
    })
}

/// The tag of a picture as a number, little-endian.
pub const VIDEO_CHUNK_TAG: u32 = u32::from_le_bytes(*b"00dc");
/// The tag of sound as a number, little-endian.
pub const AUDIO_CHUNK_TAG: u32 = u32::from_le_bytes(*b"01wb");

/// Accepts tags that alternate, a picture first and as many of each. Refuses with 62 to 65; the place is a position among the tags.
pub fn validate_movi_interleave(tags: &[u32]) -> Result<()> {
    let mut out = [0; 1];
    let number = unsafe { sys::amv_validate_movi_interleave(tags.as_ptr(), tags.len(), &mut out) };
    answer(number, out).map(|_| ())
}

/// The run length of a number of frames, as a display shows it.
#[derive(Clone, Copy, Debug, PartialEq, Eq)]
pub struct AmvDuration {
    /// At most 59.
    pub seconds: u8,
    /// At most 59.
    pub minutes: u8,
    /// At most 255.
    pub hours: u8,
}

impl AmvDuration {
    /// The longest run length in seconds: 255 h 59 min 59 s.
    pub const MAX_SECONDS: u64 = 921_599;

    /// The run length of a number of frames; zeros for fps 0, and 255 h 59 min 59 s above [`Self::MAX_SECONDS`]. Never refuses.
    pub fn from_frame_count(frame_count: u64, fps: u32) -> AmvDuration {
        let [seconds, minutes, hours, _] =
            unsafe { sys::amv_from_frame_count(frame_count, fps) }.to_le_bytes();
        AmvDuration {
            seconds,
            minutes,
            hours,
        }
    }
}
