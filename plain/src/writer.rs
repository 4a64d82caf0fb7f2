//! From a written packet to its file (docs/FORMAT.md, 3 and 9).

use crate::{Answer, FILE_LIMIT, PRELUDE, Settings, TRAILER, ask, build_prelude_bytes, stream_tag};

/// The run length of so many frames, packed: seconds, minutes, hours, 0. From 256 hours on it is 255 h 59 min 59 s.
pub fn from_frame_count(frames: u64, fps: u32) -> [u8; 4] {
    let seconds = frames.checked_div(fps as u64).unwrap_or(0);
    if seconds >= 256 * 3600 {
        return [59, 59, 255, 0];
    }
    let [minutes, seconds] = [seconds / 60, seconds % 60];
    let [hours, minutes] = [minutes / 60, minutes % 60];
    [seconds as u8, minutes as u8, hours as u8, 0]
}

/// What has been written, and how. The file is the first `written` bytes of the buffer that is lent to each call.
#[derive(Clone, Copy, Debug, PartialEq, Eq)]
pub struct Writer {
    /// What the prelude has.
    pub settings: Settings,
    /// Whether the header is written.
    pub begun: bool,
    /// Whether the trailer is written.
    pub ended: bool,
    /// The bytes written.
    pub written: u64,
    /// The frames written.
    pub frames: u64,
}

impl Writer {
    /// A writer that has written nothing.
    pub fn fresh(settings: Settings) -> Self {
        Self {
            settings,
            begun: false,
            ended: false,
            written: 0,
            frames: 0,
        }
    }

    /// A question, whose place is the bytes written.
    fn ask(&self, yes: bool, number: u32) -> Answer<()> {
        ask(yes, number, self.written)
    }

    /// Asks 51, 55 and 56.
    fn may_go_on(&self) -> Answer<()> {
        self.ask(self.begun, 51)?;
        self.ask(!self.ended, 55)?;
        self.ask(self.written >= PRELUDE as u64, 56)
    }

    /// Asks 54: whether so many bytes from `at` end within the buffer and the file limit.
    fn room(&self, buf: &[u8], at: u64, length: usize) -> Answer<()> {
        let limit = buf.len().min(FILE_LIMIT) as u64;
        let left = limit.checked_sub(at);
        self.ask(left.is_some_and(|left| length as u64 <= left), 54)
    }

    /// Writes the prelude. Refuses with 50, 55 and 54.
    #[inline]
    pub fn write_header(&mut self, buf: &mut [u8]) -> Answer<()> {
        self.ask(!self.begun, 50)?;
        self.ask(!self.ended, 55)?;
        self.room(buf, 0, PRELUDE)?;
        self.put_header(buf);
        Ok(())
    }

    /// A header after its questions.
    #[inline]
    fn put_header(&mut self, buf: &mut [u8]) {
        buf[..PRELUDE].copy_from_slice(&build_prelude_bytes(self.settings, 0));
        self.begun = true;
        self.written = PRELUDE as u64;
    }

    /// Writes a packet. Refuses with 51, 55, 56, 52, 53 and 54.
    #[inline]
    pub fn write_packet(&mut self, buf: &mut [u8], payload: &[u8], stream: u32) -> Answer<()> {
        self.may_go_on()?;
        self.ask(payload.len() <= u32::MAX as usize, 52)?;
        self.ask(stream <= 1, 53)?;
        self.room(buf, self.written, 8 + payload.len())?;
        self.put_packet(buf, payload, stream);
        Ok(())
    }

    /// A packet after its questions.
    #[inline]
    fn put_packet(&mut self, buf: &mut [u8], payload: &[u8], stream: u32) {
        let chunk = &mut buf[self.written as usize..][..8 + payload.len()];
        chunk[..4].copy_from_slice(&stream_tag(stream).to_le_bytes());
        chunk[4..8].copy_from_slice(&(payload.len() as u32).to_le_bytes());
        chunk[8..].copy_from_slice(payload);
        self.written += chunk.len() as u64;
        if stream == 0 {
            self.frames = self.frames.saturating_add(1);
        }
    }

    /// Writes the trailer, and the run length into the prelude. Refuses with 51, 55, 56 and 54.
    #[inline]
    pub fn write_trailer(&mut self, buf: &mut [u8]) -> Answer<()> {
        self.may_go_on()?;
        self.room(buf, self.written, TRAILER.len())?;
        self.put_trailer(buf);
        Ok(())
    }

    /// A trailer after its questions.
    #[inline]
    fn put_trailer(&mut self, buf: &mut [u8]) {
        buf[self.written as usize..][..TRAILER.len()].copy_from_slice(TRAILER);
        if self.settings.fps > 0 && self.frames > 0 {
            buf[84..88].copy_from_slice(&from_frame_count(self.frames, self.settings.fps));
        }
        self.written += TRAILER.len() as u64;
        self.ended = true;
    }
}
