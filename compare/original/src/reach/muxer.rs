// Ours, in the module of muxer.rs: its fields are private, and 01 leaves `open` out.

/// What a muxer holds beside its writer.
#[derive(Clone, Copy, Debug, PartialEq, Eq)]
pub struct MuxState {
    pub width: u32,
    pub height: u32,
    pub fps: u32,
    pub rate: u32,
    pub channels: u16,
    pub begun: bool,
    pub frames: u64,
}

impl AmvMuxer {
    /// A muxer in any state over any writer.
    pub fn over(writer: Box<dyn WriteSeek>, state: MuxState) -> Self {
        Self {
            writer,
            width: state.width,
            height: state.height,
            fps: state.fps,
            samples_per_sec: state.rate,
            channels: state.channels,
            video_frame_count: state.frames,
            header_written: state.begun,
        }
    }

    pub fn state(&self) -> MuxState {
        MuxState {
            width: self.width,
            height: self.height,
            fps: self.fps,
            rate: self.samples_per_sec,
            channels: self.channels,
            begun: self.header_written,
            frames: self.video_frame_count,
        }
    }
}

/// The builder is not public.
pub fn prelude_bytes(state: MuxState, duration: u32) -> Vec<u8> {
    build_prelude_bytes(
        state.width,
        state.height,
        state.fps,
        duration,
        state.rate,
        state.channels,
    )
}
