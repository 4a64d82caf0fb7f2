// Ours, in the module of demuxer.rs: its fields are private, and 01 leaves `open` out.

/// The state of a walk, in 01's order.
#[derive(Clone, Copy, Debug, PartialEq, Eq)]
pub struct WalkState {
    pub cursor: u64,
    pub frames: i64,
    pub samples: i64,
    pub blocks: u64,
    pub end: bool,
    pub cut: bool,
    pub trailer: Option<u64>,
}

impl AmvDemuxer {
    /// A demuxer over any reader, its prelude unread.
    pub fn over(reader: Box<dyn ReadSeek>) -> Self {
        let stream = |index| StreamInfo {
            index,
            time_base: TimeBase::new(1, 1),
            duration: None,
            start_time: None,
            params: CodecParameters::video(CodecId::new(AUDIO_CODEC_ID)),
        };
        Self {
            reader,
            streams: [stream(STREAM_INDEX_VIDEO), stream(STREAM_INDEX_AUDIO)],
            header: AmvHeader::new(0, 0),
            audio_format: AmvWaveFormat::new(0),
            movi_start: PRELUDE_MIN_LEN as u64,
            cursor: PRELUDE_MIN_LEN as u64,
            eof: false,
            next_video_pts: 0,
            next_audio_pts: 0,
            next_audio_blocks: 0,
            chunk_index: None,
            truncated: false,
            trailer_offset: None,
        }
    }

    pub fn set_state(&mut self, state: WalkState) {
        self.cursor = state.cursor;
        self.next_video_pts = state.frames;
        self.next_audio_pts = state.samples;
        self.next_audio_blocks = state.blocks;
        self.eof = state.end;
        self.truncated = state.cut;
        self.trailer_offset = state.trailer;
    }

    pub fn state(&self) -> WalkState {
        WalkState {
            cursor: self.cursor,
            frames: self.next_video_pts,
            samples: self.next_audio_pts,
            blocks: self.next_audio_blocks,
            end: self.eof,
            cut: self.truncated,
            trailer: self.trailer_offset,
        }
    }

    pub fn set_index(&mut self, index: Vec<ChunkIndexEntry>) {
        self.chunk_index = Some(index);
    }

    /// The private seek, without the questions of the public one.
    pub fn seek_by_index(&mut self, stream: u32, request: i64) -> Result<i64> {
        self.seek_to_via_index(stream, request)
    }
}
