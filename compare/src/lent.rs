//! A lent buffer as the writer that the original's muxer writes to.

use std::cell::RefCell;
use std::io::{self, Seek, SeekFrom};
use std::rc::Rc;

/// A buffer of fixed length as a writer. It is shared, so that its bytes can be seen when the muxer that held it is gone.
pub struct Lent {
    pub bytes: Rc<RefCell<Vec<u8>>>,
    pub position: u64,
    /// Where the file ends: `SeekFrom::End` counts from there.
    pub end: u64,
}

impl io::Write for Lent {
    fn write(&mut self, data: &[u8]) -> io::Result<usize> {
        let mut bytes = self.bytes.borrow_mut();
        let from = usize::try_from(self.position)
            .unwrap_or(usize::MAX)
            .min(bytes.len());
        let written = (&mut bytes[from..]).write(data)?;
        self.position = self.position.saturating_add(written as u64);
        self.end = self.end.max(self.position);
        Ok(written)
    }

    fn flush(&mut self) -> io::Result<()> {
        Ok(())
    }
}

impl Seek for Lent {
    fn seek(&mut self, to: SeekFrom) -> io::Result<u64> {
        self.position = match to {
            SeekFrom::Start(at) => at,
            SeekFrom::End(by) => self.end.wrapping_add_signed(by),
            SeekFrom::Current(by) => self.position.wrapping_add_signed(by),
        };
        Ok(self.position)
    }
}

/// The muxer keeps its writer to itself, so it gets one that shares the buffer, and the buffer's position can still be told.
pub struct Shared(pub Rc<RefCell<Lent>>);

impl io::Write for Shared {
    fn write(&mut self, data: &[u8]) -> io::Result<usize> {
        self.0.borrow_mut().write(data)
    }

    fn flush(&mut self) -> io::Result<()> {
        Ok(())
    }
}

impl Seek for Shared {
    fn seek(&mut self, to: SeekFrom) -> io::Result<u64> {
        self.0.borrow_mut().seek(to)
    }
}
