//! The listing (docs/FORMAT.md, 13): what the program `list` must print.

use crate::grammar::{drain, finished};

/// The longest input that is listed.
pub const LIMIT: usize = 65_536;

/// What the program `list` prints of a file.
pub fn of(file: &[u8]) -> String {
    if file.len() > LIMIT {
        return "NO LONG\n".into();
    }
    let totals = match plain::check(file) {
        Err(refusal) => return format!("NO {} {}\n", refusal.number, refusal.place),
        Ok(totals) => totals,
    };
    let mut lines = String::new();
    for (packet, [offset, frames, samples, blocks]) in drain(file, &finished(file).unwrap()) {
        let kind = if packet.stream == 0 { 'V' } else { 'A' };
        lines += &format!("{kind} {offset} {frames} {samples} {blocks}\n");
    }
    lines
        + &format!(
            "END {} FRAMES {} BLOCKS {} SAMPLES {} PAIRED {}\n",
            totals.trailer,
            totals.frames,
            totals.blocks,
            totals.samples,
            if totals.paired { 'Y' } else { 'N' }
        )
}
