//! The page for the printer (docs/FORMAT.md, 15): a line of 40 columns for each record of a table, and no line ends.

use crate::index::good_records;
use crate::{Answer, Record, VIDEO, ask, refuse};

/// The columns of a line, which are its bytes.
pub const LINE: usize = 40;

/// So many samples have 19 digits, and a line shows 18.
const SAMPLES_LIMIT: u64 = 1_000_000_000_000_000_000;

/// Writes a line for each record of a table into a page, and gives their number. Refuses with 41, 43, 70 and 40.
#[inline]
pub fn print_index(table: &[u8], page: &mut [u8]) -> Answer<u64> {
    // 43 is asked of the whole table before 70, so the place of a 70 waits for the end of the pass.
    let mut too_many = None;
    let records = good_records(table, |place, record| {
        if record.samples >= SAMPLES_LIMIT {
            too_many.get_or_insert(place);
        }
    })?;
    if let Some(place) = too_many {
        return refuse(70, place);
    }
    let (lines, _) = page.as_chunks_mut();
    ask(lines.len() >= records.len(), 40, 0)?;
    for (line, bytes) in lines.iter_mut().zip(records) {
        put_line(line, &Record::read(bytes));
    }
    Ok(records.len() as u64)
}

/// Kind in column 1, offset in 2 to 11, frames in 12 to 21, samples in 22 to 40; the first of them stays blank.
fn put_line(line: &mut [u8; LINE], record: &Record) {
    *line = [b' '; LINE];
    line[0] = if record.tag == VIDEO { b'V' } else { b'A' };
    put_number(&mut line[1..11], record.offset as u64);
    put_number(&mut line[11..21], record.frames as u64);
    put_number(&mut line[21..40], record.samples);
}

/// The digits of 0 to 99, two each.
const PAIRS: [[u8; 2]; 100] = {
    let mut pairs = [[b'0'; 2]; 100];
    let mut i = 0;
    while i < 100 {
        pairs[i] = [b'0' + (i / 10) as u8, b'0' + (i % 10) as u8];
        i += 1;
    }
    pairs
};

/// A number in decimal at the right of columns that have room for it, two digits at a time; those left of it stay.
fn put_number(columns: &mut [u8], mut number: u64) {
    let mut at = columns.len();
    while number >= 10 {
        at -= 2;
        columns[at..at + 2].copy_from_slice(&PAIRS[(number % 100) as usize]);
        number /= 100;
    }
    // The first digit of an odd number of digits, or the only one of 0.
    if number > 0 || at == columns.len() {
        columns[at - 1] = b'0' + number as u8;
    }
}
