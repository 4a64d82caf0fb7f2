//! Pages for the printer (docs/FORMAT.md, 15): what the request says of every page, in terms that share nothing with
//! those of the plain implementation, and the tables and pages that are fed to the comparison.

use plain::{AUDIO, COUNT_LIMIT, LINE, Packet, RECORD, Record, VIDEO};

use crate::calls::{self, Guarded};
use crate::files;
use crate::grammar;
use crate::interface::LIBRARY;
use crate::random::Random;
use crate::said::{Said, accepted, refused};
use crate::seeks;
use crate::tally::{Tally, hex};

/// What a record says, and its line: kind, and offset, frames and samples.
#[derive(Debug, PartialEq, Eq)]
struct Row {
    /// None where the tag is unknown.
    kind: Option<char>,
    numbers: [u64; 3],
}

/// The rows of a table's whole records.
fn rows_of_table(table: &[u8]) -> Vec<Row> {
    let number = |bytes: &[u8]| bytes.iter().rev().fold(0, |n, byte| n << 8 | *byte as u64);
    let row = |record: &[u8]| Row {
        kind: match &record[..4] {
            b"00dc" => Some('V'),
            b"01wb" => Some('A'),
            _ => None,
        },
        numbers: [&record[4..8], &record[8..12], &record[16..24]].map(number),
    };
    table.chunks_exact(RECORD).map(row).collect()
}

/// The rows of a page, read by the columns of its lines; none where a column is not printable, where columns have no
/// number, or where column 22 is not blank.
fn rows_of_page(page: &[u8]) -> Option<Vec<Row>> {
    let row = |line: &[u8]| {
        let printable = line.iter().all(|byte| (b' '..=b'~').contains(byte));
        let text = std::str::from_utf8(line).ok().filter(|_| printable)?;
        let number = |columns: &str| columns.trim().parse::<u64>().ok();
        let blank = &text[21..22] == " ";
        blank.then_some(Row {
            kind: text.chars().next(),
            numbers: [
                number(&text[1..11])?,
                number(&text[11..21])?,
                number(&text[21..40])?,
            ],
        })
    };
    page.chunks(LINE).map(row).collect()
}

/// The answer to a table and a page of that length, with a look at the whole table for each question.
fn expected(table: &[u8], page_len: usize) -> Said<2> {
    let rows = rows_of_table(table);
    let wide = |row: &Row| row.numbers[2].to_string().len() > 18;
    let too_many = rows.iter().position(wide);
    if RECORD * rows.len() != table.len() {
        refused(41, 0)
    } else if let Some(place) = seeks::bad_record(table) {
        refused(43, place)
    } else if let Some(i) = too_many {
        refused(70, (RECORD * i) as u64)
    } else if page_len < LINE * rows.len() {
        refused(40, 0)
    } else {
        accepted(&[rows.len() as u64])
    }
}

/// Whether the answer is the request's, an accepted page says what its table says, and all bytes after its lines stay;
/// a refused page has no lines.
pub fn stands(table: &[u8], given: &[u8], said: Said<2>, page: &[u8]) -> bool {
    if said != expected(table, given.len()) {
        return false;
    }
    let (lines, later) = page.split_at(LINE * said.out[1] as usize);
    let says = said.number != 0 || rows_of_page(lines) == Some(rows_of_table(table));
    says && *later == given[lines.len()..]
}

/// The page of the index that the library builds of a file, if it builds one.
pub fn of_index(tally: &mut Tally, file: &[u8], count: usize) {
    let mut table = vec![0; RECORD * count];
    if LIBRARY.build_chunk_index(file, &mut table).number == 0 {
        calls::print_index(tally, &table, &vec![0xc3; LINE * count + 1]);
    }
}

/// The page of a finished recording, index and page both the library's: a line for each packet of the drain, with what
/// stands before it.
pub fn of_recording(tally: &mut Tally, file: &[u8]) {
    let chunks = grammar::finished(file).expect("a finished recording");
    let row = |(packet, [offset, frames, samples, _]): (Packet, [u64; 4])| Row {
        kind: Some(if packet.stream == 0 { 'V' } else { 'A' }),
        numbers: [offset, frames, samples],
    };
    let rows: Vec<Row> = grammar::drain(file, &chunks).into_iter().map(row).collect();
    let mut table = vec![0; RECORD * rows.len()];
    let mut page = Guarded::new(&vec![0; LINE * rows.len()]);
    LIBRARY.build_chunk_index(file, &mut table);
    LIBRARY.print_index(&table, page.lent());
    let read = rows_of_page(page.lent());
    tally.equal("page of a recording", Some(rows), read, || hex(file));
}

/// Short tables and pages, in full.
pub fn short(tally: &mut Tally) {
    lines(tally);
    questions(tally);
    lengths(tally);
}

/// Numbers up to a bound: the least and the greatest of each number of digits, and those at the bounds of fields and
/// questions.
fn telling(bound: u64) -> Vec<u64> {
    let digits = (1..20).flat_map(|n| [10u64.pow(n) - 1, 10u64.pow(n)]);
    let bounds = [0, u32::MAX.into(), COUNT_LIMIT - 1, COUNT_LIMIT, u64::MAX];
    digits.chain(bounds).filter(|n| *n <= bound).collect()
}

/// Each telling number in each of a line's columns, with each in the other ones.
fn lines(tally: &mut Tally) {
    let words = telling(u32::MAX.into());
    for samples in telling(u64::MAX) {
        for offset in &words {
            for frames in &words {
                for tag in [VIDEO, AUDIO] {
                    let record = Record {
                        tag,
                        offset: *offset as u32,
                        frames: *frames as u32,
                        blocks: 7,
                        samples,
                    };
                    calls::print_index(tally, &record.bytes(), &[0xc3; LINE + 1]);
                }
            }
        }
    }
}

/// The least number of samples that is refused with 70.
const TOO_MANY: u64 = 10u64.pow(18);

/// All lists of up to four records that the questions turn on, whole and ragged, with pages that fit, are short by a
/// byte, empty or longer: so several questions are answered with no at once.
fn questions(tally: &mut Tally) {
    let kinds = [
        (VIDEO, 0),
        (AUDIO, TOO_MANY - 1),
        (VIDEO, TOO_MANY),
        (AUDIO, COUNT_LIMIT - 1),
        (AUDIO, COUNT_LIMIT),
        (0, 0),
        (0, TOO_MANY),
    ];
    for count in 0..=4 {
        files::all_lists(&kinds, count, |kinds| {
            let fits = LINE * kinds.len();
            for more in [0, 1, RECORD - 1] {
                let mut table = table_of(kinds);
                table.resize(table.len() + more, 0);
                for page_len in [0, fits.saturating_sub(1), fits, fits + 1, fits + LINE] {
                    calls::print_index(tally, &table, &vec![0xc3; page_len]);
                }
            }
        });
    }
}

/// Records of these tags and samples, each at another offset, with another number of frames.
pub fn table_of(kinds: &[(u32, u64)]) -> Vec<u8> {
    let record = |(i, (tag, samples)): (usize, &(u32, u64))| Record {
        tag: *tag,
        offset: 316 + 11 * i as u32,
        frames: 9 + i as u32,
        blocks: 7,
        samples: *samples,
    };
    let records = kinds.iter().enumerate().map(record);
    records.flat_map(|record| record.bytes()).collect()
}

/// All lengths of a table up to three records and of a page up to three lines, and a byte more.
fn lengths(tally: &mut Tally) {
    let table = table_of(&[(VIDEO, 0), (AUDIO, 10), (VIDEO, TOO_MANY - 1), (AUDIO, 99)]);
    for table_len in 0..=3 * RECORD + 1 {
        for page_len in 0..=3 * LINE + 1 {
            calls::print_index(tally, &table[..table_len], &vec![0xc3; page_len]);
        }
    }
}

/// Arbitrary tables, at any alignment, each with pages of several lengths.
pub fn round(tally: &mut Tally, random: &mut Random) {
    let good = !random.once_in(3);
    let most = random.pick(&[9, 9, 9, 9, 9, 9, 9, 200]);
    let count = random.size(most);
    let before = random.size(8);
    let mut bytes = random.bytes(before);
    bytes.extend((0..count).flat_map(|_| random_record(random, good).bytes()));
    if random.once_in(8) {
        let length = (RECORD * count + RECORD / 2).saturating_sub(random.size(RECORD));
        bytes.resize(before + length, 0);
    }
    let fits = LINE * count;
    for page_len in [
        fits,
        fits.saturating_sub(1),
        random.size(fits + 1),
        fits + random.size(100),
    ] {
        let given = random.bytes(page_len);
        calls::print_index(tally, &bytes[before..], &given);
    }
}

/// A number of any length up to so many digits.
fn random_number(random: &mut Random, most_digits: u64) -> u64 {
    let bound = 10u64.pow(1 + random.below(most_digits) as u32);
    match random.below(8) {
        0 => bound - 1,
        1 => bound / 10,
        _ => random.below(bound),
    }
}

/// One that can be printed, where it must be good.
fn random_record(random: &mut Random, good: bool) -> Record {
    let [offset, frames, blocks] = [10; 3].map(|digits| random_number(random, digits) as u32);
    let mut record = Record {
        tag: random.pick(&[VIDEO, AUDIO]),
        offset,
        frames,
        blocks,
        samples: random_number(random, 18),
    };
    if !good && random.once_in(6) {
        match random.below(3) {
            0 => record.tag = random.word32(),
            1 => record.samples = random.pick(&[TOO_MANY, COUNT_LIMIT - 1, COUNT_LIMIT]),
            _ => record.samples = random.next(),
        }
    }
    record
}
