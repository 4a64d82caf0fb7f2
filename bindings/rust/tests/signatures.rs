//! The header, this binding and the library's source say the same: the same functions, with the same parameters of the same widths in the
//! same order; the same refusals, by name, number, question and place, as docs/FORMAT.md has them; the same registers, commands and bits; the
//! same version and limits. Nothing else would notice: a linker knows only names.

use std::collections::BTreeMap;
use std::fs;

/// A function's parameters, by name and type, and what it returns, in the words of the C header.
type Functions = BTreeMap<String, Vec<String>>;

fn read(path: &str) -> String {
    let path = format!("{}/../../{path}", env!("CARGO_MANIFEST_DIR"));
    fs::read_to_string(&path).unwrap_or_else(|e| panic!("{path}: {e}"))
}

fn words(text: &str) -> String {
    text.split_whitespace().collect::<Vec<_>>().join(" ")
}

/// The text without its comments.
fn without(text: &str, open: &str, close: &str) -> String {
    let mut rest = text;
    let mut kept = String::new();
    while let Some(at) = rest.find(open) {
        kept.push_str(&rest[..at]);
        rest = &rest[at..];
        rest = rest
            .find(close)
            .map_or("", |end| &rest[end + close.len()..]);
        kept.push(' ');
    }
    kept + rest
}

/// The pieces of each declaration that begins with a word: its name, its parameters, and what stands after them.
fn declarations(text: &str, begin: &str) -> Vec<(String, Vec<String>, String)> {
    let flat = words(text);
    flat.split(begin)
        .skip(1)
        .filter_map(|d| {
            let (name, rest) = d.split_once('(')?;
            let (parameters, after) = rest.split_once(')')?;
            let parameters = parameters.split(',').map(words).filter(|p| !p.is_empty());
            Some((words(name), parameters.collect(), words(after)))
        })
        .collect()
}

/// The header without its comments, and without the ends of lines inside a macro.
fn header() -> String {
    without(&read("include/amv.h"), "/*", "*/").replace("\\\n", " ")
}

/// The header's names for numbers: its enumerators, and its macros that are one number.
fn header_numbers() -> BTreeMap<String, u64> {
    let text = header();
    let mut numbers = BTreeMap::new();
    for list in text.split("enum {").skip(1) {
        let list = list.split('}').next().expect("an enum ends");
        let mut next = 0;
        for name in list.split(',').map(words).filter(|n| !n.contains('(')) {
            let (name, number) = match name.split_once(" = ") {
                Some((name, number)) => (name.to_string(), number.parse().expect("a number")),
                None => (name, next),
            };
            next = number + 1;
            numbers.insert(name, number);
        }
    }
    for line in text.lines().filter_map(|l| l.strip_prefix("#define ")) {
        if let Some((name, number)) = line.split_once(' ') {
            let number = number.trim();
            let number = match number.strip_prefix("0x") {
                Some(hex) => u64::from_str_radix(hex, 16),
                None => number.parse(),
            };
            if let Ok(number) = number {
                numbers.insert(name.to_string(), number);
            }
        }
    }
    numbers
}

/// `uint32_t amv_check(const uint8_t *file, size_t len, uint64_t out[AMV_CHECK_WORDS]);`
fn of_header() -> Functions {
    let numbers = header_numbers();
    let by_number = |parameter: &String| match parameter.split_once('[') {
        None => parameter.clone(),
        Some((before, len)) => {
            let len = len.strip_suffix(']').expect("the length of an array");
            let number = numbers.get(len).map(u64::to_string);
            format!("{before}[{}]", number.as_deref().unwrap_or(len))
        }
    };
    declarations(&header(), "uint32_t amv_")
        .into_iter()
        .map(|(name, parameters, _)| (name, parameters.iter().map(by_number).collect()))
        .collect()
}

/// `pub fn amv_check(file: *const u8, len: usize, out: *mut [u64; 6]) -> u32;`
fn of_binding() -> Functions {
    let text = without(&read("bindings/rust/src/sys.rs"), "//", "\n");
    let functions = declarations(&text, "pub fn amv_").into_iter();
    functions
        .map(|(name, parameters, after)| {
            assert!(after.starts_with("-> u32;"), "{name} returns {after}");
            let parameters = parameters.iter().map(|p| {
                let (name, of) = p.split_once(": ").expect("a parameter has a type");
                match of {
                    "*const u8" => format!("const uint8_t *{name}"),
                    "*const u32" => format!("const uint32_t *{name}"),
                    "*mut u8" => format!("uint8_t *{name}"),
                    "*mut i16" => format!("int16_t *{name}"),
                    "usize" => format!("size_t {name}"),
                    "u64" => format!("uint64_t {name}"),
                    "u32" => format!("uint32_t {name}"),
                    "i64" => format!("int64_t {name}"),
                    "bool" => format!("bool {name}"),
                    of => words_array(
                        name,
                        of.strip_prefix("*mut ").expect("a type of the interface"),
                    ),
                }
            });
            (name, parameters.collect())
        })
        .collect()
}

/// `[u64; 7]` as C writes it.
fn words_array(name: &str, of: &str) -> String {
    let len = of.strip_prefix("[u64; ").and_then(|l| l.strip_suffix(']'));
    format!("uint64_t {name}[{}]", len.expect("an array of words"))
}

/// `pub extern "C" fn amv_check(file: &[u8], out: &mut [u64; 6]) -> u32`: a slice is a pointer and a length.
fn of_source() -> Functions {
    let text = without(&read("crates/capi_c/src/lib.rt"), "//", "\n");
    let functions = declarations(&text, "pub extern \"C\" fn amv_").into_iter();
    functions
        .map(|(name, parameters, after)| {
            assert!(after.starts_with("-> u32 "), "{name} returns {after}");
            let parameters = parameters.iter().flat_map(|p| {
                let (name, of) = p.split_once(": ").expect("a parameter has a type");
                // The lengths of a file, of a sound block and of the buffer to write to are called `len`, of tags `count`. A register block
                // is lent to be changed, and a sound block is not.
                let len = match (name, of) {
                    ("file" | "buf", _) | ("block", "&[u8]") => "size_t len".to_string(),
                    ("tags", _) => "size_t count".to_string(),
                    (name, _) => format!("size_t {name}_len"),
                };
                match of {
                    "&[u8]" => vec![format!("const uint8_t *{name}"), len],
                    "&[u32]" => vec![format!("const uint32_t *{name}"), len],
                    "&mut [u8]" => vec![format!("uint8_t *{name}"), len],
                    "&mut [i16]" => vec![format!("int16_t *{name}"), len],
                    "u64" => vec![format!("uint64_t {name}")],
                    "u32" => vec![format!("uint32_t {name}")],
                    "i64" => vec![format!("int64_t {name}")],
                    "bool" => vec![format!("bool {name}")],
                    of => vec![words_array(
                        name,
                        of.strip_prefix("&mut ").expect("a type of the interface"),
                    )],
                }
            });
            (name, parameters.collect())
        })
        .collect()
}

#[test]
fn header_binding_and_source_agree() {
    let source = of_source();
    assert_eq!(source.len(), 14, "the functions of the interface");
    assert_eq!(
        of_header(),
        source,
        "include/amv.h and crates/capi_c/src/lib.rt"
    );
    assert_eq!(
        of_binding(),
        source,
        "src/sys.rs and crates/capi_c/src/lib.rt"
    );
}

/// Number, name, question and place of a refusal.
type Row = (u32, String, String, String);

/// The rows of a list of `(number, name, "question", "place")`, after a word.
fn rows_of(text: &str, word: &str, prefix: &str) -> Vec<Row> {
    let flat = words(text);
    flat.split(word)
        .skip(1)
        .map(|row| {
            let mut quoted = row.split('"');
            let (number, name) = quoted
                .next()
                .and_then(|before| before.trim().trim_end_matches(',').split_once(", "))
                .expect("a row has a number and a name");
            let question = quoted.next().expect("a row has a question");
            let place = quoted.nth(1).expect("a row has a place");
            let name = name.trim().strip_prefix(prefix).expect("a name's prefix");
            let number = number.trim().parse().expect("a row's number");
            (number, name.into(), question.into(), place.into())
        })
        .collect()
}

fn refusals_of_header() -> Vec<Row> {
    let text = header();
    let (_, list) = text
        .split_once("#define AMV_REFUSALS(ROW)")
        .expect("the list");
    let (list, _) = list.split_once("#define").expect("the list ends");
    rows_of(list, "ROW(", "AMV_ERROR_")
}

fn refusals_of_binding() -> Vec<Row> {
    let text = without(&read("bindings/rust/src/refusals.rs"), "//", "\n");
    let (_, list) = text.split_once("refusals! {").expect("the list");
    rows_of(list, "(", "")
}

/// `| 60 | `ChunkCut` | Is the chunk whole ..? | the chunk's offset |`
fn refusals_of_format() -> Vec<Row> {
    let text = read("docs/FORMAT.md");
    text.lines()
        .filter_map(|line| {
            let cells: Vec<_> = line.split('|').map(str::trim).collect();
            let [_, number, name, question, place, _] = cells[..] else {
                return None;
            };
            let number = number.parse().ok()?;
            let name = upper(name.strip_prefix('`')?.strip_suffix('`')?);
            Some((number, name, question.into(), place.into()))
        })
        .collect()
}

/// `ChunkCut` as `CHUNK_CUT`.
fn upper(name: &str) -> String {
    let mut upper = String::new();
    for (i, letter) in name.chars().enumerate() {
        if i > 0 && letter.is_uppercase() {
            upper.push('_');
        }
        upper.push(letter.to_ascii_uppercase());
    }
    upper
}

/// `AmvError::ChunkCut(place) => Refusal { number: 60, place },`: number, name, and the place where it is one number. The number of a
/// state that is no state is the C interface's own.
fn refusals_of_source() -> Vec<(u32, String, Option<String>)> {
    let text = words(&without(&read("crates/error/src/lib.rt"), "//", "\n"));
    let cases = text.split("AmvError::").filter_map(|case| {
        let (name, refusal) = case.split_once(" => Refusal { number: ")?;
        let (number, place) = refusal.split_once(',')?;
        let place = place.trim().strip_prefix("place: ").unwrap_or("");
        let place = place.split([',', ' ']).next().expect("a place");
        let fixed = place.parse::<u64>().is_ok().then(|| place.to_string());
        let name = name.split('(').next().expect("a name");
        Some((number.parse().expect("a number"), upper(name), fixed))
    });
    let capi = read("crates/capi/src/lib.rt");
    let illegal = capi
        .split_once("const ILLEGAL_STATE: u32 = ")
        .and_then(|(_, rest)| rest.split(';').next())
        .expect("the number of an illegal state");
    let illegal = (
        illegal.parse().expect("a number"),
        "ILLEGAL_STATE".to_string(),
        Some("0".to_string()),
    );
    std::iter::once(illegal).chain(cases).collect()
}

#[test]
fn refusals_agree() {
    let header = refusals_of_header();
    assert_eq!(header.len(), 46, "the refusals");
    assert_eq!(refusals_of_binding(), header, "refusals.rs and amv.h");
    assert_eq!(refusals_of_format(), header, "docs/FORMAT.md and amv.h");
    let by_source: Vec<_> = header
        .into_iter()
        .map(|(number, name, _, place)| {
            let fixed = place.parse::<u64>().is_ok().then_some(place);
            (number, name, fixed)
        })
        .collect();
    assert_eq!(by_source, refusals_of_source(), "amv.h and crates/error");
}

/// The header's names that begin with one of these, with their numbers.
fn header_numbers_of(beginnings: &[&str]) -> BTreeMap<String, u64> {
    let begins = |name: &String| beginnings.iter().any(|b| name.starts_with(b));
    let numbers = header_numbers().into_iter();
    numbers.filter(|(name, _)| begins(name)).collect()
}

/// `pub mod status { pub const END: u8 = 2; }` as the header writes it: `AMV_STATUS_END`, 2.
fn registers_of_binding() -> BTreeMap<String, u64> {
    let text = without(&read("bindings/rust/src/registers.rs"), "//", "\n");
    let modules = text.split("pub mod ").skip(1).map(words);
    let constants = modules.flat_map(|module| {
        let (of, constants) = module.split_once(" {").expect("a module's name");
        let constants = constants.split("pub const ").skip(1).map(|constant| {
            let (name, number) = constant.split_once(": ").expect("a constant's name");
            let number = number.split(['=', ';']).nth(1).map(str::trim);
            let number = number.and_then(|n| n.parse().ok()).expect("its number");
            (format!("AMV_{}_{name}", of.to_uppercase()), number)
        });
        constants.collect::<Vec<_>>()
    });
    constants.collect()
}

/// The rows of a table of the register block: the first byte in the first cell, the register's name in the second. The free bytes have no name.
fn registers_of_table<'a>(rows: impl Iterator<Item = Vec<&'a str>>) -> BTreeMap<String, u64> {
    rows.filter_map(|cells| {
        let [bytes, name, ..] = cells[..] else {
            return None;
        };
        let first = bytes.split([' ', ',']).next()?.parse().ok()?;
        let name = name.trim_matches('*').to_uppercase();
        (name != "FREE").then(|| (format!("AMV_REGISTER_{name}"), first))
    })
    .collect()
}

/// ` *     0        command       controller  ..`
fn registers_of_header_table() -> BTreeMap<String, u64> {
    let text = read("include/amv.h");
    let (_, table) = text.split_once("/* The register block,").expect("the map");
    let (table, _) = table.split_once("*/").expect("the map ends");
    let rows = table.lines().map(|line| {
        let line = line.trim_start_matches([' ', '*']);
        line.split("  ")
            .filter(|cell| !cell.is_empty())
            .map(str::trim)
    });
    registers_of_table(rows.map(Iterator::collect))
}

/// `| 0 | **command** | .. |`
fn registers_of_format() -> BTreeMap<String, u64> {
    let text = read("docs/FORMAT.md");
    let mut sections = text.split("\n## ");
    let section = sections.find(|s| s.starts_with("17 ")).expect("section 17");
    let rows = section.lines().filter_map(|line| line.strip_prefix('|'));
    registers_of_table(rows.map(|row| row.split('|').map(str::trim).collect()))
}

#[test]
fn registers_agree() {
    let header = header_numbers_of(&["AMV_REGISTER_", "AMV_COMMAND_", "AMV_STATUS_"]);
    assert_eq!(header.len(), 16, "the names of the register block");
    assert_eq!(registers_of_binding(), header, "registers.rs and amv.h");
    let mut starts = header_numbers_of(&["AMV_REGISTER_"]);
    starts.remove("AMV_REGISTER_BLOCK_LEN");
    assert_eq!(registers_of_header_table(), starts, "the map in amv.h");
    assert_eq!(registers_of_format(), starts, "the map in docs/FORMAT.md");
    for (name, number) in &header {
        let constant = register_constant(name);
        let source = source_number("crates/registers/src/lib.rt", &constant);
        assert_eq!(source, *number, "{name}");
    }
}

/// The constant of the source that has the number of a name of the header: those of a register are lengths, the others bytes.
fn register_constant(name: &str) -> String {
    let length = name.strip_prefix("AMV_REGISTER_");
    let byte = name
        .strip_prefix("AMV_COMMAND_")
        .or(name.strip_prefix("AMV_STATUS_"));
    match (length, byte) {
        (Some("BLOCK_LEN"), _) => "const LEN: usize =".to_string(),
        (Some(register), _) => format!("const {register}: usize ="),
        (None, byte) => format!("const {}: u8 =", byte.expect("a command or a bit")),
    }
}

/// The number of a constant in a text of the source.
fn source_number(path: &str, constant: &str) -> u64 {
    let text = read(path);
    let (_, rest) = text.split_once(constant).expect("the constant");
    let number = rest.split([';', ' ']).find(|word| !word.is_empty());
    let number = number.expect("its number").replace('_', "");
    let hex = number.strip_prefix("0x");
    hex.map_or_else(|| number.parse(), |hex| u64::from_str_radix(hex, 16))
        .expect("a number")
}

#[test]
fn version_and_limits_agree() {
    let text = header();
    let version = text.split("#define AMV_VERSION \"").nth(1);
    let version = version.and_then(|rest| rest.split('"').next());
    assert_eq!(version, Some(env!("CARGO_PKG_VERSION")));
    let numbers = header_numbers();
    for (name, path, constant) in [
        (
            "AMV_FILE_LIMIT",
            "crates/fields/src/file.rt",
            "const FILE_LIMIT: u64 =",
        ),
        (
            "AMV_PRELUDE_LEN",
            "crates/prelude/src/prelude.rt",
            "const LEN: usize =",
        ),
        (
            "AMV_DURATION_MAX_SECONDS",
            "crates/duration/src/lib.rt",
            "const MAX_SECONDS: u64 =",
        ),
        (
            "AMV_ENTRY_LEN",
            "crates/chunk_index/src/entry.rt",
            "const LEN: usize =",
        ),
        (
            "AMV_PAGE_COLUMNS",
            "crates/page/src/lib.rt",
            "const COLUMNS: usize =",
        ),
        (
            "AMV_BLOCK_NIBBLES",
            "crates/parse/src/preamble.rt",
            "const AMV_AUDIO_PREAMBLE_LEN: u64 =",
        ),
        (
            "AMV_VIDEO_CHUNK_TAG",
            "crates/chunk/src/lib.rt",
            "const VIDEO_CHUNK_TAG: u32 =",
        ),
        (
            "AMV_AUDIO_CHUNK_TAG",
            "crates/chunk/src/lib.rt",
            "const AUDIO_CHUNK_TAG: u32 =",
        ),
    ] {
        assert_eq!(numbers[name], source_number(path, constant), "{name}");
    }
}
