//! Answers of a register step, which the original does not have: each is written out here from docs/FORMAT.md, section 17, and stored only
//! if the plain implementation answers the same.

use plain::words::WalkerWords;

use super::stated::{FRESH, LAST, NOT_MET, OVER, call_of, example_with, index_of};
use super::{Call, Cases, REGISTER_STEP};
use crate::files;
use crate::interface::PLAIN;
use crate::said::{Said, accepted, refused};

/// A file and a table.
type Lent<'a> = (&'a [u8], &'a [u8]);

/// What a step finds or leaves: the walker; command, status, enable, pending, acknowledge and refusal; the request.
type Stand = (WalkerWords, [u8; 6], i64);

/// An accepted step, and the words of its packet.
struct Step {
    given: Stand,
    packet: [u64; 6],
    left: Stand,
}

const NONE: [u64; 6] = [0; 6];

/// The block of a stand. Its free bytes are the same before and after a step.
fn block(registers: [u8; 6], request: i64) -> Vec<u8> {
    [&registers[..], &[106, 107], &request.to_le_bytes()].concat()
}

/// A step on a walker and a block, and the two after it.
fn register_step(
    cases: &mut Cases,
    (file, table): Lent,
    (walker, block): (WalkerWords, &[u8]),
    stated: Said<7>,
    left: (WalkerWords, &[u8]),
) {
    let (mut walker_after, mut block_after) = (walker, block.to_vec());
    let said = PLAIN.register_step(file, table, &mut walker_after, &mut block_after);
    assert_eq!(
        (said, (walker_after, &block_after[..])),
        (stated, left),
        "{walker:?} {block:?}"
    );
    let bytes = [file, table].concat();
    let call = Call {
        lent: block,
        parameters: [file.len() as u64, 0, 0],
        state: &walker,
        ..call_of(REGISTER_STEP, &bytes)
    };
    let words = [&stated.out[..], &left.0[..]].concat();
    cases.add(call, stated.number.into(), &words, left.1);
}

fn accept(cases: &mut Cases, lent: Lent, steps: &[Step]) {
    for step in steps {
        let (walker, registers, request) = step.given;
        let (walker_left, registers_left, request_left) = step.left;
        register_step(
            cases,
            lent,
            (walker, &block(registers, request)),
            accepted(&step.packet),
            (walker_left, &block(registers_left, request_left)),
        );
    }
}

/// A refused step, at place 0: every word of the walker and every byte of the block stays.
fn refuse(cases: &mut Cases, lent: Lent, walker: WalkerWords, block: &[u8], number: u32) {
    let stand = (walker, block);
    register_step(cases, lent, stand, refused(number, 0), stand);
}

fn index() -> Vec<u8> {
    index_of((b"00dc", 0), (b"01wb", 0))
}

/// E from a fresh walker: to the picture from -5 on, to the end and once more, to the sound from 1 on, of which there is none, to the picture,
/// and no command.
fn run(cases: &mut Cases) {
    let steps = [
        Step {
            given: (FRESH, [2, 4, 15, 144, 17, 43], -5),
            packet: NONE,
            left: (FRESH, [0, 0, 15, 128, 0, 0], 0),
        },
        Step {
            given: (FRESH, [1, 0, 15, 128, 5, 0], 9),
            packet: [1, 0, 324, 3, 0, 1],
            left: ([327, 1, 0, 0, 0, 0, NOT_MET], [0, 1, 15, 129, 0, 0], 0),
        },
        Step {
            given: ([327, 1, 0, 0, 0, 0, NOT_MET], [1, 1, 14, 129, 128, 0], 300),
            packet: [1, 1, 335, 10, 0, 2],
            left: ([345, 1, 2, 1, 0, 0, NOT_MET], [0, 1, 14, 1, 0, 0], 0),
        },
        Step {
            given: ([345, 1, 2, 1, 0, 0, NOT_MET], [1, 1, 14, 1, 0, 0], 300),
            packet: NONE,
            left: ([345, 1, 2, 1, 1, 0, 345], [0, 2, 14, 3, 0, 0], 300),
        },
        Step {
            given: ([345, 1, 2, 1, 1, 0, 345], [1, 2, 14, 3, 2, 0], 300),
            packet: NONE,
            left: ([345, 1, 2, 1, 1, 0, 345], [0, 2, 14, 1, 0, 0], 300),
        },
        Step {
            given: ([345, 1, 2, 1, 1, 0, 345], [3, 2, 14, 1, 1, 0], 1),
            packet: NONE,
            left: ([335, 1, 0, 1, 1, 0, 345], [0, 2, 14, 0, 0, 0], 0),
        },
        Step {
            given: ([335, 1, 0, 1, 1, 0, 345], [2, 2, 14, 8, 4, 0], 0),
            packet: NONE,
            left: ([316, 0, 0, 0, 0, 0, 345], [0, 0, 14, 8, 0, 0], 0),
        },
        Step {
            given: ([316, 0, 0, 0, 0, 0, 345], [0, 1, 14, 8, 12, 9], 77),
            packet: NONE,
            left: ([316, 0, 0, 0, 0, 0, 345], [0, 0, 14, 0, 0, 0], 77),
        },
    ];
    accept(cases, (&files::example(), &index()), &steps);
}

/// Each command with all bits of status and of enable, and with none; pending is 60 and acknowledge 86, which leaves 40.
fn commands(cases: &mut Cases) {
    let given = [316, 5, 6, 7, 0, 1, 9];
    // The command, the request before and after; the packet, the walker after; status, and pending where all its bits rise.
    let rows = [
        (0, -7, -7, NONE, given, 4, 44),
        (
            1,
            -7,
            5,
            [1, 0, 324, 3, 5, 1],
            [327, 6, 6, 7, 0, 1, 9],
            5,
            45,
        ),
        (2, 2, 1, NONE, [335, 1, 0, 1, 1, 1, 9], 6, 46),
        (3, -7, 0, NONE, [327, 1, 0, 0, 0, 1, 9], 4, 44),
    ];
    for (command, request, stamp, packet, left, status, risen) in rows {
        let steps = [(0, 0, 40), (0, 255, risen), (255, 0, 40), (255, 255, 40)].map(
            |(found, enable, pending)| Step {
                given: (given, [command, found, enable, 60, 86, 99], request),
                packet,
                left: (left, [0, status, enable, pending, 0, 0], stamp),
            },
        );
        accept(cases, (&files::example(), &index()), &steps);
    }
}

/// No command, on a walker with both marks: status is 6 after it.
fn interrupts(cases: &mut Cases) {
    let walker = [345, 1, 2, 1, 1, 1, 345];
    // Status, enable, pending, acknowledge; pending after the step.
    let steps = [
        ([0, 2, 0, 0], 2),
        ([0, 4, 0, 0], 4),
        ([0, 249, 0, 0], 0),
        ([2, 255, 0, 0], 4),
        ([4, 255, 1, 0], 3),
        ([249, 255, 0, 0], 6),
        // Acknowledged and risen in one step, not risen, and not enabled.
        ([0, 255, 6, 6], 6),
        ([6, 255, 6, 2], 4),
        ([0, 0, 6, 6], 0),
        // Bits 4 to 7 of pending.
        ([0, 6, 240, 0], 246),
        ([0, 255, 255, 160], 95),
        ([0, 240, 0, 15], 0),
    ]
    .map(|([status, enable, pending, acknowledge], after)| Step {
        given: (walker, [0, status, enable, pending, acknowledge, 75], 1),
        packet: NONE,
        left: (walker, [0, 6, enable, after, 0, 0], 1),
    });
    accept(cases, (&files::example(), &index()), &steps);
}

/// E cut in its block: a read there, once more, and the sound, which leaves cut; and no file at all.
fn cuts(cases: &mut Cases) {
    let steps = [
        Step {
            given: ([327, 1, 0, 0, 0, 0, NOT_MET], [1, 1, 255, 1, 0, 0], 300),
            packet: NONE,
            left: ([327, 1, 0, 0, 1, 1, NOT_MET], [0, 6, 255, 7, 0, 0], 300),
        },
        Step {
            given: ([327, 1, 0, 0, 1, 1, NOT_MET], [1, 6, 255, 7, 4, 0], 300),
            packet: NONE,
            left: ([327, 1, 0, 0, 1, 1, NOT_MET], [0, 6, 255, 3, 0, 0], 300),
        },
        Step {
            given: ([327, 1, 0, 0, 1, 1, NOT_MET], [3, 6, 255, 3, 3, 0], 0),
            packet: NONE,
            left: ([327, 1, 0, 0, 0, 1, NOT_MET], [0, 4, 255, 0, 0, 0], 0),
        },
    ];
    accept(cases, (&files::example()[..344], &index()), &steps);
    let nothing = Step {
        given: (FRESH, [1, 8, 6, 0, 0, 31], 8),
        packet: NONE,
        left: ([316, 0, 0, 0, 1, 1, NOT_MET], [0, 6, 6, 6, 0, 0], 8),
    };
    accept(cases, (&[], &index()), &[nothing]);
}

/// Reads and seeks that are refused in a step that is not.
fn refused_reads_and_seeks(cases: &mut Cases) {
    let (example, index) = (files::example(), index());
    let good = (&example[..], &index[..]);
    let unknown = example_with(316, b'1');
    let unknown = (&unknown[..], &index[..]);
    let bad = index_of((b"00dc", 0), (b"01wc", 0));
    let ended = [316, 0, OVER, 0, 1, 1, 5];
    let cut = [316, 0, 0, OVER, 0, 1, NOT_MET];
    let far = [LAST, 0, 0, 0, 0, 0, NOT_MET];
    // What is lent, the walker, the registers before and after the step, the request.
    for (lent, walker, given, left, request) in [
        (good, far, [1, 0, 255, 8, 8, 31], [0, 8, 255, 8, 0, 32], 300),
        (
            good,
            ended,
            [1, 6, 8, 16, 2, 0],
            [0, 14, 8, 24, 0, 32],
            -300,
        ),
        (good, cut, [2, 8, 255, 3, 1, 41], [0, 12, 255, 6, 0, 32], 5),
        (good, far, [3, 255, 255, 0, 0, 0], [0, 8, 255, 0, 0, 32], -1),
        // Not enabled; once more, where it does not rise; and no command.
        (unknown, FRESH, [1, 0, 7, 64, 0, 0], [0, 8, 7, 64, 0, 31], 9),
        (
            unknown,
            FRESH,
            [1, 8, 15, 64, 65, 31],
            [0, 8, 15, 0, 0, 31],
            9,
        ),
        (unknown, FRESH, [0, 8, 15, 8, 0, 31], [0, 0, 15, 8, 0, 0], 9),
        (
            (&example, &index[..47]),
            FRESH,
            [2, 0, 8, 0, 0, 0],
            [0, 8, 8, 8, 0, 41],
            1,
        ),
        (
            (&example, &bad),
            FRESH,
            [3, 7, 9, 2, 0, 41],
            [0, 8, 9, 10, 0, 43],
            -1,
        ),
    ] {
        let step = Step {
            given: (walker, given, request),
            packet: NONE,
            left: (walker, left, request),
        };
        accept(cases, lent, &[step]);
    }
}

/// A read with a ragged table, a seek with no file, and no command where file, table and walker are wrong.
fn not_asked(cases: &mut Cases) {
    let read = Step {
        given: (FRESH, [1, 2, 255, 0, 0, 41], -1),
        packet: [1, 0, 324, 3, 0, 1],
        left: ([327, 1, 0, 0, 0, 0, NOT_MET], [0, 1, 255, 1, 0, 0], 0),
    };
    accept(cases, (&files::example(), &index()[..47]), &[read]);
    let seek = Step {
        given: (FRESH, [3, 0, 1, 2, 0, 0], -1),
        packet: NONE,
        left: ([327, 1, 0, 0, 0, 0, NOT_MET], [0, 0, 1, 2, 0, 0], 0),
    };
    accept(cases, (&[], &index()), &[seek]);
    let wrong = [OVER, OVER, OVER, OVER, 1, 0, 7];
    let nothing = Step {
        given: (wrong, [0, 8, 15, 1, 3, 32], 7),
        packet: NONE,
        left: (wrong, [0, 2, 15, 2, 0, 0], 7),
    };
    let table = index_of((b"00db", 0), (b"01wc", 0));
    accept(cases, (&example_with(316, b'1'), &table[..47]), &[nothing]);
}

/// Requests and stamps of which no two bytes are equal.
fn wide(cases: &mut Cases) {
    const COUNT: u64 = 72_623_859_790_382_856;
    const STAMP: i64 = i64::from_le_bytes([8, 7, 6, 5, 4, 3, 2, 1]);
    const AFTER: i64 = i64::from_le_bytes([9, 7, 6, 5, 4, 3, 2, 1]);
    const BELOW_0: i64 = i64::from_le_bytes([9, 7, 6, 5, 4, 3, 2, 129]);
    let at_frame = [316, COUNT, 4, 5, 0, 0, NOT_MET];
    let read = Step {
        given: (at_frame, [1, 0, 0, 0, 0, 0], -1),
        packet: [1, 0, 324, 3, COUNT, 1],
        left: (
            [327, COUNT + 1, 4, 5, 0, 0, NOT_MET],
            [0, 1, 0, 0, 0, 0],
            STAMP,
        ),
    };
    accept(cases, (&files::example(), &[]), &[read]);
    let seek = |request, left, status| Step {
        given: (FRESH, [3, 0, 0, 0, 0, 0], request),
        packet: NONE,
        left: (left, [0, status, 0, 0, 0, 0], STAMP),
    };
    let at_block = [327, 1, COUNT, 0, 0, 0, NOT_MET];
    let steps = [
        seek(BELOW_0, at_block, 0),
        seek(STAMP, at_block, 0),
        seek(AFTER, [335, 1, COUNT, 1, 1, 0, NOT_MET], 2),
    ];
    let table = index_of((b"00dc", 0), (b"01wb", COUNT));
    accept(cases, (&files::example(), &table), &steps);
    // No record: the stamp is the walker's count.
    let no_record = Step {
        given: (at_frame, [2, 0, 2, 0, 0, 0], -1),
        packet: NONE,
        left: ([316, COUNT, 4, 5, 1, 0, NOT_MET], [0, 2, 2, 2, 0, 0], STAMP),
    };
    accept(cases, (&files::example(), &[]), &[no_record]);
}

/// Lengths other than 16, and other commands; the order 1, 74, 75: what is asked later has the answer no as well.
fn refused_steps(cases: &mut Cases) {
    let (example, index) = (files::example(), index());
    let ended_by_2 = [316, 0, 0, 0, 2, 0, NOT_MET];
    let cut_by_2 = [316, 0, 0, 0, 0, 2, NOT_MET];
    for (walker, command, length, number) in [
        (FRESH, 1, 0, 74),
        (FRESH, 1, 15, 74),
        (FRESH, 1, 17, 74),
        (FRESH, 4, 16, 75),
        (FRESH, 255, 16, 75),
        (FRESH, 4, 15, 74),
        (FRESH, 255, 17, 74),
        (ended_by_2, 0, 16, 1),
        (cut_by_2, 1, 16, 1),
        (ended_by_2, 4, 16, 1),
        (cut_by_2, 2, 15, 1),
        (ended_by_2, 255, 17, 1),
    ] {
        let mut registers = block([command, 3, 255, 92, 20, 41], 258);
        registers.push(111);
        let registers = &registers[..length];
        refuse(cases, (&example, &index), walker, registers, number);
    }
}

pub fn all(cases: &mut Cases) {
    run(cases);
    commands(cases);
    interrupts(cases);
    cuts(cases);
    refused_reads_and_seeks(cases);
    not_asked(cases);
    wide(cases);
    refused_steps(cases);
}
