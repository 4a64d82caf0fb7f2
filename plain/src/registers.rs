//! The register block (docs/FORMAT.md, 17): 16 bytes through which a controller drives a reader.

use crate::{Answer, Packet, Refusal, Walker, ask, next_packet, refuse, seek_to_via_index};

/// The length of a register block.
pub const REGISTERS: usize = 16;

const COMMAND: usize = 0;
const STATUS: usize = 1;
const ENABLE: usize = 2;
const PENDING: usize = 3;
const ACKNOWLEDGE: usize = 4;
const REFUSAL: usize = 5;
const REQUEST: usize = 8;

/// The greatest command.
const SEEK_SOUND: u8 = 3;

/// What the read or seek of a step gave; nothing of all this for the command 0.
#[derive(Default)]
struct Given {
    packet: Option<Packet>,
    stamp: Option<u64>,
    /// The number of its refusal, or 0.
    refusal: u8,
}

impl Given {
    fn refused(refusal: Refusal) -> Self {
        Self {
            refusal: refusal.number as u8,
            ..Self::default()
        }
    }
}

/// Acknowledges, performs the command of the block on the walker, and writes the block anew; gives the packet of its read. Refuses with 74
/// and 75. A read or a seek that is refused shows in the block alone.
#[inline(always)]
pub fn register_step(
    file: &[u8],
    table: &[u8],
    walker: &mut Walker,
    block: &mut [u8],
) -> Answer<Option<Packet>> {
    let Ok(block) = <&mut [u8; REGISTERS]>::try_from(block) else {
        return refuse(74, 0);
    };
    ask(block[COMMAND] <= SEEK_SOUND, 75, 0)?;
    let given = perform(file, table, walker, block);
    let status = u8::from(given.packet.is_some())
        | u8::from(walker.end) << 1
        | u8::from(walker.cut) << 2
        | u8::from(given.refusal != 0) << 3;
    let raised = block[ENABLE] & !block[STATUS] & status;
    block[PENDING] = block[PENDING] & !block[ACKNOWLEDGE] | raised;
    block[STATUS] = status;
    block[COMMAND] = 0;
    block[ACKNOWLEDGE] = 0;
    block[REFUSAL] = given.refusal;
    if let Some(stamp) = given.stamp {
        block[REQUEST..].copy_from_slice(&stamp.to_le_bytes());
    }
    Ok(given.packet)
}

/// The read or seek that the block asks for, if it asks for one.
#[inline(always)]
fn perform(file: &[u8], table: &[u8], walker: &mut Walker, block: &[u8; REGISTERS]) -> Given {
    match block[COMMAND] {
        0 => Given::default(),
        1 => match next_packet(file, walker) {
            Ok(packet) => Given {
                packet,
                stamp: packet.map(|packet| packet.stamp),
                refusal: 0,
            },
            Err(refusal) => Given::refused(refusal),
        },
        seek => {
            let request = i64::from_le_bytes(block[REQUEST..].try_into().unwrap());
            match seek_to_via_index(table, walker, u32::from(seek - 2), request) {
                Ok(stamp) => Given {
                    stamp: Some(stamp),
                    ..Given::default()
                },
                Err(refusal) => Given::refused(refusal),
            }
        }
    }
}
