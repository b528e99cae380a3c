//! What a CDB means (SPC-4, SBC-3), and what a disk answers to it.

use crate::{Disk, BLOCK};
use std::ops::Range;

/// The most blocks that a command may move.
const MOST_BLOCKS: u64 = 16_384;

/// The most bytes that a command moves.
pub const MOST_BYTES: usize = MOST_BLOCKS as usize * BLOCK;

const GOOD: u8 = 0x00;
const CHECK_CONDITION: u8 = 0x02;

/// Why a command fails: sense key, additional sense code and its qualifier.
#[derive(Clone, Copy, Debug, PartialEq, Eq)]
pub struct Sense(u8, u8, u8);

impl Sense {
    pub const READ_ERROR: Sense = Sense(0x3, 0x11, 0x00);
    pub const WRITE_ERROR: Sense = Sense(0x3, 0x0c, 0x00);
    pub const INVALID_OPCODE: Sense = Sense(0x5, 0x20, 0x00);
    pub const OUT_OF_RANGE: Sense = Sense(0x5, 0x21, 0x00);
    pub const INVALID_FIELD: Sense = Sense(0x5, 0x24, 0x00);
    /// The unit attention: the unit was reset.
    pub const RESET: Sense = Sense(0x6, 0x29, 0x00);
    /// The amount or the order of a command's data is wrong (RFC 7143 section 11.4.7.2).
    pub const WRONG_DATA: Sense = Sense(0xb, 0x0c, 0x0d);
    pub const MISCOMPARE: Sense = Sense(0xe, 0x1d, 0x00);

    /// Sense data in the fixed format.
    pub fn data(self) -> Vec<u8> {
        let Sense(key, code, qualifier) = self;
        vec![0x70, 0, key, 0, 0, 0, 0, 10, 0, 0, 0, 0, code, qualifier, 0, 0, 0, 0]
    }
}

/// What came of a command.
#[derive(Debug)]
pub struct Outcome {
    pub status: u8,
    /// Where there is none, a CHECK CONDITION has the library's.
    pub sense: Option<Sense>,
    /// For the initiator; more of it than it has room for isn't sent.
    pub data: Vec<u8>,
    /// How many bytes the command moves, in either direction, by its CDB.
    pub length: usize,
}

impl Outcome {
    /// Of a command that fails: it moves nothing.
    pub fn failed(sense: Option<Sense>) -> Outcome {
        Outcome { status: CHECK_CONDITION, sense, data: Vec::new(), length: 0 }
    }
}

fn number(bytes: &[u8]) -> u64 {
    bytes.iter().fold(0, |number, byte| number << 8 | u64::from(*byte))
}

/// What a command does with blocks.
#[derive(Clone, Copy, PartialEq, Eq)]
enum Access {
    Read,
    Write,
    WriteAndVerify,
    Verify,
}

fn access(opcode: u8) -> Option<Access> {
    match opcode {
        0x08 | 0x28 | 0x88 | 0xa8 => Some(Access::Read),
        0x0a | 0x2a | 0x8a | 0xaa => Some(Access::Write),
        0x2e | 0x8e | 0xae => Some(Access::WriteAndVerify),
        0x2f | 0x8f | 0xaf => Some(Access::Verify),
        _ => None,
    }
}

/// The bytes of a disk that a CDB is about, by the group of its opcode. Its protection field must be zero, as the units
/// have no protection information.
fn range_of(disk: &Disk, cdb: &[u8; 16]) -> Result<Range<usize>, Sense> {
    let (first, count) = match cdb[0] >> 5 {
        // In 6 bytes no blocks are 256.
        0 => (number(&cdb[1..4]) & 0x1f_ffff, (u64::from(cdb[4]) + 255) % 256 + 1),
        4 => (number(&cdb[2..10]), number(&cdb[10..14])),
        5 => (number(&cdb[2..6]), number(&cdb[6..10])),
        _ => (number(&cdb[2..6]), number(&cdb[7..9])),
    };
    let end = first.checked_add(count).ok_or(Sense::OUT_OF_RANGE)?;
    if end > disk.block_count() || first >= disk.block_count() {
        return Err(Sense::OUT_OF_RANGE);
    }
    if cdb[1] & 0xe0 != 0 || count > MOST_BLOCKS {
        return Err(Sense::INVALID_FIELD);
    }
    Ok(first as usize * BLOCK..end as usize * BLOCK)
}

/// Whether the data that comes with a VERIFY, or with a WRITE AND VERIFY, is compared with the medium.
fn is_compared(cdb: &[u8; 16]) -> Result<bool, Sense> {
    match cdb[1] >> 1 & 0x03 {
        byte_check @ (0 | 1) => Ok(byte_check == 1),
        _ => Err(Sense::INVALID_FIELD),
    }
}

impl Disk {
    /// How many bytes of data a command takes from the initiator, and how many it has for it if it is a READ: none,
    /// where it will fail.
    pub fn lengths(&self, cdb: &[u8; 16]) -> (usize, usize) {
        let length = || range_of(self, cdb).map_or(0, |range| range.len());
        match access(cdb[0]) {
            None => (0, 0),
            Some(Access::Read) => (0, length()),
            Some(Access::Verify) if is_compared(cdb) != Ok(true) => (0, 0),
            Some(_) => (length(), 0),
        }
    }

    /// Executes a command with the data that came for it.
    pub fn execute(&self, cdb: &[u8; 16], data: &[u8]) -> Outcome {
        let answer = match access(cdb[0]) {
            Some(access) => move_blocks(self, cdb, access, data),
            None => answer(self, cdb),
        };
        match answer {
            Ok(data) => Outcome { status: GOOD, sense: None, length: self.lengths(cdb).0.max(data.len()), data },
            Err(sense) => Outcome::failed(Some(sense)),
        }
    }
}

/// Reads, writes or compares. Gives what is read.
fn move_blocks(disk: &Disk, cdb: &[u8; 16], access: Access, data: &[u8]) -> Result<Vec<u8>, Sense> {
    let range = range_of(disk, cdb)?;
    let is_verify = matches!(access, Access::Verify | Access::WriteAndVerify);
    let is_compared = is_verify && is_compared(cdb)?;
    if access == Access::Read {
        return disk.read(range);
    }
    // As many whole blocks as came, which may be fewer than the CDB says, or more.
    let blocks = &data[..data.len().min(range.len()) / BLOCK * BLOCK];
    if access != Access::Verify {
        disk.write(range.start, blocks)?;
        disk.flush()?;
    }
    if is_compared && disk.read(range.start..range.start + blocks.len())? != blocks {
        return Err(Sense::MISCOMPARE);
    }
    Ok(Vec::new())
}

/// The data with which a command is answered that moves no blocks, no more of it than the CDB allows.
fn answer(disk: &Disk, cdb: &[u8; 16]) -> Result<Vec<u8>, Sense> {
    let (last, block) = (disk.block_count() - 1, (BLOCK as u32).to_be_bytes());
    let (mut answer, most) = match (cdb[0], cdb[1] & 0x1f) {
        (0x12, _) => (inquiry(disk, cdb)?, number(&cdb[3..5])),
        // MODE SENSE, of 6 bytes and of 10. The header says that DPO and FUA are taken.
        (0x1a, _) => ([&[15, 0, 0x10, 0], &control_page(cdb)?[..]].concat(), cdb[4].into()),
        (0x5a, _) => ([&[0, 18, 0, 0x10, 0, 0, 0, 0], &control_page(cdb)?[..]].concat(), number(&cdb[7..9])),
        // READ CAPACITY.
        (0x25, _) => ([(last.min(0xffff_ffff) as u32).to_be_bytes(), block].concat(), u64::MAX),
        (0x9e, 0x10) => ([&last.to_be_bytes()[..], &block, &[0; 20]].concat(), number(&cdb[10..14])),
        // TEST UNIT READY, and SYNCHRONIZE CACHE: the units have none.
        (0x00 | 0x35 | 0x91, _) => (Vec::new(), 0),
        (0xa0, _) => (luns(disk), number(&cdb[6..10])),
        (0xa3, 0x0c) => (supported_commands(cdb)?, number(&cdb[6..10])),
        _ => return Err(Sense::INVALID_OPCODE),
    };
    answer.truncate(most as usize);
    Ok(answer)
}

/// The standard INQUIRY data of a disk with command queueing (SAM-5, SPC-4, SBC-3, iSCSI), or a page of vital product
/// data.
fn inquiry(disk: &Disk, cdb: &[u8; 16]) -> Result<Vec<u8>, Sense> {
    let page = cdb[2];
    let serial = [b"RAM0000", &[b'0' + disk.number][..]].concat();
    let body = match (cdb[1] & 0x01, page) {
        (0, 0) => {
            let head = [0x00, 0x00, 0x06, 0x02, 91, 0x00, 0x00, 0x02];
            let product = if disk.is_in_memory() { b"RAM unit        " } else { b"file unit       " };
            let versions = [0x00, 0xa0, 0x04, 0x60, 0x04, 0xc0, 0x09, 0x60];
            return Ok([&head, &b"CUNDARRX"[..], product, b"0001", &[0; 22], &versions, &[0; 30]].concat());
        }
        (1, 0x00) => vec![0x00, 0x80, 0x83, 0xb0],
        (1, 0x80) => serial,
        // Block Limits.
        (1, 0xb0) => [&[0; 4], &(MOST_BLOCKS as u32).to_be_bytes()[..], &[0; 52]].concat(),
        // The names of the unit: one by its vendor, in ASCII, and one of NAA's locally assigned form.
        (1, 0x83) => {
            let naa = [0x01, 0x03, 0x00, 8, 0x30, 0x00, 0x00, 0x00, 0xc0, 0xda, 0x00, disk.number];
            [&[0x02, 0x01, 0x00, 16], &b"CUNDARRX"[..], &serial, &naa].concat()
        }
        _ => return Err(Sense::INVALID_FIELD),
    };
    Ok([&[0x00, page, 0x00, body.len() as u8], &body[..]].concat())
}

/// The Control mode page, as it is, or what of it can be changed, which is nothing. Each session has task sets of its
/// own (TST 1), commands may be reordered, and one that another session took out is answered with TASK ABORTED (TAS).
fn control_page(cdb: &[u8; 16]) -> Result<[u8; 12], Sense> {
    match (cdb[2] >> 6, cdb[2] & 0x3f) {
        (0 | 2, 0x0a | 0x3f) => Ok([0x0a, 10, 0x20, 0x10, 0, 0x40, 0, 0, 0, 0, 0, 0]),
        (1, 0x0a | 0x3f) => Ok([0x0a, 10, 0, 0, 0, 0, 0, 0, 0, 0, 0, 0]),
        _ => Err(Sense::INVALID_FIELD),
    }
}

/// The LUNs of all units.
fn luns(disk: &Disk) -> Vec<u8> {
    let mut data = (u64::from(disk.count) << 35).to_be_bytes().to_vec();
    data.extend((0..disk.count).flat_map(|number| [0, number, 0, 0, 0, 0, 0, 0]));
    data
}

/// The commands that disks know: opcodes, and then, with the service action where there is one, the bits of the CDB
/// behind them that are looked at.
const COMMANDS: [(&[u8], &[u8]); 17] = [
    (&[0x00], &[0, 0, 0, 0, 0]),
    (&[0x08, 0x0a], &[0x1f, 0xff, 0xff, 0xff, 0]),
    (&[0x12], &[0x01, 0xff, 0xff, 0xff, 0]),
    (&[0x1a], &[0x08, 0xff, 0xff, 0xff, 0]),
    (&[0x25], &[0, 0, 0, 0, 0, 0, 0, 0, 0]),
    (&[0x28, 0x2a], &[0xf8, 0xff, 0xff, 0xff, 0xff, 0, 0xff, 0xff, 0]),
    (&[0x2e, 0x2f], &[0xf6, 0xff, 0xff, 0xff, 0xff, 0, 0xff, 0xff, 0]),
    (&[0x35], &[0, 0xff, 0xff, 0xff, 0xff, 0, 0xff, 0xff, 0]),
    (&[0x5a], &[0x08, 0xff, 0xff, 0, 0, 0, 0xff, 0xff, 0]),
    (&[0x88, 0x8a], &[0xf8, 0xff, 0xff, 0xff, 0xff, 0xff, 0xff, 0xff, 0xff, 0xff, 0xff, 0xff, 0xff, 0, 0]),
    (&[0x8e, 0x8f], &[0xf6, 0xff, 0xff, 0xff, 0xff, 0xff, 0xff, 0xff, 0xff, 0xff, 0xff, 0xff, 0xff, 0, 0]),
    (&[0x91], &[0, 0xff, 0xff, 0xff, 0xff, 0xff, 0xff, 0xff, 0xff, 0xff, 0xff, 0xff, 0xff, 0, 0]),
    (&[0x9e], &[0x10, 0, 0, 0, 0, 0, 0, 0, 0, 0xff, 0xff, 0xff, 0xff, 0, 0]),
    (&[0xa0], &[0, 0xff, 0, 0, 0, 0xff, 0xff, 0xff, 0xff, 0, 0]),
    (&[0xa3], &[0x0c, 0x87, 0xff, 0xff, 0xff, 0xff, 0xff, 0xff, 0xff, 0, 0]),
    (&[0xa8, 0xaa], &[0xf8, 0xff, 0xff, 0xff, 0xff, 0xff, 0xff, 0xff, 0xff, 0, 0]),
    (&[0xae, 0xaf], &[0xf6, 0xff, 0xff, 0xff, 0xff, 0xff, 0xff, 0xff, 0xff, 0, 0]),
];

/// Each of them: its opcode, the service action where its opcode has some, and those bits.
fn commands() -> impl Iterator<Item = (u8, Option<u64>, &'static [u8])> {
    let action = |opcode, usage: &[u8]| [0x9e, 0xa3].contains(&opcode).then_some(u64::from(usage[0] & 0x1f));
    COMMANDS
        .iter()
        .flat_map(move |(opcodes, usage)| opcodes.iter().map(move |code| (*code, action(*code, usage), *usage)))
}

/// REPORT SUPPORTED OPERATION CODES: all commands, or how one of them is supported, with their time-outs where these
/// are asked for, of which nothing is said.
fn supported_commands(cdb: &[u8; 16]) -> Result<Vec<u8>, Sense> {
    const TIMEOUTS: [u8; 12] = [0, 10, 0, 0, 0, 0, 0, 0, 0, 0, 0, 0];
    let has_timeouts = cdb[2] & 0x80 != 0;
    let timeouts = if has_timeouts { &TIMEOUTS[..] } else { &[] };
    let (opcode, action) = (cdb[3], number(&cdb[4..6]));
    let has_actions = commands().any(|known| known.0 == opcode && known.1.is_some());
    let wanted = match cdb[2] & 0x07 {
        0 => {
            let list = commands().map(|(opcode, action, usage)| {
                let flags = u8::from(has_timeouts) << 1 | u8::from(action.is_some());
                let length = usage.len() as u8 + 1;
                [&[opcode, 0, 0, action.unwrap_or(0) as u8, 0, flags, 0, length], timeouts].concat()
            });
            let list = list.collect::<Vec<_>>().concat();
            return Ok([&(list.len() as u32).to_be_bytes()[..], &list].concat());
        }
        1 if !has_actions => None,
        2 if has_actions => Some(action),
        3 => has_actions.then_some(action),
        _ => return Err(Sense::INVALID_FIELD),
    };
    let known = commands().find(|known| (known.0, known.1) == (opcode, wanted));
    Ok(known.map_or(vec![0, 1, 0, 0], |(opcode, _, usage)| {
        let support = 0x03 | u8::from(has_timeouts) << 7;
        [&[0, support, 0, usage.len() as u8 + 1, opcode], usage, timeouts].concat()
    }))
}
