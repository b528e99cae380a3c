//! PDUs: their headers, and how they come from a stream (RFC 7143 section 11.2). Without digests.

use std::io::{self, ErrorKind, Read};

/// The opcodes that the target names.
pub mod opcode {
    pub const NOP_OUT: u8 = 0x00;
    pub const SCSI_COMMAND: u8 = 0x01;
    pub const LOGIN: u8 = 0x03;
    pub const TEXT: u8 = 0x04;
    pub const DATA_OUT: u8 = 0x05;
    pub const LOGOUT: u8 = 0x06;
    pub const NOP_IN: u8 = 0x20;
    pub const SCSI_RESPONSE: u8 = 0x21;
    pub const LOGIN_RESPONSE: u8 = 0x23;
    pub const TEXT_RESPONSE: u8 = 0x24;
    pub const DATA_IN: u8 = 0x25;
    pub const R2T: u8 = 0x31;
    pub const REJECT: u8 = 0x3f;
}

/// The places of the numbers that stand in headers.
pub mod place {
    /// That of additional header segments, by words, and that of the data segment.
    pub const LENGTHS: usize = 4;
    pub const ISID: usize = 8;
    pub const TSIH: usize = 14;
    pub const TAG: usize = 16;
    pub const CID: usize = 20;
    pub const EXPECTED_LENGTH: usize = 20;
    pub const TRANSFER_TAG: usize = 20;
    pub const CMD_SN: usize = 24;
    pub const STAT_SN: usize = 24;
    pub const EXP_CMD_SN: usize = 28;
    pub const MAX_CMD_SN: usize = 32;
    pub const CDB: usize = 32;
    pub const STATUS: usize = 36;
    pub const DATA_SN: usize = 36;
    pub const OFFSET: usize = 40;
    pub const RESIDUAL: usize = 44;
    pub const ASKED_LENGTH: usize = 44;
}

/// Bits of byte 1.
pub const FINAL: u8 = 0x80;
pub const READ: u8 = 0x40;
pub const WRITE: u8 = 0x20;

/// The tag that names no task, and no transfer.
pub const NO_TAG: u32 = 0xffff_ffff;

/// The longest data segment that the target takes.
pub const LONGEST_DATA: usize = 262_144;

/// A basic header segment.
#[derive(Clone, Copy, Debug, PartialEq, Eq)]
pub struct Header(pub [u8; 48]);

impl Default for Header {
    fn default() -> Header {
        Header([0; 48])
    }
}

impl Header {
    pub fn new(opcode: u8, flags: u8, tag: u32) -> Header {
        let mut header = Header([0; 48]);
        header.0[..2].copy_from_slice(&[opcode, flags]);
        header.set(place::TAG, tag);
        header
    }

    pub fn opcode(&self) -> u8 {
        self.0[0] & 0x3f
    }

    pub fn is_final(&self) -> bool {
        self.0[1] & FINAL != 0
    }

    pub fn number(&self, at: usize) -> u32 {
        u32::from_be_bytes(self.part(at))
    }

    pub fn set(&mut self, at: usize, number: u32) {
        self.0[at..at + 4].copy_from_slice(&number.to_be_bytes());
    }

    /// So many bytes from a place on.
    pub fn part<const N: usize>(&self, at: usize) -> [u8; N] {
        std::array::from_fn(|index| self.0[at + index])
    }

    pub fn tag(&self) -> u32 {
        self.number(place::TAG)
    }

    fn additional_length(&self) -> usize {
        usize::from(self.0[place::LENGTHS]) * 4
    }

    /// How long the data segment is, without the bytes that pad it.
    pub fn length(&self) -> usize {
        (self.number(place::LENGTHS) & 0x00ff_ffff) as usize
    }

    /// With a data segment that is so long, and no additional header segments.
    pub fn set_length(&mut self, length: usize) {
        self.set(place::LENGTHS, length as u32 & 0x00ff_ffff);
    }

    /// How much data the initiator of a SCSI Command with this bit, `READ` or `WRITE`, has room for or has ready.
    pub fn data_length(&self, bit: u8) -> usize {
        let is_meant = self.opcode() == opcode::SCSI_COMMAND && self.0[1] & bit != 0;
        usize::from(is_meant) * self.number(place::EXPECTED_LENGTH) as usize
    }

    pub fn short(&self, at: usize) -> u16 {
        u16::from_be_bytes(self.part(at))
    }
}

/// A PDU: its header, and its data segment without the bytes that pad it.
#[derive(Clone, Debug, Default, PartialEq, Eq)]
pub struct Pdu {
    pub header: Header,
    pub data: Vec<u8>,
}

impl Pdu {
    /// Whether these bytes begin with a whole PDU.
    pub fn is_whole(bytes: &[u8]) -> bool {
        bytes.first_chunk().is_some_and(|header| {
            let header = Header(*header);
            bytes.len() >= header.0.len() + header.additional_length() + header.length().next_multiple_of(4)
        })
    }

    /// The next PDU of a stream, with a data segment that is no longer than this. `None` at the stream's end.
    /// Additional header segments are passed over.
    pub fn read(stream: &mut impl Read, longest_data: usize) -> io::Result<Option<Pdu>> {
        let mut header = Header([0; 48]);
        if stream.read(&mut header.0[..1])? == 0 {
            return Ok(None);
        }
        stream.read_exact(&mut header.0[1..])?;
        let length = header.length();
        if length > longest_data {
            return Err(io::Error::new(ErrorKind::InvalidData, "a data segment that is too long"));
        }
        stream.read_exact(&mut vec![0; header.additional_length()])?;
        let mut data = vec![0; length.next_multiple_of(4)];
        stream.read_exact(&mut data)?;
        data.truncate(length);
        Ok(Some(Pdu { header, data }))
    }

    /// What goes on the wire, with the length of the data segment in the header.
    pub fn to_bytes(&self) -> Vec<u8> {
        let mut header = self.header;
        header.set_length(self.data.len());
        let mut bytes = [&header.0[..], &self.data].concat();
        bytes.resize(bytes.len().next_multiple_of(4), 0);
        bytes
    }
}
