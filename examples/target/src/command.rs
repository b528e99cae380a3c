//! The data of a command, on its way to the target and to the initiator.

use crate::keys::Keys;
use crate::pdu::{opcode, place, Header, Pdu, FINAL, NO_TAG, READ, WRITE};
use disk::{Outcome, Sense};

/// The Data-Ins of a command, one after the other. Their headers have no numbers of the session's yet.
#[derive(Default)]
pub struct DataIns {
    tag: u32,
    /// How much data goes out: what there is, or as much of it as the initiator has room for.
    end: usize,
    max_burst: usize,
    longest_data: usize,
    offset: usize,
    next_data_sn: u32,
}

impl DataIns {
    /// Those that bring so much data, in segments that are no longer than the initiator takes.
    pub fn new(command: &Header, length: usize, keys: &Keys, longest_data: usize) -> DataIns {
        let (end, max_burst) = (length.min(command.data_length(READ)), keys.max_burst as usize);
        DataIns { tag: command.tag(), end, max_burst, longest_data, offset: 0, next_data_sn: 0 }
    }

    /// How long the next one is. None goes beyond its burst.
    fn length(&self) -> usize {
        self.longest_data.min(self.max_burst - self.offset % self.max_burst).min(self.end - self.offset)
    }

    /// The next one, which stays the next one until `advance`.
    pub fn peek(&self) -> Option<Header> {
        (self.offset < self.end).then(|| {
            let end = self.offset + self.length();
            let is_final = end == self.end || end % self.max_burst == 0;
            let mut header = Header::new(opcode::DATA_IN, if is_final { FINAL } else { 0 }, self.tag);
            header.set_length(self.length());
            header.set(place::TRANSFER_TAG, NO_TAG);
            header.set(place::DATA_SN, self.next_data_sn);
            header.set(place::OFFSET, self.offset as u32);
            header
        })
    }

    pub fn advance(&mut self) {
        self.offset += self.length();
        self.next_data_sn += 1;
    }
}

/// Puts into the library's SCSI Response what the library doesn't know: the residual count, and the unit's sense data.
pub fn complete_response(response: &mut Pdu, command: &Header, outcome: &Outcome) {
    // Data that the CDB moves in a direction that the command's bits don't allow isn't moved at all.
    let (room, ready) = (command.data_length(READ), command.data_length(WRITE));
    let expected = match outcome.data.is_empty() {
        _ if outcome.length == 0 => room.max(ready),
        true => ready,
        false => room,
    };
    // The O bit and the U bit.
    response.header.0[1] |= u8::from(outcome.length > expected) << 2 | u8::from(outcome.length < expected) << 1;
    response.header.set(place::RESIDUAL, outcome.length.abs_diff(expected) as u32);
    if let Some(sense) = outcome.sense {
        let data = sense.data();
        response.data = [&(data.len() as u16).to_be_bytes()[..], &data].concat();
    }
}

/// The data of one command on its way to the target, in its order: immediate data, and then what the target asks for.
#[derive(Default)]
pub struct Transfer {
    /// What came.
    data: Vec<u8>,
    /// How many bytes the command takes.
    wanted: usize,
    /// The transfer tag of the burst that is under way, and up to where it brings data.
    burst: Option<(u32, usize)>,
    next_data_sn: u32,
    next_r2t_sn: u32,
    is_wrong: bool,
}

impl Transfer {
    /// Of a SCSI Command that takes `wanted` bytes, with this immediate data, which is no longer than `first_burst`.
    pub fn new(header: &Header, data: Vec<u8>, wanted: usize, first_burst: usize) -> Transfer {
        let is_wrong = data.len() > header.data_length(WRITE).min(first_burst);
        Transfer { data, wanted, is_wrong, ..Transfer::default() }
    }

    /// Whether the burst with this transfer tag is under way.
    pub fn awaits(&self, transfer_tag: u32) -> bool {
        self.burst.is_some_and(|(tag, _)| tag == transfer_tag)
    }

    /// Takes a Data-Out. One that isn't the next part of its burst spoils the transfer. The final one ends the burst.
    pub fn take(&mut self, data_out: &Pdu) {
        let header = &data_out.header;
        let end = self.data.len() + data_out.data.len();
        let is_next = self.burst.is_some_and(|(tag, burst_end)| {
            tag == header.number(place::TRANSFER_TAG)
                && end <= burst_end
                && (end == burst_end || !header.is_final())
                && header.number(place::OFFSET) as usize == self.data.len()
                && header.number(place::DATA_SN) == self.next_data_sn
        });
        self.is_wrong |= !is_next;
        if !self.is_wrong {
            self.data.extend_from_slice(&data_out.data);
        }
        self.next_data_sn = self.next_data_sn.wrapping_add(1);
        self.burst = self.burst.filter(|_| !header.is_final());
    }

    /// Begins the next burst of a command, and gives the header of its R2T. `None`: it needs no more data.
    pub fn ask(&mut self, command: &Header, transfer_tag: u32, max_burst: usize) -> Option<Header> {
        let offset = self.data.len();
        if self.is_wrong || offset >= self.wanted {
            return None;
        }
        let length = (self.wanted - offset).min(max_burst);
        let mut header = Header::new(opcode::R2T, FINAL, command.tag());
        header.0[8..16].copy_from_slice(&command.0[8..16]);
        header.set(place::TRANSFER_TAG, transfer_tag);
        header.set(place::DATA_SN, self.next_r2t_sn);
        header.set(place::OFFSET, offset as u32);
        header.set(place::ASKED_LENGTH, length as u32);
        self.data.reserve_exact(self.wanted - offset);
        self.burst = Some((transfer_tag, offset + length));
        self.next_data_sn = 0;
        self.next_r2t_sn += 1;
        Some(header)
    }

    /// What came. An error where some of it was not what had to come.
    pub fn data(self) -> Result<Vec<u8>, Sense> {
        (!self.is_wrong).then_some(self.data).ok_or(Sense::WRONG_DATA)
    }
}
