//! The data of a command: how it comes, and the residuals.

use disk::Outcome;
use target::command::{complete_response, DataIns, Transfer};
use target::keys::Keys;
use target::pdu::{opcode, place, Header, Pdu, FINAL};

fn write_of(length: u32, flags: u8) -> Header {
    let mut header = Header::new(opcode::SCSI_COMMAND, 0x20 | flags, 9);
    header.set(place::EXPECTED_LENGTH, length);
    header
}

fn data_out(tag: u32, offset: u32, data_sn: u32, flags: u8, data: &[u8]) -> Pdu {
    let mut header = Header::new(opcode::DATA_OUT, flags, 9);
    header.set(place::TRANSFER_TAG, tag);
    header.set(place::OFFSET, offset);
    header.set(place::DATA_SN, data_sn);
    Pdu { header, data: data.to_vec() }
}

/// What the R2T asks for: its offset, its length and its R2TSN.
fn asked(transfer: &mut Transfer, transfer_tag: u32) -> Option<(u32, u32, u32)> {
    let header = transfer.ask(&write_of(40, FINAL), transfer_tag, 16)?;
    assert_eq!((header.opcode(), header.tag(), header.number(place::TRANSFER_TAG)), (opcode::R2T, 9, transfer_tag));
    Some((header.number(place::OFFSET), header.number(place::ASKED_LENGTH), header.number(place::DATA_SN)))
}

#[test]
fn residuals_say_what_was_not_moved() {
    let outcome = |length, data: &[u8]| Outcome { status: 0, sense: None, data: data.to_vec(), length };
    let residual = |header: &Header, outcome: &Outcome| {
        let mut response = Pdu { header: Header::new(opcode::SCSI_RESPONSE, FINAL, 9), data: Vec::new() };
        complete_response(&mut response, header, outcome);
        (response.header.0[1] & !FINAL, response.header.number(place::RESIDUAL))
    };
    let write = write_of(40, FINAL);
    assert_eq!(residual(&write, &outcome(40, &[])), (0, 0));
    assert_eq!(residual(&write, &outcome(30, &[])), (0x02, 10));
    assert_eq!(residual(&write, &outcome(50, &[])), (0x04, 10));
    assert_eq!(residual(&write, &outcome(0, &[])), (0x02, 40));
    assert_eq!(residual(&write, &outcome(30, &[7; 30])), (0x04, 30));
}

#[test]
fn data_comes_with_the_command_and_then_as_it_is_asked_for() {
    let mut transfer = Transfer::new(&write_of(40, FINAL), vec![7; 16], 40, 16);
    assert_eq!(asked(&mut transfer, 5), Some((16, 16, 0)));
    transfer.take(&data_out(5, 16, 0, 0, &[1; 8]));
    assert!(transfer.awaits(5) && !transfer.awaits(6));
    transfer.take(&data_out(5, 24, 1, FINAL, &[2; 8]));
    assert!(!transfer.awaits(5));
    assert_eq!(asked(&mut transfer, 6), Some((32, 8, 1)));
    transfer.take(&data_out(6, 32, 0, FINAL, &[3; 8]));
    assert_eq!(asked(&mut transfer, 7), None);
    assert_eq!(transfer.data(), Ok([vec![7; 16], vec![1; 8], vec![2; 8], vec![3; 8]].concat()));
}

#[test]
fn data_that_is_not_the_next_spoils_the_transfer() {
    for wrong in [
        data_out(5, 4, 0, FINAL, &[7; 16]),
        data_out(5, 0, 1, FINAL, &[7; 16]),
        data_out(6, 0, 0, FINAL, &[7; 16]),
        data_out(5, 0, 0, FINAL, &[7; 20]),
        data_out(5, 0, 0, FINAL, &[7; 12]),
    ] {
        let mut transfer = Transfer::new(&write_of(16, FINAL), Vec::new(), 16, 16);
        assert!(asked(&mut transfer, 5).is_some());
        transfer.take(&wrong);
        assert_eq!(asked(&mut transfer, 6), None);
        assert!(transfer.data().is_err());
    }
}

#[test]
fn immediate_data_is_no_longer_than_the_command_and_the_first_burst_allow() {
    for (length, first_burst, is_right) in [(16, 16, true), (16, 15, false), (40, 65_536, true), (41, 65_536, false)] {
        let mut transfer = Transfer::new(&write_of(40, FINAL), vec![7; length], 40, first_burst);
        assert_eq!(asked(&mut transfer, 5).is_some(), is_right && length < 40, "{length} of {first_burst}");
        assert_eq!(transfer.data().is_ok(), is_right, "{length} of {first_burst}");
    }
}

#[test]
fn data_goes_out_in_parts_that_end_with_their_bursts() {
    let parts = |length, longest, max_burst, expected| -> Vec<(u32, usize, u32, bool)> {
        let mut read = Header::new(opcode::SCSI_COMMAND, 0x40 | FINAL, 9);
        read.set(place::EXPECTED_LENGTH, expected);
        let keys = Keys { max_burst, ..Keys::default() };
        let mut data_ins = DataIns::new(&read, length, &keys, longest);
        let mut headers = Vec::new();
        while let Some(header) = data_ins.peek() {
            assert_eq!((header.opcode(), header.tag()), (opcode::DATA_IN, 9));
            headers.push(header);
            data_ins.advance();
        }
        let part = |header: &Header| {
            (header.number(place::OFFSET), header.length(), header.number(place::DATA_SN), header.is_final())
        };
        headers.iter().map(part).collect()
    };
    assert_eq!(parts(40, 20, 32, 44), [(0, 20, 0, false), (20, 12, 1, true), (32, 8, 2, true)]);
    assert_eq!(parts(40, 64, 32, 44), [(0, 32, 0, true), (32, 8, 1, true)]);
    // More than the initiator has room for isn't sent.
    assert_eq!(parts(50, 64, 32, 44), [(0, 32, 0, true), (32, 12, 1, true)]);
    assert_eq!(parts(0, 64, 32, 44), []);
}
