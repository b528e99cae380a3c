//! The fields of requests: where each stands (RFC 7143 sections 11.2 to 11.16), and that it is read as it was set.

use cundarrix::{Attribute, Function, LogoutReason, Opcode, Request};

/// The bytes of a request that aren't zero, with their places.
fn set_in(request: &Request) -> Vec<(usize, u8)> {
    request.iter().copied().enumerate().filter(|(_, byte)| *byte != 0).collect()
}

const OPCODES: [(Opcode, u8); 8] = [
    (Opcode::NopOut, 0x00),
    (Opcode::ScsiCommand, 0x01),
    (Opcode::TaskManagement, 0x02),
    (Opcode::Login, 0x03),
    (Opcode::Text, 0x04),
    (Opcode::DataOut, 0x05),
    (Opcode::Logout, 0x06),
    (Opcode::Snack, 0x10),
];

#[test]
fn opcodes() {
    for (opcode, number) in OPCODES {
        let request = Request::new(opcode);
        assert_eq!((request[0], request[1], request.opcode()), (number, 0x80, Some(opcode)));
        let immediate = request.with_immediate(true);
        assert_eq!((immediate[0], immediate.opcode()), (number | 0x40, Some(opcode)));
        assert!(immediate.is_immediate() && !request.is_immediate());
        assert_eq!(immediate.with_immediate(false), request);
    }
    for number in (0..0x40).filter(|number| OPCODES.iter().all(|(_, known)| known != number)) {
        assert_eq!(Request::from([number; 48]).opcode(), None, "{number:02x}");
    }
}

#[test]
fn bits() {
    let command = Request::new(Opcode::ScsiCommand);
    assert!(command.is_final() && !command.is_read() && !command.is_write());
    assert_eq!(command.with_final(false)[1], 0x00);
    assert_eq!(command.with_read(true)[1], 0xc0);
    assert_eq!(command.with_write(true)[1], 0xa0);
    let both = command.with_read(true).with_write(true);
    assert!(both.is_final() && both.is_read() && both.is_write());
    assert_eq!(both.with_read(false).with_write(false), command);
}

#[test]
fn attributes() {
    let command = Request::new(Opcode::ScsiCommand).with_read(true);
    assert_eq!(command.attribute(), Some(Attribute::Simple));
    for (attribute, byte) in [(Attribute::Simple, 0xc1), (Attribute::Ordered, 0xc2), (Attribute::HeadOfQueue, 0xc3)] {
        let set = command.with_attribute(attribute);
        assert_eq!((set[1], set.attribute()), (byte, Some(attribute)));
    }
    for reserved in 4..=7 {
        let mut header = *command;
        header[1] |= reserved;
        assert_eq!(Request::from(header).attribute(), None);
    }
}

#[test]
fn functions_and_reasons() {
    let functions = [
        Function::AbortTask,
        Function::AbortTaskSet,
        Function::ClearAca,
        Function::ClearTaskSet,
        Function::LogicalUnitReset,
        Function::TargetWarmReset,
        Function::TargetColdReset,
        Function::TaskReassign,
        Function::QueryTask,
        Function::QueryTaskSet,
        Function::NexusReset,
        Function::QueryAsynchronousEvent,
    ];
    for (number, function) in (1..).zip(functions) {
        let request = Request::new(Opcode::TaskManagement).with_function(function);
        assert_eq!((request[1], request.function()), (0x80 | number, Some(function)));
    }
    let reasons = [LogoutReason::CloseSession, LogoutReason::CloseConnection, LogoutReason::RemoveForRecovery];
    for (number, reason) in (0..).zip(reasons) {
        let request = Request::new(Opcode::Logout).with_reason(reason);
        assert_eq!((request[1], request.reason()), (0x80 | number, Some(reason)));
    }
    let none = Request::from([0xff; 48]);
    assert_eq!((none.function(), none.reason()), (None, None));
}

#[test]
fn numbers_stand_where_they_must() {
    let request = Request::new(Opcode::ScsiCommand).with_final(false);
    let four = |at: usize| vec![(0, 1), (at, 1), (at + 1, 2), (at + 2, 3), (at + 3, 4)];
    for (set, get, at) in [
        (request.with_tag(0x0102_0304), Request::tag as fn(&Request) -> u32, 16),
        (request.with_expected_length(0x0102_0304), Request::expected_length, 20),
        (request.with_referenced_tag(0x0102_0304), Request::referenced_tag, 20),
        (request.with_transfer_tag(0x0102_0304), Request::transfer_tag, 20),
        (request.with_cmd_sn(0x0102_0304), Request::cmd_sn, 24),
        (request.with_exp_stat_sn(0x0102_0304), Request::exp_stat_sn, 28),
        (request.with_referenced_cmd_sn(0x0102_0304), Request::referenced_cmd_sn, 32),
        (request.with_data_sn(0x0102_0304), Request::data_sn, 36),
        (request.with_offset(0x0102_0304), Request::offset, 40),
    ] {
        assert_eq!((set_in(&set), get(&set)), (four(at), 0x0102_0304));
    }
    let (cid, data) = (request.with_cid(0x0102), request.with_data_length(0xff01_0203));
    assert_eq!((set_in(&cid), cid.cid()), (vec![(0, 1), (20, 1), (21, 2)], 0x0102));
    assert_eq!((set_in(&data), data.data_length()), (vec![(0, 1), (5, 1), (6, 2), (7, 3)], 0x01_0203));
    let (cdb, segments) = (std::array::from_fn(|at| at as u8), Request::from([2; 48]));
    assert_eq!((request.with_cdb(cdb)[32..].to_vec(), request.with_cdb(cdb).cdb()), (cdb.to_vec(), cdb));
    assert_eq!((segments.additional_length(), segments.data_length()), (8, 0x02_0202));
}

#[test]
fn units() {
    let command = Request::new(Opcode::ScsiCommand);
    for (unit, bytes) in [(0, [0, 0]), (255, [0, 255]), (256, [0x41, 0]), (0x3fff, [0x7f, 0xff])] {
        let set = command.with_unit(unit);
        assert_eq!((set[8..10].to_vec(), set.unit()), (bytes.to_vec(), Some(unit)));
    }
    assert_eq!(command.with_lun(0x4003_0000_0000_0000).unit(), Some(3));
    for lun in [0x0003_0000_0000_0001, 0x0003_0100_0000_0000, 0x8003_0000_0000_0000, 0xc103_0000_0000_0000] {
        assert_eq!(command.with_lun(lun).unit(), None, "{lun:016x}");
        assert_eq!(command.with_lun(lun).lun(), lun);
    }
}

#[test]
fn a_request_shows_what_it_is() {
    let shown = format!("{:?}", Request::new(Opcode::Logout).with_tag(0xa1));
    assert!(shown.contains("Some(Logout)") && shown.contains("tag: 161"), "{shown}");
    assert_eq!(<[u8; 48]>::from(Request::from([7; 48])), [7; 48]);
}
