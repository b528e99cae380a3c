//! PDUs, as they come from a stream.

use target::pdu::{opcode, Header, Pdu, FINAL, LONGEST_DATA};

#[test]
fn a_pdu_is_read_as_it_was_written() {
    let mut header = Header::new(opcode::TEXT, FINAL, 0x1234_5678);
    header.set(4, 5);
    let pdu = Pdu { header, data: b"a=b\0c".to_vec() };
    let wire = pdu.to_bytes();
    assert_eq!(wire.len(), 56);
    let mut stream = &wire[..];
    assert_eq!(Pdu::read(&mut stream, LONGEST_DATA).expect("a PDU"), Some(pdu));
    assert_eq!(Pdu::read(&mut stream, LONGEST_DATA).expect("the end"), None);
}

#[test]
fn additional_header_segments_are_passed_over() {
    let mut wire = [0; 56];
    (wire[4], wire[7], wire[52]) = (1, 1, 9);
    assert_eq!(Pdu::read(&mut &wire[..], LONGEST_DATA).expect("a PDU").map(|pdu| pdu.data), Some(vec![9]));
}

#[test]
fn a_pdu_that_breaks_off_or_is_too_long_is_an_error() {
    assert!(Pdu::read(&mut &[0; 47][..], LONGEST_DATA).is_err());
    let mut long = [0; 48];
    long[5] = 0xff;
    assert!(Pdu::read(&mut &long[..], LONGEST_DATA).is_err());
}

#[test]
fn a_pdu_is_whole_with_its_last_byte() {
    let mut header = Header::new(opcode::TEXT, FINAL, 1);
    header.set(4, 0x0100_0005);
    let wire = [&header.0[..], &[0; 12]].concat();
    assert!(Pdu::is_whole(&wire) && Pdu::is_whole(&[&wire[..], &[7]].concat()));
    assert!((0..wire.len()).all(|length| !Pdu::is_whole(&wire[..length])));
}
