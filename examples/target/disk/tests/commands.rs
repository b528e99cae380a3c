//! What CDBs mean.

use disk::{Disk, Sense, BLOCK};

fn cdb(bytes: &[u8]) -> [u8; 16] {
    let mut cdb = [0; 16];
    cdb[..bytes.len()].copy_from_slice(bytes);
    cdb
}

fn unit() -> Disk {
    Disk::in_memory(1, 2, 4 * BLOCK)
}

/// What a command answers that ends well.
fn answered(unit: &Disk, bytes: &[u8]) -> Vec<u8> {
    let outcome = unit.execute(&cdb(bytes), &[]);
    assert_eq!((outcome.status, outcome.sense), (0, None), "{bytes:x?}");
    outcome.data
}

#[test]
fn what_was_written_is_read() {
    let unit = unit();
    let write = cdb(&[0x2a, 0, 0, 0, 0, 2, 0, 0, 1, 0]);
    assert_eq!(unit.lengths(&write), (BLOCK, 0));
    assert_eq!(unit.execute(&write, &[9; BLOCK]).status, 0);
    let read = cdb(&[0x88, 0, 0, 0, 0, 0, 0, 0, 0, 1, 0, 0, 0, 2]);
    assert_eq!(unit.lengths(&read), (0, 2 * BLOCK));
    let outcome = unit.execute(&read, &[]);
    assert_eq!((outcome.length, outcome.data), (2 * BLOCK, [[0; BLOCK], [9; BLOCK]].concat()));
    assert_eq!(answered(&unit, &[0x08, 0, 0, 2, 1, 0]), [9; BLOCK]);
}

#[test]
fn data_is_written_by_whole_blocks() {
    let unit = unit();
    let write = cdb(&[0x8a, 0, 0, 0, 0, 0, 0, 0, 0, 0, 0, 0, 0, 3]);
    assert_eq!(unit.execute(&write, &[1; 1200]).status, 0);
    let is = answered(&unit, &[0x28, 0, 0, 0, 0, 0, 0, 0, 4, 0]);
    assert_eq!(is, [[1; 2 * BLOCK], [0; 2 * BLOCK]].concat());
    // More than the CDB says isn't written.
    assert_eq!(unit.execute(&cdb(&[0x2a, 0, 0, 0, 0, 0, 0, 0, 1, 0]), &[7; 1400]).status, 0);
    assert_eq!(answered(&unit, &[0x28, 0, 0, 0, 0, 0, 0, 0, 2, 0]), [[7; BLOCK], [1; BLOCK]].concat());
}

#[test]
fn verify_compares_where_it_is_asked_to() {
    let unit = unit();
    let (same, mut other) = ([0; 2 * BLOCK], [0; 2 * BLOCK]);
    other[2 * BLOCK - 1] = 1;
    for (verify, of_blocks) in [(0x2f, 8), (0xaf, 9), (0x8f, 13)] {
        let mut bytes = [verify, 0x02, 0, 0, 0, 0, 0, 0, 0, 0, 0, 0, 0, 0, 0, 0];
        bytes[of_blocks] = 2;
        assert_eq!(unit.lengths(&bytes), (2 * BLOCK, 0));
        assert_eq!(unit.execute(&bytes, &same).status, 0);
        assert_eq!(unit.execute(&bytes, &other).sense, Some(Sense::MISCOMPARE));
        bytes[1] = 0;
        assert_eq!((unit.lengths(&bytes), unit.execute(&bytes, &[]).status), ((0, 0), 0));
        bytes[1] = 0x06;
        assert_eq!(unit.execute(&bytes, &same).sense, Some(Sense::INVALID_FIELD));
        bytes[of_blocks] = 5;
        assert_eq!(unit.execute(&bytes, &same).sense, Some(Sense::OUT_OF_RANGE));
    }
}

#[test]
fn write_and_verify_writes() {
    let unit = unit();
    assert_eq!(unit.execute(&cdb(&[0x2e, 0x02, 0, 0, 0, 1, 0, 0, 1, 0]), &[6; BLOCK]).status, 0);
    assert_eq!(answered(&unit, &[0x28, 0, 0, 0, 0, 1, 0, 0, 1, 0]), [6; BLOCK]);
}

#[test]
fn a_unit_on_a_file_keeps_what_is_written() {
    let path = std::env::temp_dir().join(format!("cundarrix-unit-{}", std::process::id()));
    let open = || Disk::on_file(2, 3, &path, 8 * BLOCK).expect("a file");
    let write = cdb(&[0x2a, 0, 0, 0, 0, 3, 0, 0, 1, 0]);
    assert_eq!(open().execute(&write, &[8; BLOCK]).status, 0);
    assert_eq!(
        (answered(&open(), &[0x25])[..4].to_vec(), answered(&open(), &[0x28, 0, 0, 0, 0, 3, 0, 0, 1, 0])),
        (vec![0, 0, 0, 7], vec![8; BLOCK])
    );
    // What is cut off meanwhile can't be read.
    let unit = open();
    std::fs::File::create(&path).expect("a file");
    assert_eq!(unit.execute(&cdb(&[0x28, 0, 0, 0, 0, 3, 0, 0, 1, 0]), &[]).sense, Some(Sense::READ_ERROR));
    std::fs::remove_file(&path).expect("it is there");
}

#[test]
fn mode_sense_of_ten_bytes_has_the_page_of_that_of_six() {
    let (six, ten) =
        (answered(&unit(), &[0x1a, 0, 0x0a, 0, 255]), answered(&unit(), &[0x5a, 0, 0x0a, 0, 0, 0, 0, 0, 255]));
    assert_eq!((usize::from(six[0]), usize::from(ten[1])), (six.len() - 1, ten.len() - 2));
    assert_eq!((six[2], &six[4..]), (ten[3], &ten[8..]));
}

#[test]
fn supported_commands_are_reported() {
    let unit = unit();
    let all = answered(&unit, &[0xa3, 0x0c, 0, 0, 0, 0, 0, 0, 255, 255]);
    assert_eq!(u32::from_be_bytes([all[0], all[1], all[2], all[3]]) as usize, all.len() - 4);
    let read16 = [0x88, 0, 0, 0, 0, 0, 0, 16];
    assert!(all[4..].chunks(8).any(|descriptor| descriptor == read16), "{all:x?}");
    // Each of them is known, by itself too.
    for descriptor in all[4..].chunks(8) {
        let option = if descriptor[5] & 1 == 1 { 2 } else { 1 };
        let one = answered(&unit, &[0xa3, 0x0c, option, descriptor[0], 0, descriptor[3], 0, 0, 0, 255]);
        assert_eq!((one[1], one[3], one[4]), (3, descriptor[7], descriptor[0]));
        assert_eq!(one.len() - 4, usize::from(descriptor[7]));
        let known = unit.execute(&cdb(&[descriptor[0], descriptor[3]]), &[]);
        assert_ne!(known.sense, Some(Sense::INVALID_OPCODE), "{descriptor:x?}");
    }
    assert_eq!(answered(&unit, &[0xa3, 0x0c, 1, 0xff, 0, 0, 0, 0, 0, 255]), [0, 1, 0, 0]);
    // With time-outs, 12 bytes more each.
    let timed = answered(&unit, &[0xa3, 0x0c, 0x80, 0, 0, 0, 0, 0, 255, 255]);
    assert_eq!(timed.len() - 4, (all.len() - 4) / 8 * 20);
    for wrong in [[0x9e, 1], [0x28, 2], [0, 4]] {
        let outcome = unit.execute(&cdb(&[0xa3, 0x0c, wrong[1], wrong[0], 0, 0, 0, 0, 0, 255]), &[]);
        assert_eq!(outcome.sense, Some(Sense::INVALID_FIELD), "{wrong:x?}");
    }
}

#[test]
fn blocks_outside_the_unit_are_refused() {
    for bytes in [
        &[0x28, 0, 0, 0, 0, 3, 0, 0, 2, 0][..],
        &[0x28, 0, 0, 0, 0, 4, 0, 0, 0, 0],
        &[0x88, 0, 255, 255, 255, 255, 255, 255, 255, 255, 255, 255, 255, 255],
    ] {
        assert_eq!(unit().execute(&cdb(bytes), &[]).sense, Some(Sense::OUT_OF_RANGE), "{bytes:x?}");
    }
}

#[test]
fn what_is_unknown_is_refused() {
    assert_eq!(unit().execute(&cdb(&[0xff]), &[]).sense, Some(Sense::INVALID_OPCODE));
    assert_eq!(unit().execute(&cdb(&[0x28, 0x20]), &[]).sense, Some(Sense::INVALID_FIELD));
    assert_eq!(unit().execute(&cdb(&[0x12, 1, 0x55, 0, 255]), &[]).sense, Some(Sense::INVALID_FIELD));
    assert_eq!(unit().execute(&cdb(&[0x1a, 0, 0xff, 0, 255]), &[]).sense, Some(Sense::INVALID_FIELD));
}

#[test]
fn answers_are_cut_to_their_allocation_length() {
    assert_eq!(answered(&unit(), &[0x12, 0, 0, 0, 36]).len(), 36);
    assert_eq!(answered(&unit(), &[0x12, 0, 0, 0, 5]).len(), 5);
    assert_eq!(answered(&unit(), &[0x12, 1, 0x83, 0, 20]).len(), 20);
    assert!(unit().execute(&cdb(&[0x12]), &[]).data.is_empty());
}
