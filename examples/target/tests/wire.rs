//! The program, over the loopback.

mod common;

use common::{blocks, Target, TEST_UNIT_READY};
use disk::BLOCK;
use std::thread::sleep;
use std::time::{Duration, Instant};
use target::pdu::{opcode, place, NO_TAG};

const GOOD: u8 = 0x00;
const CHECK_CONDITION: u8 = 0x02;
const TASK_ABORTED: u8 = 0x40;
const ABORT_TASK: u8 = 1;
const CLEAR_TASK_SET: u8 = 4;
const LOGICAL_UNIT_RESET: u8 = 5;
const DELAY: Duration = Duration::from_millis(1000);

/// A target with a disk whose commands take `DELAY`, and the number of that unit.
fn slow_disk(name: &str) -> (Target, u8) {
    let path = std::env::temp_dir().join(format!("cundarrix-{name}-{}", std::process::id()));
    let target = Target::start(&format!("--delay {} --disk {}", DELAY.as_millis(), path.display()));
    std::fs::remove_file(path).expect("the target has made it");
    (target, 2)
}

#[test]
fn an_aborted_write_that_a_disk_has_begun_does_not_undo_a_newer_one() {
    let (target, disk) = slow_disk("abort");
    let mut initiator = target.log_in(1);
    let began = Instant::now();
    initiator.command(1, disk, &blocks(0x2a, 1), 0, &[b'X'; BLOCK]);
    sleep(DELAY / 4);
    initiator.function(2, disk, ABORT_TASK, 1);
    assert_eq!(initiator.answer(2), (0, None));
    assert!(began.elapsed() >= DELAY, "the abort is answered once the disk has stopped");
    initiator.command(3, disk, &blocks(0x2a, 1), 0, &[b'N'; BLOCK]);
    assert_eq!(initiator.answer(3).0, GOOD);
    initiator.command(4, disk, &blocks(0x28, 1), BLOCK as u32, &[]);
    assert_eq!(initiator.data(4), [b'N'; BLOCK]);
}

#[test]
fn a_reset_of_one_session_reaches_the_others() {
    let (target, disk) = slow_disk("reset");
    let (mut one, mut other) = (target.log_in(1), target.log_in(2));
    let began = Instant::now();
    other.command(1, disk, &blocks(0x2a, 1), 0, &[b'X'; BLOCK]);
    sleep(DELAY / 4);
    one.function(1, disk, LOGICAL_UNIT_RESET, NO_TAG);
    assert_eq!(one.answer(1), (0, None));
    assert!(began.elapsed() >= DELAY, "the reset is answered once the other session's command has stopped");
    assert_eq!(other.answer(1).0, TASK_ABORTED);
    // Each session is told once, and not of the unit in RAM.
    other.command(2, 0, &TEST_UNIT_READY, 0, &[]);
    assert_eq!(other.answer(2).0, GOOD);
    other.command(3, disk, &[0x12, 0, 0, 0, 36], 36, &[]);
    assert_eq!(other.data(3).len(), 36);
    for initiator in [&mut one, &mut other] {
        initiator.command(4, disk, &TEST_UNIT_READY, 0, &[]);
        assert_eq!(initiator.answer(4), (CHECK_CONDITION, Some([6, 0x29, 0])));
        initiator.command(5, disk, &TEST_UNIT_READY, 0, &[]);
        assert_eq!(initiator.answer(5).0, GOOD);
    }
}

#[test]
fn a_clear_task_set_is_of_its_own_session() {
    let (target, disk) = slow_disk("clear");
    let (mut one, mut other, mut third) = (target.log_in(1), target.log_in(2), target.log_in(3));
    let began = Instant::now();
    other.command(1, disk, &blocks(0x2a, 1), 0, &[b'X'; BLOCK]);
    sleep(DELAY / 2);
    one.command(1, disk, &blocks(0x28, 1), BLOCK as u32, &[]);
    sleep(DELAY / 4);
    one.function(2, disk, CLEAR_TASK_SET, NO_TAG);
    assert_eq!(one.answer(2), (0, None));
    assert!(began.elapsed() >= DELAY, "it is answered once its own session's command has stopped");
    // The other session's WRITE isn't taken out, and nobody is told of anything.
    assert_eq!(other.answer(1), (GOOD, None));
    for initiator in [&mut one, &mut other, &mut third] {
        initiator.command(3, disk, &TEST_UNIT_READY, 0, &[]);
        assert_eq!(initiator.answer(3).0, GOOD);
    }
    third.command(4, disk, &blocks(0x28, 1), BLOCK as u32, &[]);
    assert_eq!(third.data(4), [b'X'; BLOCK]);
}

#[test]
fn a_clear_task_set_waits_for_no_other_session() {
    let (target, disk) = slow_disk("clear-alone");
    let (mut one, mut other) = (target.log_in(1), target.log_in(2));
    let began = Instant::now();
    other.command(1, disk, &blocks(0x2a, 1), 0, &[b'X'; BLOCK]);
    sleep(DELAY / 4);
    one.function(1, disk, CLEAR_TASK_SET, NO_TAG);
    assert_eq!(one.answer(1), (0, None));
    assert!(began.elapsed() < DELAY, "{:?}", began.elapsed());
    assert_eq!(other.answer(1), (GOOD, None));
}

#[test]
fn a_clear_task_set_behind_a_reset_does_not_answer_the_reset() {
    let (target, disk) = slow_disk("clear-behind");
    let (mut one, mut other) = (target.log_in(1), target.log_in(2));
    let began = Instant::now();
    other.command(1, disk, &blocks(0x2a, 1), 0, &[b'X'; BLOCK]);
    sleep(DELAY / 4);
    one.function(1, disk, LOGICAL_UNIT_RESET, NO_TAG);
    one.function(2, disk, CLEAR_TASK_SET, NO_TAG);
    assert_eq!(one.answer(1), (0, None));
    assert!(began.elapsed() >= DELAY, "the reset is answered once the other session's command has stopped");
    assert_eq!(one.answer(2), (0, None));
    assert_eq!(other.answer(1).0, TASK_ABORTED);
}

#[test]
fn a_session_that_reads_nothing_stops_no_other() {
    let target = Target::start("--patience 2");
    let (mut deaf, mut other) = (target.log_in(1), target.log_in(2));
    for tag in 1..=4 {
        deaf.command(tag, 0, &blocks(0x28, 16_384), 16_384 * BLOCK as u32, &[]);
    }
    let began = Instant::now();
    for tag in 1..=100 {
        other.command(tag, 0, &blocks(0x28, 8), 8 * BLOCK as u32, &[]);
        assert_eq!(other.data(tag), [0; 8 * BLOCK]);
    }
    assert!(began.elapsed() < Duration::from_secs(2), "{:?}", began.elapsed());
    // Its socket takes nothing for so long that it is given up: what comes then is a part.
    sleep(Duration::from_secs(4));
    let mut length = 0;
    while let Some(pdu) = deaf.receive() {
        length += pdu.data.len();
    }
    assert!(length < 4 * 16_384 * BLOCK, "{length}");
}

#[test]
fn a_read_that_is_larger_than_a_socket_arrives_whole() {
    let target = Target::start("--patience 1");
    let mut initiator = target.log_in(1);
    for tag in [1, 3] {
        // That nothing went out for long is no reason to lose patience at once.
        sleep(Duration::from_millis(1200));
        initiator.command(tag, 1, &blocks(0x28, 16_384), 16_384 * BLOCK as u32, &[]);
        initiator.command(tag + 1, 1, &blocks(0x28, 1), BLOCK as u32, &[]);
        sleep(Duration::from_millis(300));
        assert_eq!(initiator.data(tag).len(), 16_384 * BLOCK);
        assert_eq!(initiator.data(tag + 1).len(), BLOCK);
    }
}

#[test]
fn a_silent_initiator_is_asked_and_given_up() {
    let target = Target::start("--ping 1");
    let (mut alive, mut gone) = (target.log_in(1), target.log_in(2));
    let ping = gone.receive().expect("a ping").header;
    assert_eq!((ping.opcode(), ping.tag()), (opcode::NOP_IN, NO_TAG));
    for _ in 0..4 {
        let ping = alive.receive().expect("a ping").header;
        assert!(ping.number(place::TRANSFER_TAG) < 0x8000_0000);
        alive.answer_ping(&ping);
    }
    assert_eq!(gone.receive(), None);
    alive.command(1, 0, &TEST_UNIT_READY, 0, &[]);
    assert_eq!(alive.answer(1).0, GOOD);
}

#[test]
fn a_login_has_one_deadline() {
    let target = Target::start("--patience 1");
    let (stream, began) = (target.connect(), Instant::now());
    for _ in 0..2 {
        sleep(Duration::from_millis(400));
        std::io::Write::write_all(&mut &stream, &[0x43]).expect("it is sent");
    }
    let ended = std::io::Read::read(&mut &stream, &mut [0]);
    assert!(!matches!(ended, Ok(1..)), "{ended:?}");
    assert!((900..5000).contains(&began.elapsed().as_millis()), "{:?}", began.elapsed());
}

#[test]
fn logins_are_refused_for_their_reasons() {
    let target = Target::start("--sessions 2");
    let session = target.log_in(1);
    let name = "TargetName=iqn.2026-01.example.cundarrix:ram\0";
    let status = |port, tsih, keys: &str| target.try_log_in(port, tsih, keys).1;
    assert_eq!(status(2, 0, &format!("{name}AuthMethod=CHAP\0")), 0x0201);
    assert_eq!(status(2, 0, "TargetName=iqn.2026-01.example:other\0"), 0x0203);
    assert_eq!(status(2, 0, ""), 0x0207);
    assert_eq!(status(1, session.tsih, name), 0x0208);
    assert_eq!(status(1, session.tsih, "SessionType=Discovery\0"), 0x0209);
    assert_eq!(status(2, session.tsih, name), 0x020a);
    assert_eq!(status(2, 0, &format!("{name}X-{}=1\0", "x".repeat(8192))), 0x020b);
    let _other = target.log_in(2);
    assert_eq!(status(3, 0, name), 0x0302);
}

#[test]
fn of_two_logins_of_one_port_one_is_left() {
    // One that the other takes the place of is refused, or closed before its response or behind it.
    let target = Target::start("");
    for _ in 0..50 {
        let mut logins: Vec<_> = std::thread::scope(|scope| {
            let log_in = || target.try_log_in(1, 0, "TargetName=iqn.2026-01.example.cundarrix:ram\0");
            let threads: Vec<_> = (0..2).map(|_| scope.spawn(log_in)).collect();
            threads.into_iter().map(|thread| thread.join().expect("a login")).collect()
        });
        sleep(Duration::from_millis(5));
        let answers = logins.iter_mut().map(|(initiator, status)| {
            let mut header = target::pdu::Header::new(opcode::NOP_OUT | 0x40, 0x80, 7);
            header.set(place::TRANSFER_TAG, NO_TAG);
            header.set(place::CMD_SN, 1);
            let bytes = target::pdu::Pdu { header, data: Vec::new() }.to_bytes();
            let is_sent = std::io::Write::write_all(&mut initiator.stream, &bytes).is_ok();
            u32::from(*status == 0 && is_sent && initiator.receive().is_some())
        });
        assert_eq!(answers.sum::<u32>(), 1);
    }
}
