//! The crate's calls, one by one: what each answers and tells, and each refusal.

mod common;

use common::{command, told};
use cundarrix::{
    Action, Attribute, Clearing, Function, LogoutReason, Numbers, Opcode, Options, Pdu, PduKind, Refusal, Request,
    Session, StopReason,
};
use std::panic::{catch_unwind, AssertUnwindSafe};
use std::sync::mpsc;
use std::thread;
use Action::{Close, Forget, Ready, Reset, Start, Stop};

/// A session of which these connections have joined, each with the StatSN 1.
fn joined(options: Options, cids: &[u16]) -> Session {
    let mut session = Session::open(&options, cids).expect("the options are right");
    for cid in cids {
        assert_eq!(told(|tell| session.join(*cid, 1, tell)), (Ok(()), vec![]));
    }
    session
}

/// One whose window is 4, with its only connection, 1.
fn small() -> Session {
    joined(Options::new().window(4).own(4).unwritten(2), &[1])
}

/// The same with the connections 1 and 2.
fn small_of_two() -> Session {
    joined(Options::new().window(4).own(4).unwritten(2), &[1, 2])
}

fn arrives(session: &mut Session, cid: u16, request: Request, cookie: u64) -> Vec<Action> {
    let (answer, actions) = told(|tell| session.arrive(cid, &request, cookie, tell));
    assert_eq!(answer, Ok(()), "{request:?}");
    actions
}

/// The next PDU, when nothing else is told.
fn goes(session: &mut Session, cid: u16) -> Pdu {
    let (answer, actions) = told(|tell| session.next(cid, tell));
    assert_eq!(actions, []);
    answer.expect("a PDU goes out")
}

/// Why none goes.
fn none_goes(session: &mut Session, cid: u16) -> Refusal {
    let (answer, actions) = told(|tell| session.next(cid, tell));
    assert_eq!(actions, []);
    answer.expect_err("nothing goes out")
}

fn start(ticket: u64, cookie: u64) -> Action {
    Start { ticket, unit: 0, attribute: Attribute::Simple, cookie }
}

/// An immediate function.
fn function(function: Function, cmd_sn: u32, tag: u32) -> Request {
    Request::new(Opcode::TaskManagement).with_immediate(true).with_function(function).with_cmd_sn(cmd_sn).with_tag(tag)
}

/// An immediate ABORT TASK of the command with this tag and number.
fn abort(cmd_sn: u32, tag: u32, referenced: u32, referenced_cmd_sn: u32) -> Request {
    let abort = function(Function::AbortTask, cmd_sn, tag);
    abort.with_referenced_tag(referenced).with_referenced_cmd_sn(referenced_cmd_sn)
}

/// An immediate NOP-Out that asks for an answer.
fn nop(tag: u32) -> Request {
    Request::new(Opcode::NopOut).with_immediate(true).with_cmd_sn(1).with_tag(tag).with_transfer_tag(Request::NO_TAG)
}

/// A header of the target's own, with this opcode, byte 1 and transfer tag, and the tag of no task.
fn own(opcode: u8, flags: u8, transfer_tag: u32) -> [u8; 48] {
    let mut header = [0; 48];
    header[..2].copy_from_slice(&[opcode, flags]);
    header[16..20].fill(0xff);
    header[20..24].copy_from_slice(&transfer_tag.to_be_bytes());
    header
}

const DATA_IN: u8 = 0x25;
const NOP_IN: u8 = 0x20;
const MESSAGE: u8 = 0x32;

/// The bytes of a header that digits give.
fn bytes_of(digits: &str) -> Vec<u8> {
    let pairs = (0..digits.len()).step_by(2);
    pairs.map(|at| u8::from_str_radix(&digits[at..at + 2], 16).expect("two digits")).collect()
}

/// StatSN, ExpCmdSN and MaxCmdSN of a PDU.
fn numbers_of(pdu: &Pdu) -> (u32, u32, u32) {
    let [stat_sn, exp_cmd_sn, max_cmd_sn] =
        [24, 28, 32].map(|at| u32::from_be_bytes(pdu[at..at + 4].try_into().expect("four bytes")));
    (stat_sn, exp_cmd_sn, max_cmd_sn)
}

// ---- opening

fn refusal_of(options: Options, cids: &[u16]) -> Option<Refusal> {
    Session::open(&options, cids).err()
}

#[test]
fn options_outside_their_limits_are_refused() {
    let right = Options::new();
    let wrong = [
        right.events(0),
        right.events(Options::MOST_EVENTS + 1),
        right.window(0),
        right.window(1025),
        right.units(0),
        right.units(257),
        right.depth(0),
        right.depth(1025),
        right.level(0),
        right.level(3),
        right.own(0),
        right.own(1025),
        right.unwritten(0),
        right.unwritten(1025),
    ];
    for options in wrong {
        assert_eq!(refusal_of(options, &[1]), Some(Refusal::BadOptions), "{options:?}");
    }
    assert_eq!(refusal_of(right, &[1]), None);
}

#[test]
fn options_at_their_limits_are_taken() {
    let least = Options::new().events(1).first_cmd_sn(0).window(1).units(1).depth(1).level(1).own(1).unwritten(1);
    assert_eq!(refusal_of(least.acknowledged(false), &[0]), None);
    let greatest = Options::new().first_cmd_sn(u32::MAX).window(1024).units(256).depth(1024).level(2);
    let cids: Vec<u16> = (0..64).map(|cid| u16::MAX - cid).collect();
    assert_eq!(refusal_of(greatest.own(1024).unwritten(1024).shared(true), &cids), None);
}

#[test]
fn cids_are_refused() {
    assert_eq!(refusal_of(Options::new(), &[]), Some(Refusal::BadOptions));
    assert_eq!(refusal_of(Options::new(), &[1, 2, 1]), Some(Refusal::BadOptions));
    let many: Vec<u16> = (0..65).collect();
    assert_eq!(refusal_of(Options::new(), &many), Some(Refusal::BadOptions));
}

#[test]
fn defaults_are_those_that_are_told() {
    assert_eq!(Options::new(), Options::default());
    let told = Options::new().events(1 << 48).first_cmd_sn(1).window(32).units(1).depth(64).level(1).own(64);
    assert_eq!(told.unwritten(16).acknowledged(true).shared(false), Options::new());
}

// ---- a command

#[test]
fn a_command_starts_completes_goes_out_and_is_forgotten() {
    let mut session = small();
    assert_eq!(session.numbers(), Numbers { exp_cmd_sn: 1, max_cmd_sn: 4 });
    assert_eq!(arrives(&mut session, 1, command(1, 0xa1), 7), [start(1, 7)]);
    assert_eq!(none_goes(&mut session, 1), Refusal::Nothing);
    assert_eq!(told(|tell| session.complete(1, 0x00, tell)), (Ok(()), vec![Ready { cid: 1 }]));
    let response = goes(&mut session, 1);
    let wanted = "21800000000000000000000000000000000000a100000000000000010000000200000005000000000000000000000000";
    assert_eq!(response.bytes(), bytes_of(wanted));
    assert_eq!((response.kind(), response.cookie(), response.data()), (PduKind::Reply, Some(7), &[][..]));
    assert_eq!(response.header()[..], response[..]);
    assert_eq!(none_goes(&mut session, 1), Refusal::Nothing);
    assert_eq!(told(|tell| session.written(1, tell)), (Ok(()), vec![Forget { cookie: 7 }]));
    assert_eq!(told(|tell| session.written(1, tell)), (Ok(()), vec![]));
    assert_eq!(session.numbers(), Numbers { exp_cmd_sn: 2, max_cmd_sn: 5 });
}

#[test]
fn a_start_tells_unit_and_attribute() {
    let mut session = joined(Options::new().units(256), &[1]);
    let head = command(1, 0xa1).with_unit(255).with_attribute(Attribute::HeadOfQueue);
    let (ticket, unit, attribute, cookie) = (1, 255, Attribute::HeadOfQueue, u64::MAX);
    assert_eq!(arrives(&mut session, 1, head, u64::MAX), [Start { ticket, unit, attribute, cookie }]);
}

#[test]
fn sense_data_and_rejected_headers_are_data_segments() {
    let mut session = small();
    arrives(&mut session, 1, command(1, 0xa1), 7);
    assert_eq!(told(|tell| session.complete(1, 0x02, tell)).0, Ok(()));
    let failed = goes(&mut session, 1);
    assert_eq!((failed.len(), failed.data().len(), failed.data()[..2].to_vec()), (68, 20, vec![0, 18]));
    let unknown = Request::from([0x1f; 48]);
    assert_eq!(arrives(&mut session, 1, unknown, 8), []);
    let rejected = goes(&mut session, 1);
    assert_eq!((rejected.len(), rejected.data(), rejected.cookie()), (96, &[0x1f; 48][..], Some(8)));
}

#[test]
fn a_command_completes_once() {
    let mut session = small();
    arrives(&mut session, 1, command(1, 0xa1), 7);
    assert_eq!(told(|tell| session.stopped(1, tell)), (Err(Refusal::Stale), vec![]));
    assert_eq!(told(|tell| session.complete(2, 0, tell)), (Err(Refusal::Stale), vec![]));
    assert_eq!(told(|tell| session.complete(1, 0, tell)).0, Ok(()));
    assert_eq!(told(|tell| session.complete(1, 0, tell)), (Err(Refusal::Stale), vec![]));
}

#[test]
fn what_is_passed_over_is_forgotten_at_once() {
    let mut session = small();
    assert_eq!(arrives(&mut session, 1, command(2, 0xa2), 9), []);
    assert_eq!(arrives(&mut session, 1, command(2, 0xa2), 10), [Forget { cookie: 10 }]);
    assert_eq!(arrives(&mut session, 1, nop(Request::NO_TAG), 11), [Forget { cookie: 11 }]);
    let data_out = Request::new(Opcode::DataOut).with_transfer_tag(5);
    assert_eq!(arrives(&mut session, 1, data_out, 12), [Forget { cookie: 12 }]);
    // And a held one that an abort takes out.
    assert_eq!(arrives(&mut session, 1, abort(3, 0xb1, 0xa2, 2), 13), [Ready { cid: 1 }, Forget { cookie: 9 }]);
}

// ---- what takes commands out

#[test]
fn an_abort_is_answered_when_its_command_has_stopped() {
    let mut session = small();
    arrives(&mut session, 1, command(1, 0xa1), 7);
    let stop = Stop { ticket: 1, cookie: 7, why: StopReason::Aborted };
    assert_eq!(arrives(&mut session, 1, abort(2, 0xb1, 0xa1, 1), 8), [stop]);
    assert_eq!(none_goes(&mut session, 1), Refusal::Nothing);
    assert_eq!(told(|tell| session.stopped(1, tell)), (Ok(()), vec![Ready { cid: 1 }, Forget { cookie: 7 }]));
    assert_eq!(told(|tell| session.stopped(1, tell)), (Err(Refusal::Stale), vec![]));
    let answer = goes(&mut session, 1);
    assert_eq!((answer[0], answer[2], answer.cookie(), numbers_of(&answer)), (0x22, 0, Some(8), (1, 2, 5)));
    assert_eq!(told(|tell| session.written(1, tell)), (Ok(()), vec![Forget { cookie: 8 }]));
}

#[test]
fn a_late_completion_says_that_a_command_stopped() {
    let mut session = small();
    arrives(&mut session, 1, command(1, 0xa1), 7);
    arrives(&mut session, 1, abort(2, 0xb1, 0xa1, 1), 8);
    assert_eq!(told(|tell| session.complete(1, 0, tell)), (Ok(()), vec![Ready { cid: 1 }, Forget { cookie: 7 }]));
    assert_eq!(told(|tell| session.complete(1, 0, tell)), (Err(Refusal::Stale), vec![]));
    assert_eq!(goes(&mut session, 1)[0], 0x22);
    assert_eq!(none_goes(&mut session, 1), Refusal::Nothing);
}

#[test]
fn a_logout_stops_forgets_and_closes() {
    let mut session = small();
    arrives(&mut session, 1, command(1, 0xa1), 7);
    assert_eq!(arrives(&mut session, 1, function(Function::AbortTaskSet, 3, 0xb1), 8), []);
    let logout = Request::new(Opcode::Logout).with_immediate(true).with_reason(LogoutReason::CloseSession);
    let stop = Stop { ticket: 1, cookie: 7, why: StopReason::LoggedOut };
    assert_eq!(arrives(&mut session, 1, logout.with_cmd_sn(2).with_tag(0xc1), 9), [stop, Forget { cookie: 8 }]);
    assert_eq!(told(|tell| session.stopped(1, tell)), (Ok(()), vec![Ready { cid: 1 }, Forget { cookie: 7 }]));
    let answer = goes(&mut session, 1);
    assert_eq!((answer[0], answer.cookie()), (0x26, Some(9)));
    assert_eq!(none_goes(&mut session, 1), Refusal::Nothing);
    assert_eq!(told(|tell| session.written(1, tell)), (Ok(()), vec![Close { cid: 1 }, Forget { cookie: 9 }]));
    assert_eq!(none_goes(&mut session, 1), Refusal::Over);
    assert_eq!(told(|tell| session.lose(1, tell)), (Ok(()), vec![]));
    assert_eq!(told(|tell| session.arrive(1, &command(3, 0xa3), 10, tell)), (Err(Refusal::NotJoined), vec![]));
}

#[test]
fn another_sessions_reset_clears_a_unit() {
    let mut session = small();
    arrives(&mut session, 1, command(1, 0xa1), 7);
    let stop = Stop { ticket: 1, cookie: 7, why: StopReason::Cleared };
    assert_eq!(told(|tell| session.clear(0, tell)), (Ok(()), vec![stop]));
    assert_eq!(told(|tell| session.clear(0, tell)), (Ok(()), vec![]));
    assert_eq!(told(|tell| session.clear(9, tell)), (Ok(()), vec![]));
    assert_eq!(told(|tell| session.stopped(1, tell)), (Ok(()), vec![Ready { cid: 1 }]));
    let answer = goes(&mut session, 1);
    assert_eq!((answer[0], answer[3], answer.cookie()), (0x21, 0x40, Some(7)));
    assert_eq!(told(|tell| session.written(1, tell)), (Ok(()), vec![Forget { cookie: 7 }]));
}

#[test]
fn a_reset_of_a_shared_unit_waits_for_the_other_sessions() {
    for (number, clearing) in
        [(Function::ClearTaskSet, Clearing::ClearTaskSet), (Function::LogicalUnitReset, Clearing::LogicalUnitReset)]
    {
        let mut session = joined(Options::new().shared(true), &[1]);
        arrives(&mut session, 1, command(1, 0xa1), 7);
        let stop = Stop { ticket: 1, cookie: 7, why: StopReason::Aborted };
        let reset = Reset { unit: 0, function: clearing };
        assert_eq!(arrives(&mut session, 1, function(number, 2, 0xb1), 8), [stop, reset]);
        assert_eq!(told(|tell| session.stopped(1, tell)), (Ok(()), vec![Forget { cookie: 7 }]));
        assert_eq!(none_goes(&mut session, 1), Refusal::Nothing);
        assert_eq!(told(|tell| session.cleared(0, tell)), (Ok(()), vec![Ready { cid: 1 }]));
        assert_eq!(goes(&mut session, 1).cookie(), Some(8));
    }
}

// ---- connections

#[test]
fn a_connection_joins_once_and_is_lost_once() {
    let mut session = Session::open(&Options::new(), &[1, 2]).expect("the options are right");
    assert_eq!((session.may_join(1), session.may_join(3)), (true, false));
    assert_eq!(told(|tell| session.arrive(1, &command(1, 0xa1), 7, tell)), (Err(Refusal::NotJoined), vec![]));
    assert_eq!(told(|tell| session.join(1, 5, tell)), (Ok(()), vec![]));
    assert!(!session.may_join(1));
    assert_eq!(told(|tell| session.join(1, 5, tell)), (Err(Refusal::CannotJoin), vec![]));
    assert_eq!(told(|tell| session.join(3, 5, tell)), (Err(Refusal::CannotJoin), vec![]));
    assert_eq!(arrives(&mut session, 1, nop(0xc1), 7), [Ready { cid: 1 }]);
    assert_eq!(numbers_of(&goes(&mut session, 1)).0, 5);
    assert_eq!(told(|tell| session.lose(3, tell)), (Err(Refusal::UnknownConnection), vec![]));
    assert_eq!(told(|tell| session.lose(1, tell)), (Ok(()), vec![Forget { cookie: 7 }]));
    assert_eq!(told(|tell| session.lose(1, tell)), (Err(Refusal::NotJoined), vec![]));
    assert_eq!(told(|tell| session.join(1, 5, tell)), (Err(Refusal::CannotJoin), vec![]));
    // One that never came may be lost, too: then none is left.
    assert_eq!(told(|tell| session.lose(2, tell)), (Ok(()), vec![]));
    assert!(!session.may_join(2));
}

#[test]
fn unknown_connections_are_refused_and_change_nothing() {
    let mut session = small();
    assert_eq!(told(|tell| session.arrive(2, &command(1, 0xa1), 7, tell)), (Err(Refusal::UnknownConnection), vec![]));
    assert_eq!(session.numbers(), Numbers { exp_cmd_sn: 1, max_cmd_sn: 4 });
    assert_eq!(none_goes(&mut session, 2), Refusal::Nothing);
    assert_eq!(told(|tell| session.heard(2, &nop(1), tell)), (Ok(()), vec![]));
    assert_eq!(told(|tell| session.written(2, tell)), (Ok(()), vec![]));
    assert!(!session.is_asked(2));
}

#[test]
fn what_came_on_a_lost_connection_stops_and_another_one_shows_the_numbers() {
    let mut session = small_of_two();
    assert_eq!(arrives(&mut session, 1, command(1, 0xa1), 7), [start(1, 7)]);
    assert_eq!(arrives(&mut session, 1, command(3, 0xa3), 8), []);
    assert_eq!(arrives(&mut session, 2, command(2, 0xa2), 9), [start(2, 9), start(3, 8)]);
    let stops = [(1, 7), (3, 8)].map(|(ticket, cookie)| Stop { ticket, cookie, why: StopReason::Lost });
    assert_eq!(told(|tell| session.lose(1, tell)), (Ok(()), [&stops[..], &[Ready { cid: 2 }]].concat()));
    let notice = goes(&mut session, 2);
    assert_eq!(
        (notice.kind(), notice.cookie(), notice[0], numbers_of(&notice)),
        (PduKind::Notice, None, 0x20, (1, 4, 6))
    );
    assert_eq!(told(|tell| session.stopped(3, tell)), (Ok(()), vec![Forget { cookie: 8 }]));
    assert_eq!(told(|tell| session.stopped(1, tell)), (Ok(()), vec![Forget { cookie: 7 }]));
}

// ---- what goes out

#[test]
fn an_answer_waits_until_what_is_heard_says_that_others_arrived() {
    let mut session = small_of_two();
    assert_eq!(arrives(&mut session, 1, nop(0xc1), 7), [Ready { cid: 1 }]);
    assert_eq!(goes(&mut session, 1).cookie(), Some(7));
    assert_eq!(arrives(&mut session, 2, function(Function::AbortTaskSet, 1, 0xb1), 8), []);
    assert_eq!(told(|tell| session.written(1, tell)), (Ok(()), vec![Forget { cookie: 7 }]));
    let acknowledging = Request::new(Opcode::DataOut).with_transfer_tag(Request::NO_TAG).with_exp_stat_sn(2);
    assert_eq!(told(|tell| session.heard(1, &acknowledging, tell)), (Ok(()), vec![Ready { cid: 2 }]));
    assert_eq!(goes(&mut session, 2).cookie(), Some(8));
}

/// An abort on connection 2 of a command that has completed on 1: what completed goes first, and arrives.
fn waits_for_what_completed(function: Request, response: u8) {
    let mut session = small_of_two();
    arrives(&mut session, 1, command(1, 0xa1), 7);
    let data = told(|tell| session.put_data(1, &own(DATA_IN, 0x80, Request::NO_TAG), tell));
    assert_eq!(data, (Ok(()), vec![Ready { cid: 1 }]));
    assert_eq!(told(|tell| session.complete(1, 0, tell)), (Ok(()), vec![]));
    assert_eq!(arrives(&mut session, 2, function, 8), []);
    for (kind, forgotten) in [(PduKind::Own, vec![]), (PduKind::Reply, vec![Forget { cookie: 7 }])] {
        assert_eq!(none_goes(&mut session, 2), Refusal::Nothing);
        assert_eq!(goes(&mut session, 1).kind(), kind);
        assert_eq!(told(|tell| session.written(1, tell)), (Ok(()), forgotten));
    }
    assert_eq!(none_goes(&mut session, 2), Refusal::Nothing);
    let acknowledging = Request::new(Opcode::DataOut).with_transfer_tag(Request::NO_TAG).with_exp_stat_sn(2);
    assert_eq!(told(|tell| session.heard(1, &acknowledging, tell)), (Ok(()), vec![Ready { cid: 2 }]));
    let answer = goes(&mut session, 2);
    assert_eq!((answer.cookie(), answer[2]), (Some(8), response));
}

#[test]
fn an_abort_of_several_commands_waits_for_what_completed() {
    waits_for_what_completed(function(Function::AbortTaskSet, 2, 0xb1), 0);
}

#[test]
fn an_abort_that_finds_no_task_waits_for_what_completed() {
    waits_for_what_completed(abort(2, 0xb1, 0xa1, 1), 1);
}

/// A session in which a Data-In of an aborted command is under way on connection 1, so that the answer on 2 waits.
fn with_data_under_way(acknowledged: bool) -> Session {
    let mut session = joined(Options::new().acknowledged(acknowledged), &[1, 2]);
    arrives(&mut session, 1, command(1, 0xa1), 7);
    let data = told(|tell| session.put_data(1, &own(DATA_IN, 0x80, Request::NO_TAG), tell));
    assert_eq!(data, (Ok(()), vec![Ready { cid: 1 }]));
    let pdu = goes(&mut session, 1);
    assert_eq!((pdu.kind(), pdu.cookie(), pdu.len(), numbers_of(&pdu)), (PduKind::Own, Some(7), 48, (1, 2, 32)));
    let stop = Stop { ticket: 1, cookie: 7, why: StopReason::Aborted };
    assert_eq!(arrives(&mut session, 2, abort(2, 0xb1, 0xa1, 1), 8)[0], stop);
    session
}

#[test]
fn a_ping_finds_out_what_arrived() {
    let mut session = with_data_under_way(true);
    assert!(!session.is_asked(1));
    let ping = goes(&mut session, 1);
    assert_eq!((ping.kind(), ping.cookie(), ping[0], ping[20] & 0x80), (PduKind::Ping, None, 0x20, 0x80));
    assert!(session.is_asked(1));
    assert_eq!(told(|tell| session.written(1, tell)), (Ok(()), vec![]));
    assert_eq!(told(|tell| session.written(1, tell)), (Ok(()), vec![]));
    assert_eq!(told(|tell| session.stopped(1, tell)), (Ok(()), vec![Forget { cookie: 7 }]));
    assert_eq!(none_goes(&mut session, 2), Refusal::Nothing);
    let transfer_tag = u32::from_be_bytes(ping[20..24].try_into().expect("four bytes"));
    let answer = nop(Request::NO_TAG).with_transfer_tag(transfer_tag).with_exp_stat_sn(1);
    assert_eq!(arrives(&mut session, 1, answer, 9), [Ready { cid: 2 }, Forget { cookie: 9 }]);
    assert!(!session.is_asked(1));
    assert_eq!(goes(&mut session, 2).cookie(), Some(8));
}

#[test]
fn where_arrival_isnt_looked_for_written_is_enough() {
    let mut session = with_data_under_way(false);
    assert_eq!(none_goes(&mut session, 1), Refusal::Nothing);
    assert_eq!(told(|tell| session.stopped(1, tell)), (Ok(()), vec![]));
    assert_eq!(none_goes(&mut session, 2), Refusal::Nothing);
    let told_then = told(|tell| session.written(1, tell));
    assert_eq!(told_then, (Ok(()), vec![Ready { cid: 2 }, Forget { cookie: 7 }]));
    assert_eq!(goes(&mut session, 2).cookie(), Some(8));
}

#[test]
fn own_pdus_go_out_in_their_order_with_their_cookies() {
    let mut session = small();
    let message = own(MESSAGE, 0x80, 0);
    assert_eq!(told(|tell| session.put(1, &message, 5, tell)), (Ok(()), vec![Ready { cid: 1 }]));
    assert_eq!(told(|tell| session.put(1, &message, 6, tell)), (Ok(()), vec![]));
    assert_eq!(arrives(&mut session, 1, command(1, 0xa1), 7), [start(1, 7)]);
    let mut data_in = own(DATA_IN, 0x80, Request::NO_TAG);
    data_in[5..8].copy_from_slice(&[1, 2, 3]);
    assert_eq!(told(|tell| session.put_data(1, &data_in, tell)), (Ok(()), vec![]));
    for (cookie, stat_sn) in [(5, 1), (6, 2)] {
        let pdu = goes(&mut session, 1);
        assert_eq!((pdu[0], pdu.kind(), pdu.cookie()), (MESSAGE, PduKind::Own, Some(cookie)));
        assert_eq!(numbers_of(&pdu), (stat_sn, 2, 4));
    }
    assert_eq!(none_goes(&mut session, 1), Refusal::Blocked);
    assert_eq!(told(|tell| session.written(1, tell)), (Ok(()), vec![Forget { cookie: 5 }]));
    let pdu = goes(&mut session, 1);
    assert_eq!(
        (pdu[0], pdu[5..8].to_vec(), pdu.cookie(), numbers_of(&pdu)),
        (DATA_IN, vec![1, 2, 3], Some(7), (3, 2, 4))
    );
    assert_eq!(told(|tell| session.written(1, tell)), (Ok(()), vec![Forget { cookie: 6 }]));
    assert_eq!(told(|tell| session.written(1, tell)), (Ok(()), vec![]));
}

#[test]
fn own_pdus_that_may_not_be_put_are_refused() {
    let mut session = Session::open(&Options::new().own(1), &[1, 2]).expect("the options are right");
    assert_eq!(told(|tell| session.join(1, 1, tell)).0, Ok(()));
    arrives(&mut session, 1, command(1, 0xa1), 7);
    let (message, data_in) = (own(MESSAGE, 0x80, 0), own(DATA_IN, 0x80, Request::NO_TAG));
    for unfit in [data_in, own(0x21, 0x80, 0), own(NOP_IN, 0x80, 0x8000_0000)] {
        assert_eq!(told(|tell| session.put(1, &unfit, 8, tell)), (Err(Refusal::Unfit), vec![]));
    }
    for unfit in [message, own(DATA_IN, 0x81, Request::NO_TAG)] {
        assert_eq!(told(|tell| session.put_data(1, &unfit, tell)), (Err(Refusal::Unfit), vec![]));
    }
    for gone in [0, 2] {
        assert_eq!(told(|tell| session.put_data(gone, &data_in, tell)), (Err(Refusal::Gone), vec![]));
    }
    for closed in [2, 3] {
        assert_eq!(told(|tell| session.put(closed, &message, 8, tell)), (Err(Refusal::Closed), vec![]));
    }
    assert_eq!(told(|tell| session.put_data(1, &data_in, tell)).0, Ok(()));
    assert_eq!(told(|tell| session.put_data(1, &data_in, tell)), (Err(Refusal::Full), vec![]));
    assert_eq!(told(|tell| session.put(1, &message, 8, tell)), (Err(Refusal::Full), vec![]));
}

#[test]
fn a_nop_in_of_the_targets_own_goes_out() {
    let mut session = small();
    assert_eq!(told(|tell| session.put(1, &own(NOP_IN, 0x80, 0x1234), 5, tell)), (Ok(()), vec![Ready { cid: 1 }]));
    let pdu = goes(&mut session, 1);
    assert_eq!((pdu[0], pdu[20..24].to_vec(), pdu.kind()), (NOP_IN, vec![0, 0, 0x12, 0x34], PduKind::Own));
    // It takes no StatSN.
    arrives(&mut session, 1, nop(0xc1), 7);
    assert_eq!(numbers_of(&goes(&mut session, 1)).0, 1);
}

// ---- limits

#[test]
fn a_session_that_answers_nothing_is_busy() {
    let mut session = joined(Options::new().window(1), &[1]);
    let mut cookie = 0;
    while session.may_take() {
        arrives(&mut session, 1, nop(0xc1), cookie);
        cookie += 1;
        assert!(cookie < 1000, "it is never busy");
    }
    assert!(cookie > 0);
    assert_eq!(told(|tell| session.arrive(1, &nop(0xc1), cookie, tell)), (Err(Refusal::Busy), vec![]));
    assert_eq!(told(|tell| session.heard(1, &nop(0xc1), tell)), (Ok(()), vec![]));
    goes(&mut session, 1);
    assert!(session.may_take());
    assert_eq!(arrives(&mut session, 1, nop(0xc1), cookie), []);
}

#[test]
fn requests_are_exhausted_before_completions_are() {
    // 64, the window and 8 a connection are kept back.
    let mut session = joined(Options::new().window(4).events(77), &[1]);
    assert_eq!(arrives(&mut session, 1, command(1, 0xa1), 7), [start(1, 7)]);
    assert_eq!(told(|tell| session.arrive(1, &command(2, 0xa2), 8, tell)), (Err(Refusal::Exhausted), vec![]));
    assert_eq!(told(|tell| session.complete(1, 0, tell)), (Ok(()), vec![Ready { cid: 1 }]));
    assert_eq!(goes(&mut session, 1).cookie(), Some(7));
}

// ---- many actions, and those of a call that panics

/// A session with 40 commands that one arrival enables, and their Starts.
fn with_forty(session: &mut Session) -> Vec<Action> {
    for number in (2..=40).rev() {
        assert_eq!(arrives(session, 1, command(number, number), number.into()), []);
    }
    arrives(session, 1, command(1, 1), 1)
}

#[test]
fn a_call_hands_over_all_actions_however_many() {
    let mut session = joined(Options::new().window(64), &[1]);
    let starts: Vec<Action> = (1..=40).map(|number| start(number, number)).collect();
    assert_eq!(with_forty(&mut session), starts);
    let stops: Vec<Action> = (1..=40).map(|ticket| Stop { ticket, cookie: ticket, why: StopReason::Lost }).collect();
    assert_eq!(told(|tell| session.lose(1, tell)), (Ok(()), stops));
    for ticket in 1..=40 {
        assert_eq!(told(|tell| session.stopped(ticket, tell)), (Ok(()), vec![Forget { cookie: ticket }]));
    }
}

#[test]
fn what_is_told_to_a_caller_that_panics_isnt_lost() {
    let mut session = joined(Options::new().window(64), &[1]);
    with_forty(&mut session);
    let mut stopped = Vec::new();
    let panicked = catch_unwind(AssertUnwindSafe(|| {
        session.lose(1, |action| {
            assert!(stopped.len() < 20, "as is wanted");
            stopped.push(action);
        })
    }));
    assert!(panicked.is_err());
    // The one that it was given as it panicked is the only one that is missing.
    let (answer, rest) = told(|tell| session.stopped(1, tell));
    assert_eq!((answer, stopped.len(), rest.len()), (Ok(()), 20, 20));
    let last = Stop { ticket: 40, cookie: 40, why: StopReason::Lost };
    assert_eq!(rest[18..], [last, Forget { cookie: 1 }]);
}

// ---- the rest

#[test]
fn refusals_are_errors_with_a_text() {
    let refusals = [
        Refusal::BadOptions,
        Refusal::NoMemory,
        Refusal::NotOpen,
        Refusal::AlreadyOpen,
        Refusal::ShortHeader,
        Refusal::ShortBuffer,
        Refusal::NullPointer,
        Refusal::ActionsWait,
        Refusal::UnknownConnection,
        Refusal::NotJoined,
        Refusal::Exhausted,
        Refusal::Busy,
        Refusal::Stale,
        Refusal::CannotJoin,
        Refusal::Unfit,
        Refusal::Gone,
        Refusal::Closed,
        Refusal::Full,
        Refusal::Nothing,
        Refusal::Blocked,
        Refusal::Over,
    ];
    let texts: Vec<String> = refusals.iter().map(|refusal| (refusal as &dyn std::error::Error).to_string()).collect();
    for (at, text) in texts.iter().enumerate() {
        assert!(!text.is_empty() && !texts[..at].contains(text));
        // They have the numbers of the header.
        assert_eq!(refusals[at] as usize, at + 1);
    }
}

#[test]
fn a_session_shows_its_numbers() {
    assert!(format!("{:?}", small()).contains("max_cmd_sn: 4"));
}

fn is_send<T: Send>() {}

#[test]
fn a_session_goes_from_thread_to_thread() {
    is_send::<Session>();
    let mut session = joined(Options::new(), &[1]);
    for number in 1..=20 {
        let taken = thread::spawn(move || {
            assert_eq!(arrives(&mut session, 1, command(number, number), number.into()).len(), 1);
            session
        });
        session = taken.join().expect("the thread ends");
        assert_eq!(told(|tell| session.complete(u64::from(number), 0, tell)).0, Ok(()));
        assert_eq!(goes(&mut session, 1).cookie(), Some(number.into()));
        assert_eq!(told(|tell| session.written(1, tell)), (Ok(()), vec![Forget { cookie: number.into() }]));
    }
}

#[test]
fn sessions_of_many_threads_share_nothing() {
    let (sender, receiver) = mpsc::channel();
    for _ in 0..4 {
        let sender = sender.clone();
        thread::spawn(move || {
            let mut session = joined(Options::new(), &[1]);
            for number in 1..=1000 {
                assert_eq!(arrives(&mut session, 1, command(number, number), 1), [start(number.into(), 1)]);
                assert_eq!(told(|tell| session.complete(u64::from(number), 0, tell)).0, Ok(()));
                assert_eq!(goes(&mut session, 1).cookie(), Some(1));
                assert_eq!(told(|tell| session.written(1, tell)).0, Ok(()));
            }
            sender.send(session).expect("the receiver waits");
        });
    }
    drop(sender);
    let numbers: Vec<_> = receiver.iter().map(|session: Session| session.numbers()).collect();
    assert_eq!(numbers, [Numbers { exp_cmd_sn: 1001, max_cmd_sn: 1032 }; 4]);
}

#[test]
fn a_session_that_is_closed_is_gone() {
    let mut session = small();
    arrives(&mut session, 1, command(1, 0xa1), 7);
    session.close();
}
