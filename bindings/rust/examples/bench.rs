//! What an event costs by the crate: commands arrive on one connection and complete, and their responses go out.
//!
//! Two words on the command line say how many commands (1000000), and how many of them are live at a time (64). A
//! command is two events, its arrival and its completion, with all of their actions; its response is taken out and
//! written with the second. Nanoseconds an event are printed. The instructions an event are what two
//! runs under valgrind's cachegrind differ by, with 20000 and with 10000 commands, over 20,000 events.

use cundarrix::{Action, Opcode, Options, Refusal, Request, Session};
use std::hint::black_box;
use std::time::Instant;

const CID: u16 = 1;
const UNITS: u16 = 4;

/// A SCSI Command, SIMPLE, whose number is its CmdSN and its tag.
fn command(number: u32) -> Request {
    Request::new(Opcode::ScsiCommand).with_unit(number as u16 % UNITS).with_tag(number).with_cmd_sn(number)
}

/// Completes a command, and sends its response. Gives how many bytes that has.
fn complete(session: &mut Session, ticket: u64, tell: &mut impl FnMut(Action)) -> Result<usize, Refusal> {
    session.complete(ticket, 0x00, &mut *tell)?;
    let response = session.next(CID, &mut *tell)?;
    session.written(CID, tell)?;
    Ok(black_box(response).len())
}

/// So many commands, of which so many are live at a time: how many events, actions and bytes there were.
fn run(commands: u32, live: u32) -> Result<(u64, u64, u64), Refusal> {
    let mut session = Session::open(&Options::new().window(1024).units(UNITS.into()).depth(1024), &[CID])?;
    let (mut events, mut actions, mut bytes) = (0, 0, 0);
    let mut tell = |action| {
        black_box(action);
        actions += 1;
    };
    session.join(CID, 1, &mut tell)?;
    for number in 1..=commands {
        session.arrive(CID, &command(number), number.into(), &mut tell)?;
        events += 1;
        if number > live {
            bytes += complete(&mut session, (number - live).into(), &mut tell)? as u64;
            events += 1;
        }
    }
    Ok((events, actions, bytes))
}

fn main() -> Result<(), Refusal> {
    let mut words = std::env::args().skip(1).map(|word| word.parse().ok());
    let commands = words.next().flatten().unwrap_or(1_000_000);
    let live = words.next().flatten().unwrap_or(64);
    let begin = Instant::now();
    let (events, actions, bytes) = run(commands, live)?;
    let each = begin.elapsed().as_nanos() as f64 / events as f64;
    println!("{live} live: {events} events, {each:.1} ns each, {actions} actions, {bytes} bytes sent");
    Ok(())
}
