//! A walk through the four duties of a target, with a unit and a transport that are played: two commands arrive, an
//! abort takes the second one out, the first one completes, and all that goes out is printed.

use cundarrix::{Action, Function, Opcode, Options, Refusal, Request, Session};
use std::collections::{HashMap, VecDeque};

const CID: u16 = 1;
const GOOD: u8 = 0x00;

struct Target {
    session: Session,
    /// What was told, and isn't carried out yet.
    actions: VecDeque<Action>,
    /// What is kept of each request, by its cookie. A real target has its data here, too.
    requests: HashMap<u64, Request>,
    /// The commands that the unit works on.
    started: Vec<u64>,
}

impl Target {
    fn new() -> Result<Target, Refusal> {
        let session = Session::open(&Options::new(), &[CID])?;
        let mut target = Target { session, actions: VecDeque::new(), requests: HashMap::new(), started: Vec::new() };
        // The login ended: the first PDU that goes out has this StatSN.
        target.session.join(CID, 1, |action| target.actions.push_back(action))?;
        Ok(target)
    }

    /// The first duty: each request is given with a cookie.
    fn receive(&mut self, request: Request) -> Result<(), Refusal> {
        let cookie = u64::from(request.tag());
        self.requests.insert(cookie, request);
        self.session.arrive(CID, &request, cookie, |action| self.actions.push_back(action))?;
        self.carry_out()
    }

    /// A command ended.
    fn complete(&mut self, ticket: u64) -> Result<(), Refusal> {
        self.started.retain(|one| *one != ticket);
        self.session.complete(ticket, GOOD, |action| self.actions.push_back(action))?;
        self.carry_out()
    }

    /// The other three: start, stop and send, as it is told; and what is forgotten is freed.
    fn carry_out(&mut self) -> Result<(), Refusal> {
        while let Some(action) = self.actions.pop_front() {
            match action {
                Action::Start { ticket, unit, cookie, .. } => {
                    println!("unit {unit} starts ticket {ticket}, {:?}", self.requests[&cookie]);
                    self.started.push(ticket);
                }
                Action::Stop { ticket, why, .. } => {
                    println!("ticket {ticket} stops: {why:?}");
                    self.started.retain(|one| *one != ticket);
                    // The unit doesn't touch the medium for it any more. One that takes its time says so later.
                    self.session.stopped(ticket, |action| self.actions.push_back(action))?;
                }
                Action::Ready { cid } => self.send(cid)?,
                Action::Close { cid } => self.session.lose(cid, |action| self.actions.push_back(action))?,
                Action::Forget { cookie } => drop(self.requests.remove(&cookie)),
                // Told where other sessions have the units, too.
                Action::Reset { .. } => {}
            }
        }
        Ok(())
    }

    fn send(&mut self, cid: u16) -> Result<(), Refusal> {
        while let Ok(pdu) = self.session.next(cid, |action| self.actions.push_back(action)) {
            println!("{} bytes with opcode {:02x} go out on connection {cid}", pdu.len(), pdu[0]);
            self.session.written(cid, |action| self.actions.push_back(action))?;
        }
        Ok(())
    }
}

fn main() -> Result<(), Refusal> {
    let mut target = Target::new()?;
    target.receive(Request::new(Opcode::ScsiCommand).with_tag(0xa1).with_cmd_sn(1))?;
    target.receive(Request::new(Opcode::ScsiCommand).with_tag(0xa2).with_cmd_sn(2))?;
    let abort = Request::new(Opcode::TaskManagement).with_immediate(true).with_function(Function::AbortTask);
    target.receive(abort.with_tag(0xb1).with_cmd_sn(3).with_referenced_tag(0xa2).with_referenced_cmd_sn(2))?;
    let ticket = target.started[0];
    target.complete(ticket)?;
    target.receive(Request::new(Opcode::Logout).with_tag(0xc1).with_cmd_sn(3))?;
    assert!(target.requests.is_empty(), "nothing is kept of what is over");
    Ok(())
}
