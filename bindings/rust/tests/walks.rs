//! Walks of random calls, and what holds of each: a command starts once, and stops only if it was started; a connection
//! that gives something was told to be ready, and is told once; StatSN counts, and ExpCmdSN and MaxCmdSN never go back;
//! and each cookie comes back exactly once, after all that speaks of it.

use cundarrix::{Action, Attribute, Function, LogoutReason, Opcode, Options, PduKind, Refusal, Request, Session};
use std::collections::{HashMap, HashSet};

const CIDS: [u16; 3] = [1, 2, 3];
const UNWRITTEN: usize = 3;

/// Numbers at random, the same in every run (xorshift64).
struct Random(u64);

impl Random {
    fn below(&mut self, limit: u32) -> u32 {
        self.0 ^= self.0 << 13;
        self.0 ^= self.0 >> 7;
        self.0 ^= self.0 << 17;
        (self.0 >> 33) as u32 % limit
    }

    fn one_of<T: Copy>(&mut self, all: &[T]) -> Option<T> {
        (!all.is_empty()).then(|| all[self.below(all.len() as u32) as usize])
    }
}

struct Walk {
    session: Session,
    random: Random,
    actions: Vec<Action>,
    next_cookie: u64,
    kept: HashSet<u64>,
    started: HashSet<u64>,
    running: Vec<u64>,
    stopping: Vec<u64>,
    ready: HashSet<u16>,
    closed: HashSet<u16>,
    lost: HashSet<u16>,
    /// Of each connection what its last PDU showed (the next StatSN, ExpCmdSN, MaxCmdSN), and how many aren't written.
    shown: HashMap<u16, (u32, u32, u32)>,
    handed: HashMap<u16, usize>,
    pings: Vec<(u16, u32)>,
}

impl Walk {
    fn new(seed: u64) -> Walk {
        let mut random = Random(seed.wrapping_mul(0x9e37_79b9_7f4a_7c15) | 1);
        let options = Options::new().window(1 + random.below(6)).units(2).depth(4).own(3).unwritten(UNWRITTEN as u32);
        let options = options.acknowledged(random.below(2) == 0).shared(random.below(2) == 0).level(2);
        let mut session = Session::open(&options, &CIDS).expect("the options are right");
        let shown = CIDS.iter().map(|cid| (*cid, (1, 1, 0))).collect();
        CIDS.iter().for_each(|cid| session.join(*cid, 1, |action| panic!("{action:?}")).expect("it joins"));
        let (kept, started, ready, closed, lost, handed) = Default::default();
        let (running, stopping, pings, actions) = Default::default();
        Walk {
            session,
            random,
            actions,
            next_cookie: 0,
            kept,
            started,
            running,
            stopping,
            ready,
            closed,
            lost,
            shown,
            handed,
            pings,
        }
    }

    /// A call, with what it tells.
    fn call<T>(
        &mut self,
        call: impl FnOnce(&mut Session, &mut dyn FnMut(Action)) -> Result<T, Refusal>,
    ) -> Result<T, Refusal> {
        let Walk { session, actions, .. } = self;
        let answer = call(session, &mut |action| actions.push(action));
        for action in std::mem::take(&mut self.actions) {
            self.take(action);
        }
        answer
    }

    fn take(&mut self, action: Action) {
        match action {
            Action::Start { ticket, cookie, .. } => {
                assert!(self.kept.contains(&cookie) && self.started.insert(ticket), "{action:?}");
                self.running.push(ticket);
            }
            Action::Stop { ticket, cookie, .. } => {
                assert!(self.kept.contains(&cookie) && self.running.contains(&ticket), "{action:?}");
                self.running.retain(|one| *one != ticket);
                self.stopping.push(ticket);
            }
            Action::Ready { cid } => assert!(self.ready.insert(cid) && !self.lost.contains(&cid), "{action:?}"),
            Action::Close { cid } => assert!(self.closed.insert(cid), "{action:?}"),
            Action::Forget { cookie } => assert!(self.kept.remove(&cookie), "{action:?}"),
            Action::Reset { unit, .. } => assert!(unit < 2, "{action:?}"),
        }
    }

    fn cookie(&mut self) -> u64 {
        self.next_cookie += 1;
        self.kept.insert(self.next_cookie);
        self.next_cookie
    }

    /// A request of any kind, near to what is expected.
    fn request(&mut self) -> Request {
        let random = &mut self.random;
        let opcodes = [Opcode::ScsiCommand, Opcode::TaskManagement, Opcode::NopOut, Opcode::Text, Opcode::DataOut];
        let opcode = [opcodes[0]; 8].into_iter().chain([opcodes[1]; 4]).chain(opcodes).nth(random.below(17) as usize);
        let function =
            [Function::AbortTask, Function::AbortTaskSet, Function::ClearTaskSet, Function::LogicalUnitReset];
        let attribute = [Attribute::Simple, Attribute::Simple, Attribute::Ordered, Attribute::HeadOfQueue];
        let opcode = if random.below(60) == 0 { Opcode::Logout } else { opcode.expect("one of 17") };
        let request = Request::new(opcode).with_immediate(random.below(4) == 0).with_tag(random.below(12));
        let request = match opcode {
            Opcode::ScsiCommand => request.with_attribute(attribute[random.below(4) as usize]),
            Opcode::TaskManagement => request.with_function(function[random.below(4) as usize]),
            Opcode::Logout => request.with_reason(LogoutReason::CloseConnection),
            Opcode::NopOut if random.below(2) == 0 => request.with_tag(Request::NO_TAG),
            _ => request,
        };
        let near = self.session.numbers().exp_cmd_sn.wrapping_add(random.below(4)).wrapping_sub(random.below(2));
        let request = request.with_cmd_sn(near).with_referenced_cmd_sn(near.wrapping_sub(random.below(3)));
        match opcode {
            Opcode::Logout => request.with_cid(CIDS[random.below(3) as usize]),
            Opcode::ScsiCommand => request.with_unit(random.below(3) as u16),
            _ => request.with_unit(random.below(2) as u16).with_referenced_tag(random.below(12)),
        }
    }

    fn arrive(&mut self, cid: u16) {
        let (mut request, cookie) = (self.request(), self.cookie());
        if let Some((of, tag)) = self.pings.pop() {
            let answer = Request::new(Opcode::NopOut).with_immediate(true).with_tag(Request::NO_TAG);
            request = if of == cid { answer.with_transfer_tag(tag) } else { request };
        }
        let request = request.with_exp_stat_sn(self.shown[&cid].0);
        match self.call(|session, tell| session.arrive(cid, &request, cookie, tell)) {
            Ok(()) => {}
            Err(why) => {
                let is_right = why == Refusal::Busy || why == Refusal::NotJoined && self.lost.contains(&cid);
                assert!(is_right && self.kept.remove(&cookie), "{why}");
            }
        }
    }

    fn next(&mut self, cid: u16) {
        let was_ready = self.ready.contains(&cid);
        let pdu = match self.call(|session, tell| session.next(cid, tell)) {
            Ok(pdu) => pdu,
            Err(Refusal::Blocked) => return assert_eq!(self.handed[&cid], UNWRITTEN),
            Err(Refusal::Nothing) => {
                self.ready.remove(&cid);
                return;
            }
            Err(Refusal::Over) => {
                self.ready.remove(&cid);
                return assert!(self.closed.contains(&cid));
            }
            Err(why) => panic!("{why}"),
        };
        assert!(was_ready, "{pdu:?} goes out on {cid}, which wasn't told");
        assert!(pdu.cookie().is_none_or(|cookie| self.kept.contains(&cookie)), "{pdu:?} is of what was forgotten");
        let number = |at: usize| u32::from_be_bytes(pdu[at..at + 4].try_into().expect("four bytes"));
        let (stat_sn, exp, max) = self.shown[&cid];
        assert!(
            number(24) == stat_sn && number(28) >= exp && number(32) >= max,
            "{pdu:?} behind {:?}",
            self.shown[&cid]
        );
        let counts = pdu.kind() == PduKind::Reply || pdu[0] == 0x32;
        self.shown.insert(cid, (stat_sn + u32::from(counts), number(28), number(32)));
        *self.handed.entry(cid).or_default() += 1;
        if pdu.kind() == PduKind::Ping {
            self.pings.push((cid, number(20)));
        }
    }

    fn put(&mut self, cid: u16) {
        let mut header = [0; 48];
        (header[0], header[1]) = (0x32, 0x80);
        let cookie = self.cookie();
        if let Err(why) = self.call(|session, tell| session.put(cid, &header, cookie, tell)) {
            assert!([Refusal::Full, Refusal::Closed].contains(&why) && self.kept.remove(&cookie), "{why}");
        }
        (header[0], header[1]) = (0x25, 0x80);
        if let Some(ticket) = self.random.one_of(&self.running) {
            let put = self.call(|session, tell| session.put_data(ticket, &header, tell));
            assert!(put.is_ok() || put == Err(Refusal::Full), "{put:?}");
        }
    }

    /// A command completes, or has stopped.
    fn end(&mut self) {
        if let Some(ticket) = self.random.one_of(&self.running).filter(|_| self.random.below(2) == 0) {
            self.running.retain(|one| *one != ticket);
            assert_eq!(self.call(|session, tell| session.complete(ticket, 0, tell)), Ok(()));
        }
        if let Some(ticket) = self.random.one_of(&self.stopping) {
            self.stopping.retain(|one| *one != ticket);
            let is_late = self.random.below(3) == 0;
            let ended = self.call(|session, tell| match is_late {
                true => session.complete(ticket, 0, tell),
                false => session.stopped(ticket, tell),
            });
            assert_eq!(ended, Ok(()), "ticket {ticket}");
            assert_eq!(self.call(|session, tell| session.stopped(ticket, tell)), Err(Refusal::Stale));
        }
    }

    fn lose(&mut self, cid: u16) {
        let was_lost = !self.lost.insert(cid);
        let wanted = if was_lost { Err(Refusal::NotJoined) } else { Ok(()) };
        self.ready.remove(&cid);
        assert_eq!(self.call(|session, tell| session.lose(cid, tell)), wanted);
    }

    fn step(&mut self) {
        let cid = CIDS[self.random.below(3) as usize];
        let unit = self.random.below(2) as u16;
        match self.random.below(100) {
            0..=39 => self.arrive(cid),
            40..=59 => self.next(cid),
            60..=75 => {
                assert_eq!(self.call(|session, tell| session.written(cid, tell)), Ok(()));
                self.handed.entry(cid).and_modify(|count| *count = count.saturating_sub(1));
            }
            76..=91 => self.end(),
            92..=95 => self.put(cid),
            96 => assert_eq!(self.call(|session, tell| session.clear(unit, tell)), Ok(())),
            97 | 98 => assert_eq!(self.call(|session, tell| session.cleared(unit, tell)), Ok(())),
            _ if self.random.below(8) == 0 => self.lose(cid),
            _ => {}
        }
    }
}

/// What is left once all connections are lost, and all commands have stopped.
fn end(mut walk: Walk) -> usize {
    CIDS.iter().for_each(|cid| walk.lose(*cid));
    assert_eq!(walk.running, [0; 0]);
    while !walk.stopping.is_empty() {
        walk.end();
    }
    walk.kept.len()
}

#[test]
fn walks() {
    let (mut tickets, mut cookies, mut closing) = (0, 0, 0);
    for seed in 1..=400 {
        let mut walk = Walk::new(seed);
        (0..600).for_each(|_| walk.step());
        (tickets, cookies) = (tickets + walk.started.len(), cookies + walk.next_cookie);
        closing += u64::from(walk.closed.len() + walk.lost.len() > 0);
        assert_eq!(end(walk), 0, "seed {seed}: cookies are kept for ever");
    }
    assert!(tickets > 1000 && cookies > 10_000 && closing > 50, "{tickets} {cookies} {closing}");
}
