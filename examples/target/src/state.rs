//! What a session's lock guards: the library's session, its connections, and what is kept of each request.

use crate::command::{DataIns, Transfer};
use crate::connection::{Attached, Connection, Fault};
use crate::keys::FIRST_BURST;
use crate::pdu::{opcode, place, Header, Pdu, FINAL, NO_TAG, WRITE};
use crate::reset::Reset;
use crate::session::Session;
use crate::unit::Job;
use cundarrix::{Action, Numbers, Refusal};
use disk::{Outcome, Sense, MOST_BYTES};
use std::collections::{HashMap, HashSet, VecDeque};
use std::mem::take;
use std::net::Shutdown;
use std::sync::Arc;
use std::time::Instant;

/// Transfer tags from here on are the library's, for its pings.
const FIRST_PING: u32 = 0x8000_0000;

pub struct State {
    pub library: cundarrix::Session,
    pub connections: HashMap<u16, Attached>,
    /// What is kept of each request, by its cookie, until the library forgets it.
    pub requests: HashMap<u64, Kept>,
    /// What the library told, and isn't carried out yet.
    actions: VecDeque<Action>,
    /// Commands that take no time. Who lets the lock go executes them.
    pub jobs: VecDeque<Job>,
    last_cookie: u64,
    /// The units of whose resets the initiator isn't told yet.
    pub attentions: HashSet<u16>,
    /// Of each unit, how many resets by this session go on, and how many functions are answered behind them.
    pub resets: HashMap<u16, (usize, usize)>,
    /// How many bytes came with requests that may not move data yet, and how many those move that may.
    arrived: usize,
    moving: usize,
    /// Commands that were started, and wait until others have moved their data; and how much each of them moves.
    waiting: VecDeque<(u64, usize)>,
    /// How many threads wait for the session; and no connection joins any more.
    pub waiters: u32,
    pub is_over: bool,
}

/// A request, and of a command that was started what has come of it so far.
#[derive(Default)]
pub struct Kept {
    pub pdu: Pdu,
    pub cid: u16,
    pub ticket: u64,
    pub unit: u16,
    pub work: Work,
    transfer: Transfer,
    /// What it has to put into the library's queue: an R2T, or Data-Ins.
    pub r2t: Option<Header>,
    pub data_ins: DataIns,
    pub outcome: Option<Arc<Outcome>>,
    /// How much of the session's room it takes: until it may move its data, and from then on.
    arrived: usize,
    moving: usize,
    /// The resets of other sessions that wait until its unit has executed it.
    pub resets: Vec<Arc<Reset>>,
}

/// How far the unit of a command has come.
#[derive(Clone, Copy, Default, PartialEq, Eq)]
pub enum Work {
    #[default]
    NotBegun,
    Begun,
    /// It is to stop, and goes on to its end all the same.
    Stopping,
    Ended,
    Stopped,
}

impl Work {
    /// Whether its unit executes it, and so may touch the medium.
    pub fn is_under_way(self) -> bool {
        matches!(self, Work::Begun | Work::Stopping)
    }
}

impl State {
    pub fn new(library: cundarrix::Session) -> State {
        State {
            library,
            connections: HashMap::new(),
            requests: HashMap::new(),
            actions: VecDeque::new(),
            jobs: VecDeque::new(),
            last_cookie: 0,
            attentions: HashSet::new(),
            resets: HashMap::new(),
            arrived: 0,
            moving: 0,
            waiting: VecDeque::new(),
            waiters: 0,
            is_over: false,
        }
    }

    /// Calls the library, and keeps what it tells until `carry_out`, which comes before the lock is let go.
    pub fn call<T>(
        &mut self,
        call: impl FnOnce(&mut cundarrix::Session, &mut dyn FnMut(Action)) -> Result<T, Refusal>,
    ) -> Result<T, Refusal> {
        let State { library, actions, .. } = self;
        call(library, &mut |action| actions.push_back(action))
    }

    /// Carries out what the library told, in its order, and what comes of that.
    pub fn carry_out(&mut self, session: &Arc<Session>) {
        while let Some(action) = self.actions.pop_front() {
            match action {
                Action::Start { ticket, unit, cookie, .. } => self.start(session, ticket, unit, cookie),
                Action::Stop { ticket, cookie, .. } => self.stop(session, ticket, cookie),
                Action::Ready { cid } => self.tell(cid),
                Action::Close { cid } => {
                    self.change(cid, |attached| attached.is_closed = true);
                    self.tell(cid);
                }
                Action::Forget { cookie } => self.forget(session, cookie),
                Action::Reset { unit, function } => self.reset(session, unit, function),
            }
        }
    }

    /// Tells whoever writes on a connection to look again.
    fn tell(&mut self, cid: u16) {
        self.change(cid, |attached| {
            attached.is_told = true;
            if !attached.is_taking {
                attached.wake();
            }
        });
    }

    pub fn change<T>(&mut self, cid: u16, change: impl FnOnce(&mut Attached) -> T) {
        if let Some(attached) = self.connections.get_mut(&cid) {
            change(attached);
        }
    }

    /// A connection joins, whose next StatSN is this, if the session may have one more of at most so many.
    pub fn join(&mut self, connection: &Arc<Connection>, stat_sn: u32, most: usize) -> Option<Numbers> {
        if self.is_over || self.connections.len() >= most {
            return None;
        }
        self.call(|library, tell| library.join(connection.cid, stat_sn, tell)).ok()?;
        let (connection, cid) = (Arc::downgrade(connection), connection.cid);
        let attached = Attached { connection, is_told: true, was_heard: true, ..Attached::default() };
        self.connections.insert(cid, attached);
        Some(self.library.numbers())
    }

    /// The transport of a connection is given up, both ways. Its threads end, and then it is lost.
    pub fn break_off(&mut self, cid: u16) {
        if let Some(attached) = self.connections.get_mut(&cid).filter(|attached| !attached.is_broken) {
            attached.is_broken = true;
            // Where the initiator has closed it already, there is nothing left to close.
            let _ = attached.connection.upgrade().map(|connection| connection.stream.shutdown(Shutdown::Both));
            attached.wake();
        }
    }

    pub fn is_broken(&self, cid: u16) -> bool {
        self.connections.get(&cid).is_none_or(|attached| attached.is_broken)
    }

    /// The session is over: no connection joins, and those that are there are given up.
    pub fn end(&mut self) {
        self.is_over = true;
        let cids: Vec<u16> = self.connections.keys().copied().collect();
        cids.into_iter().for_each(|cid| self.break_off(cid));
    }

    /// Whether nothing is left: no connection, no request, and so no command that a unit works on.
    pub fn is_left(&self) -> bool {
        self.is_over && self.connections.is_empty() && self.requests.is_empty()
    }

    /// Whether there is nothing for the writer of a connection to do.
    pub fn is_quiet(&self, cid: u16) -> bool {
        self.connections.get(&cid).is_some_and(|attached| {
            let has_work = attached.unwritten.is_some() || attached.is_told && !attached.is_taking;
            !attached.is_broken && (attached.is_writing || !has_work)
        })
    }

    /// A connection's clock strikes: an initiator that was silent is asked. One that doesn't answer is given up.
    pub fn strike(&mut self, session: &Session, cid: u16) {
        let patience = session.target.options.ping;
        let is_asked = self.library.is_asked(cid);
        let Some(attached) = self.connections.get_mut(&cid) else {
            return;
        };
        attached.next_strike = Some(Instant::now() + patience / 2);
        let was_heard = take(&mut attached.was_heard);
        match attached.asked {
            _ if was_heard && !is_asked => attached.asked = None,
            Some(since) if since.elapsed() >= patience => self.break_off(cid),
            Some(_) => {}
            // A discovery session knows no pings (RFC 7143 section 4.3): to be silent is enough.
            None => {
                if is_asked || session.keys.is_discovery || self.ping(cid) {
                    self.change(cid, |attached| attached.asked = Some(Instant::now()));
                }
            }
        }
    }

    /// Asks an initiator whether it is there, unless the library has no room for that. Its answer is heard as any other
    /// request is.
    fn ping(&mut self, cid: u16) -> bool {
        let mut header = Header::new(opcode::NOP_IN, FINAL, NO_TAG);
        header.set(place::TRANSFER_TAG, FIRST_PING - 1);
        // Its cookie is that of no request: these count from 1.
        self.call(|library, tell| library.put(cid, &header.0, 0, tell)).is_ok()
    }

    /// Keeps a request that arrived, without data that nothing comes of, and gives its cookie.
    pub fn keep(&mut self, session: &Session, connection: &Connection, mut pdu: Pdu) -> Result<u64, Fault> {
        let most = match pdu.header.opcode() {
            // One byte more than what may come tells that it is wrong.
            opcode::SCSI_COMMAND => session.keys.first_burst as usize + 1,
            opcode::NOP_OUT => connection.longest_data,
            opcode::TEXT => usize::MAX,
            _ => 0,
        };
        if pdu.data.len() > most {
            pdu.data = pdu.data[..most].to_vec();
        }
        let arrived = pdu.data.len();
        // For each place of the window, and for some immediate commands.
        if self.arrived + arrived > (session.target.options.window + 16) as usize * FIRST_BURST as usize {
            return Err("the initiator sends more data ahead than there is room for".into());
        }
        self.arrived += arrived;
        self.last_cookie += 1;
        self.requests.insert(self.last_cookie, Kept { pdu, cid: connection.cid, arrived, ..Kept::default() });
        Ok(self.last_cookie)
    }

    /// Nothing speaks of a request any more, or it wasn't taken.
    pub fn forget(&mut self, session: &Arc<Session>, cookie: u64) {
        if let Some(kept) = self.requests.remove(&cookie) {
            self.arrived -= kept.arrived;
            self.moving -= kept.moving;
            self.admit(session);
        }
    }

    fn start(&mut self, session: &Arc<Session>, ticket: u64, number: u16, cookie: u64) {
        let (unit, Some(kept)) = (&session.target.units[usize::from(number)], self.requests.get_mut(&cookie)) else {
            return;
        };
        (kept.ticket, kept.unit) = (ticket, number);
        let (header, data) = (kept.pdu.header, take(&mut kept.pdu.data));
        let cdb = header.part(place::CDB);
        let (written, read) = unit.disk.lengths(&cdb);
        let (arrived, wanted) = (data.len(), written.min(header.data_length(WRITE)));
        kept.transfer = Transfer::new(&header, data, wanted, session.keys.first_burst as usize);
        // INQUIRY and REPORT LUNS tell no unit attention.
        if ![0x12, 0xa0].contains(&cdb[0]) && self.attentions.remove(&number) {
            return self.conclude(session, cookie, Outcome::failed(Some(Sense::RESET)));
        }
        match arrived.max(wanted).max(read) {
            0 => self.advance(session, cookie),
            length => {
                self.waiting.push_back((cookie, length));
                self.admit(session);
            }
        }
    }

    /// Has the commands go on that wait, in their order, as far as there is room for their data.
    fn admit(&mut self, session: &Arc<Session>) {
        while let Some(&(cookie, length)) = self.waiting.front() {
            if self.moving + length > MOST_BYTES {
                return;
            }
            self.waiting.pop_front();
            if let Some(kept) = self.requests.get_mut(&cookie).filter(|kept| kept.work == Work::NotBegun) {
                self.arrived -= take(&mut kept.arrived);
                kept.moving = length;
                self.moving += length;
                self.advance(session, cookie);
            }
        }
    }

    /// Asks for the data that a command needs next, ahead of what goes out; or gives it to its unit, once all is there.
    fn advance(&mut self, session: &Arc<Session>, cookie: u64) {
        let Some(kept) = self.requests.get_mut(&cookie) else {
            return;
        };
        let (ticket, header, transfer_tag) = (kept.ticket, kept.pdu.header, cookie as u32 % FIRST_PING);
        kept.r2t = kept.transfer.ask(&header, transfer_tag, session.keys.max_burst as usize);
        if kept.r2t.is_some() {
            let cid = kept.cid;
            self.change(cid, |attached| attached.putting.push_front(cookie));
            self.put(cid);
            return;
        }
        let (unit, data) = (session.target.units[usize::from(kept.unit)].clone(), take(&mut kept.transfer).data());
        let job = Job { session: session.clone(), ticket, cookie, unit: unit.clone(), header, data };
        match &unit.workers {
            None => self.jobs.push_back(job),
            // They are there as long as the unit is.
            Some(workers) => drop(workers.send(job)),
        }
    }

    /// A Data-Out arrived. What is for no command any more is discarded.
    pub fn take_data(&mut self, session: &Arc<Session>, cid: u16, pdu: &Pdu) {
        let _ = self.call(|library, tell| library.heard(cid, &pdu.header.0, tell));
        let transfer_tag = pdu.header.number(place::TRANSFER_TAG);
        // The transfer tag is the lower part of the cookie, and no older request with the same one is kept.
        let age = (self.last_cookie as u32).wrapping_sub(transfer_tag) % FIRST_PING;
        let cookie = self.last_cookie.wrapping_sub(age.into());
        let found = self.requests.get_mut(&cookie).filter(|kept| kept.transfer.awaits(transfer_tag));
        if let Some(kept) = found.filter(|kept| kept.cid == cid && kept.pdu.header.tag() == pdu.header.tag()) {
            kept.transfer.take(pdu);
            if pdu.header.is_final() {
                self.advance(session, cookie);
            }
        }
    }

    /// A command is taken out. Where no unit executes it, it has stopped; else its unit says so when it has.
    fn stop(&mut self, session: &Session, ticket: u64, cookie: u64) {
        let Some(kept) = self.requests.get_mut(&cookie) else {
            return;
        };
        kept.transfer = Transfer::default();
        if kept.work.is_under_way() {
            kept.work = Work::Stopping;
            return;
        }
        kept.work = Work::Stopped;
        session.stopped.notify_all();
        let _ = self.call(|library, tell| library.stopped(ticket, tell));
    }

    /// How far the unit of a command has come, unless the command was stopped before it began.
    pub fn work(&mut self, cookie: u64) -> Option<&mut Work> {
        self.requests.get_mut(&cookie).map(|kept| &mut kept.work).filter(|work| **work != Work::Stopped)
    }

    /// A unit has executed a command. Whether it is answered.
    pub fn finish(&mut self, session: &Session, job: &Job, outcome: Outcome) -> bool {
        let Some(kept) = self.requests.get_mut(&job.cookie) else {
            return false;
        };
        for reset in kept.resets.drain(..) {
            let _ = session.target.errands.send(Box::new(|| reset.end()));
        }
        let is_answered = kept.work == Work::Begun;
        kept.work = if is_answered { Work::Ended } else { Work::Stopped };
        if is_answered {
            self.conclude(session, job.cookie, outcome);
        } else {
            let _ = self.call(|library, tell| library.stopped(job.ticket, tell));
        }
        is_answered
    }
}
