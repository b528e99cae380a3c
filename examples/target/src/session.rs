//! A session in its Full Feature Phase. Which request executes when, what starts, what stops, and which PDU goes out
//! when with which numbers comes from the library alone. The target's own part is the data of commands, what its units
//! answer, and four things that it puts into the library's replies (`complete_reply`).

use crate::command::complete_response;
use crate::connection::{Connection, Fault};
use crate::keys::{add_pair, pairs, Keys};
use crate::pdu::{opcode, place, Header, Pdu, FINAL, NO_TAG};
use crate::state::{Kept, State, Work};
use crate::threads::{lock, wait_for};
use crate::trace::now;
use crate::unit::Job;
use crate::Target;
use cundarrix::{Options, Refusal};
use disk::Outcome;
use std::sync::{Arc, Condvar, Mutex, MutexGuard};
use std::time::{Duration, Instant};

/// The CIDs of a session that may have several connections: that of the first one, and so many of 0, 1, 2 and so on.
const MOST_CONNECTIONS: usize = 16;

/// The most commands of a unit's task set; the most R2Ts, Data-Ins and pings that wait on a connection; and the most
/// PDUs that are written together.
const DEPTH: u32 = 256;
const MOST_OWN: u32 = 64;
const UNWRITTEN: u32 = 32;

pub struct Session {
    pub tsih: u16,
    isid: [u8; 6],
    pub keys: Keys,
    pub target: Arc<Target>,
    state: Mutex<State>,
    /// A request may be taken that had to wait, or nothing is left of the session.
    changed: Condvar,
    /// A command was stopped, which a worker may be about to begin.
    pub stopped: Condvar,
}

impl Session {
    /// Opens the library's session by its first login, for all connections that may come.
    pub fn open(target: &Arc<Target>, tsih: u16, login: &Header, keys: Keys) -> Result<Session, Refusal> {
        let options = Options::new()
            .first_cmd_sn(login.number(place::CMD_SN))
            .window(target.options.window)
            .units(target.units.len() as u32)
            .depth(DEPTH)
            .level(keys.level)
            .own(MOST_OWN)
            .unwritten(UNWRITTEN)
            .shared(true);
        let first = login.short(place::CID);
        let others = (0..=u16::MAX).filter(|cid| *cid != first);
        let count = if keys.connections == 1 { 1 } else { MOST_CONNECTIONS };
        let cids: Vec<u16> = std::iter::once(first).chain(others).take(count).collect();
        let state = Mutex::new(State::new(cundarrix::Session::open(&options, &cids)?));
        let (isid, target) = (login.part(place::ISID), target.clone());
        Ok(Session { tsih, isid, keys, target, state, changed: Condvar::new(), stopped: Condvar::new() })
    }

    /// Whether it is the session of such an initiator port, for discovery or not.
    pub fn is_of(&self, keys: &Keys, isid: [u8; 6]) -> bool {
        (&self.keys.initiator, self.keys.is_discovery, self.isid) == (&keys.initiator, keys.is_discovery, isid)
    }

    /// A PDU arrived. It waits while the library can't take it.
    pub fn take(self: &Arc<Session>, connection: &Connection, pdu: Pdu) -> Result<(), Fault> {
        let (cid, header) = (connection.cid, pdu.header);
        if self.keys.is_discovery && ![opcode::NOP_OUT, opcode::TEXT, opcode::LOGOUT].contains(&header.opcode()) {
            return Err("a discovery session is for Text and Logout alone".into());
        }
        let mut state = lock(&self.state);
        state.change(cid, |attached| (attached.is_taking, attached.was_heard) = (true, true));
        if header.opcode() == opcode::DATA_OUT {
            state.take_data(self, cid, &pdu);
            self.let_go(state);
            return Ok(());
        }
        let cookie = state.keep(self, connection, pdu)?;
        let arrive = |state: &mut State| state.call(|library, tell| library.arrive(cid, &header.0, cookie, tell));
        let mut taken = arrive(&mut state);
        while taken == Err(Refusal::Busy) && !state.is_broken(cid) {
            // What it acknowledges, and what goes out, may be what all wait for.
            let _ = state.call(|library, tell| library.heard(cid, &header.0, tell));
            self.let_go(state);
            self.write(connection, false);
            state = self.wait(Duration::MAX, |state| !state.library.may_take() && !state.is_broken(cid));
            taken = arrive(&mut state);
        }
        if taken.is_err() {
            state.forget(self, cookie);
        }
        self.let_go(state);
        Ok(taken?)
    }

    /// Waits until this doesn't hold, and so long at the most.
    fn wait(&self, time: Duration, waits: impl FnMut(&mut State) -> bool) -> MutexGuard<'_, State> {
        let mut state = lock(&self.state);
        state.waiters += 1;
        let mut state = wait_for(state, &self.changed, time, waits);
        state.waiters -= 1;
        state
    }

    /// A worker executes a command, unless it was stopped.
    pub fn perform(self: &Arc<Session>, job: &Job) {
        self.let_go(self.execute(lock(&self.state), job));
    }

    /// Executes a command without the lock, unless it was stopped.
    fn execute<'a>(self: &'a Arc<Session>, mut state: MutexGuard<'a, State>, job: &Job) -> MutexGuard<'a, State> {
        let (begin, delay) = (now(), job.unit.delay_before);
        if !delay.is_zero() {
            state = wait_for(state, &self.stopped, delay, |state| state.work(job.cookie).is_some());
        }
        let (mut end, mut is_answered) = (begin, false);
        if let Some(work) = state.work(job.cookie) {
            *work = Work::Begun;
            drop(state);
            let outcome = job.execute();
            end = now();
            state = lock(&self.state);
            is_answered = state.finish(self, job, outcome);
        }
        self.target.trace.write(job, begin, end, is_answered);
        state
    }

    /// Waits for something to write on a connection, whose clock strikes meanwhile. Whether it goes on.
    pub fn await_turn(self: &Arc<Session>, connection: &Connection) -> bool {
        let cid = connection.cid;
        let mut state = lock(&self.state);
        loop {
            let strike = state.connections.get(&cid).and_then(|attached| attached.next_strike);
            let left = strike.map_or(Duration::ZERO, |strike| strike.saturating_duration_since(Instant::now()));
            if left.is_zero() {
                state.strike(self, cid);
                state.carry_out(self);
            }
            if !state.is_quiet(cid) {
                break;
            }
            state.change(cid, |attached| attached.is_idle = true);
            state = wait_for(state, &connection.changed, left, |state| state.is_quiet(cid));
            state.change(cid, |attached| attached.is_idle = false);
        }
        let goes_on = !state.is_broken(cid);
        self.let_go(state);
        goes_on
    }

    /// Its writer, or its reader, writes what there is for a connection. Whether the socket took something.
    pub fn write(self: &Arc<Session>, connection: &Connection, is_writer: bool) -> bool {
        let (cid, mut written) = (connection.cid, Ok(1));
        let mut state = lock(&self.state);
        state.change(cid, |attached| attached.is_taking &= is_writer);
        while let Some(mut batch) = state.take_batch(self, connection, is_writer) {
            self.let_go(state);
            written = batch.write(&*connection.stream);
            state = lock(&self.state);
            if !state.end_batch(cid, batch, &written) {
                break;
            }
        }
        self.let_go(state);
        !matches!(written, Ok(0))
    }

    /// A connection is gone, with its threads. Where that wasn't by a Logout, the session ends with it, as it does
    /// without error recovery; it also ends with its last connection.
    pub fn lose(self: &Arc<Session>, cid: u16) {
        self.with(|state| {
            let was_closed = state.connections.remove(&cid).is_some_and(|attached| attached.is_closed);
            let _ = state.call(|library, tell| library.lose(cid, tell));
            if !was_closed || state.connections.is_empty() {
                state.end();
            }
        });
    }

    /// Another login takes the session's place. Whether all of its commands have stopped, until when at the latest.
    pub fn abandon(self: &Arc<Session>, until: Instant) -> bool {
        self.with(State::end);
        let left = until.saturating_duration_since(Instant::now());
        self.wait(left, |state| !state.is_left()).is_left()
    }

    /// Makes calls under the lock, and does what comes of them.
    pub fn with<T>(self: &Arc<Session>, act: impl FnOnce(&mut State) -> T) -> T {
        let mut state = lock(&self.state);
        let done = act(&mut state);
        self.let_go(state);
        done
    }

    /// Carries out what was told, and lets the lock go. A session of which nothing is left is the target's no more.
    fn let_go<'a>(self: &'a Arc<Session>, mut state: MutexGuard<'a, State>) {
        loop {
            state.carry_out(self);
            let Some(job) = state.jobs.pop_front() else {
                break;
            };
            state = self.execute(state, &job);
        }
        if state.is_left() {
            lock(&self.target.sessions).by_tsih.retain(|_, known| !Arc::ptr_eq(known, self));
        }
        if state.waiters > 0 {
            self.changed.notify_all();
        }
    }

    /// Puts into a reply of the library's what the library doesn't know: what `complete_response` does, the ping's data
    /// of a NOP-In, and the Text Response in place of the Reject. All else of it stays the library's.
    pub fn complete_reply(&self, connection: &Connection, reply: &mut Pdu, kept: &mut Kept) {
        let request = kept.pdu.header;
        match (request.opcode(), reply.header.opcode()) {
            (opcode::SCSI_COMMAND, opcode::SCSI_RESPONSE) => {
                let failed = Outcome::failed(None);
                complete_response(reply, &request, kept.outcome.as_deref().unwrap_or(&failed));
            }
            (opcode::NOP_OUT, opcode::NOP_IN) => reply.data = std::mem::take(&mut kept.pdu.data),
            (opcode::TEXT, opcode::REJECT) if request.tag() != NO_TAG => {
                let answer = self.text_answer(connection, &kept.pdu);
                if let Some(data) = answer.filter(|data| data.len() <= connection.longest_data) {
                    let mut header = Header::new(opcode::TEXT_RESPONSE, FINAL, request.tag());
                    header.set(place::TRANSFER_TAG, NO_TAG);
                    header.0[place::STAT_SN..][..12].copy_from_slice(&reply.header.0[place::STAT_SN..][..12]);
                    *reply = Pdu { header, data };
                }
            }
            _ => {}
        }
    }

    /// The answer to a text of one PDU. `None` where it is longer, or no text: it is rejected then.
    fn text_answer(&self, connection: &Connection, text: &Pdu) -> Option<Vec<u8>> {
        // The F bit, and not the C bit.
        if text.header.0[1] & 0xc0 != FINAL {
            return None;
        }
        let (name, mut answer) = (&self.target.options.name, Vec::new());
        for (key, value) in pairs(&text.data)? {
            if key != "SendTargets" {
                add_pair(&mut answer, key, "NotUnderstood");
            } else if ["All", "", name].contains(&value) {
                add_pair(&mut answer, "TargetName", name);
                add_pair(&mut answer, "TargetAddress", &format!("{},1", connection.stream.local_addr().ok()?));
            }
        }
        Some(answer)
    }
}
