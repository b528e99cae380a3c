//! The session.

use crate::raw::{self, RawAction, RawNumbers, RawPdu, RawSession, RawTold};
use crate::{Action, Options, Pdu, Refusal};
use core::cell::UnsafeCell;
use core::fmt;

/// So many actions are fetched at a time. Few calls tell more, and none loses any.
const ROOM: usize = 16;

/// ExpCmdSN and MaxCmdSN (RFC 7143 section 4.2.2.1), as a Login Response of one more connection may show them. All
/// other PDUs have theirs by [`Session::next`].
#[derive(Clone, Copy, Debug, PartialEq, Eq, Hash)]
pub struct Numbers {
    /// The lowest CmdSN that isn't received.
    pub exp_cmd_sn: u32,
    /// The greatest CmdSN that was shown to the initiator, which it may send.
    pub max_cmd_sn: u32,
}

/// One iSCSI session in its Full Feature Phase.
///
/// It takes all its memory in [`open`](Session::open), and frees it when it is dropped; no other call allocates.
/// No call blocks. It may be sent to another thread, and takes one call at a time: it is `Send` and not `Sync`.
///
/// # Actions
///
/// Each call hands over the [`Action`]s that come of it to its last argument, one by one and all of them, before it
/// returns; also where it is refused. What is given there is called while the session is borrowed, so it can't call the
/// session: it does at once what is done at once, and puts the rest into a queue of the target's.
///
/// ```
/// # use cundarrix::{Options, Session};
/// # let mut session = Session::open(&Options::new(), &[1])?;
/// let mut actions = Vec::new();
/// session.join(1, 1, |action| actions.push(action))?;
/// # assert_eq!(actions, []);
/// # Ok::<(), cundarrix::Refusal>(())
/// ```
///
/// Actions of different calls are to be carried out in the order of the calls, too. Where threads share the session
/// behind a lock, that is so where each puts its actions into their queues before it lets the lock go.
///
/// Where what is given panics, the actions behind the one it was given aren't lost: the next call hands them over
/// first.
///
/// ```compile_fail
/// fn is_sync<T: Sync>() {}
/// is_sync::<cundarrix::Session>();
/// ```
pub struct Session {
    raw: UnsafeCell<RawSession>,
    told: Told,
}

/// What the library told, of which some is not handed over yet.
struct Told {
    actions: [RawAction; ROOM],
    raw: RawTold,
    given: usize,
}

/// Where the library writes what a call tells.
struct Room {
    actions: *mut RawAction,
    room: usize,
    told: *mut RawTold,
}

impl Told {
    const NONE: Told = Told { actions: [RawAction::EMPTY; ROOM], raw: RawTold::NONE, given: 0 };

    /// Room for another call, once all of the last one was handed over. Not every answer writes what it told.
    fn room(&mut self) -> Room {
        self.raw = RawTold::NONE;
        self.given = 0;
        Room { actions: self.actions.as_mut_ptr(), room: ROOM, told: &mut self.raw }
    }

    /// The next action that was written. It counts as handed over.
    #[inline]
    fn next(&mut self) -> Option<Action> {
        let is_told = self.given < self.raw.count as usize;
        let raw = self.actions.get(self.given).filter(|_| is_told)?;
        self.given += 1;
        Some(Action::of(raw))
    }
}

// SAFETY: all that the session holds is behind `at`, which no other value points to, and was made by `malloc`, whose
// memory any thread may use and free. It has no thread's own data and no lock. That the session behind it may be sent
// is proved: its type is Send in the library. It isn't Sync: calls with `&self` go through the cell.
unsafe impl Send for Session {}

impl Session {
    /// Opens a session whose connections have these CIDs, 1 to 64 of them: all that may ever be. None has joined yet.
    ///
    /// # Errors
    ///
    /// [`Refusal::BadOptions`] and [`Refusal::NoMemory`].
    pub fn open(options: &Options, cids: &[u16]) -> Result<Session, Refusal> {
        let raw = UnsafeCell::new(RawSession::CLOSED);
        // SAFETY: the session is closed, and the pointers are those of references.
        let answer = unsafe { raw::iscsi_c_open(&options.raw, cids.as_ptr(), cids.len(), raw.get()) };
        let session = Session { raw, told: Told::NONE };
        Refusal::check(answer).map(|()| session)
    }

    /// A connection's login ended: this is the StatSN of its first PDU in the Full Feature Phase (RFC 7143 section
    /// 4.2.2.2).
    ///
    /// # Errors
    ///
    /// [`Refusal::CannotJoin`].
    pub fn join(&mut self, cid: u16, stat_sn: u32, tell: impl FnMut(Action)) -> Result<(), Refusal> {
        // SAFETY: the session and the room are this one's own.
        self.call(tell, |session, Room { actions, room, told }| unsafe {
            raw::iscsi_c_join(session, cid, stat_sn, actions, room, told)
        })
    }

    /// A request PDU arrived on a connection: this is its basic header segment, and the cookie under which the target
    /// keeps what it keeps of it. The cookie comes back in the actions and PDUs of this request, and by
    /// [`Action::Forget`] at last.
    ///
    /// Data segments, additional header segments and digests are the target's own part. So are Data-Outs and SNACKs:
    /// they are given to [`heard`](Session::heard); here they would be passed over, and their cookies come back at
    /// once.
    ///
    /// # Errors
    ///
    /// [`Refusal::UnknownConnection`], [`Refusal::NotJoined`], [`Refusal::Exhausted`] and [`Refusal::Busy`]. The cookie
    /// isn't kept then, and doesn't come back.
    pub fn arrive(
        &mut self,
        cid: u16,
        header: &[u8; 48],
        cookie: u64,
        tell: impl FnMut(Action),
    ) -> Result<(), Refusal> {
        // SAFETY: the session and the room are this one's own, and the header has as many bytes as is said.
        self.call(tell, |session, Room { actions, room, told }| unsafe {
            raw::iscsi_c_arrive(session, cid, header.as_ptr(), header.len(), cookie, actions, room, told)
        })
    }

    /// A logical unit completed a command, with this SCSI status. Its data was [`put`](Session::put_data) before.
    ///
    /// With CHECK CONDITION (02) the reply carries the sense data of an internal target failure; a target with sense
    /// data of its own puts it in their place as the PDU goes out.
    ///
    /// # Errors
    ///
    /// [`Refusal::Stale`]: there is nothing left to complete or to stop. Of a command that was told to stop and hasn't
    /// [`stopped`](Session::stopped) this is no error: it says that it has, and the status isn't looked at.
    pub fn complete(&mut self, ticket: u64, status: u8, tell: impl FnMut(Action)) -> Result<(), Refusal> {
        // SAFETY: the session and the room are this one's own.
        self.call(tell, |session, Room { actions, room, told }| unsafe {
            raw::iscsi_c_complete(session, ticket, status, actions, room, told)
        })
    }

    /// A command that was told to stop has stopped: its unit doesn't touch the medium for it any more.
    ///
    /// # Errors
    ///
    /// [`Refusal::Stale`]: no such command with this ticket is left to stop.
    pub fn stopped(&mut self, ticket: u64, tell: impl FnMut(Action)) -> Result<(), Refusal> {
        // SAFETY: the session and the room are this one's own.
        self.call(tell, |session, Room { actions, room, told }| unsafe {
            raw::iscsi_c_stopped(session, ticket, actions, room, told)
        })
    }

    /// The next PDU of a connection. It goes into the transport behind all that went before it there, and then
    /// [`written`](Session::written) says so.
    ///
    /// # Errors
    ///
    /// [`Refusal::Nothing`], [`Refusal::Blocked`] and [`Refusal::Over`]: there is none now, until one is written, or
    /// any more.
    pub fn next(&mut self, cid: u16, tell: impl FnMut(Action)) -> Result<Pdu, Refusal> {
        let (mut bytes, mut pdu) = ([0; Pdu::LONGEST], RawPdu::EMPTY);
        // SAFETY: the session and the room are this one's own, and the buffer has as many bytes as is said.
        self.call(tell, |session, Room { actions, room, told }| unsafe {
            raw::iscsi_c_next(session, cid, bytes.as_mut_ptr(), bytes.len(), &mut pdu, actions, room, told)
        })?;
        Ok(Pdu::of(bytes, &pdu))
    }

    /// The target sends a PDU of its own, with a cookie for what goes with it: a NOP-In, a Text Response or an
    /// Asynchronous Message. This is its header; its StatSN, ExpCmdSN and MaxCmdSN are filled in as it goes out.
    ///
    /// # Errors
    ///
    /// [`Refusal::Unfit`], [`Refusal::Closed`] and [`Refusal::Full`]. The cookie isn't kept then, and doesn't come
    /// back.
    pub fn put(&mut self, cid: u16, header: &[u8; 48], cookie: u64, tell: impl FnMut(Action)) -> Result<(), Refusal> {
        self.put_as(cid, 0, header, cookie, tell)
    }

    /// The target sends a Data-In without status, or an R2T, of a command that was started. This is its header; its
    /// StatSN, ExpCmdSN and MaxCmdSN are filled in as it goes out, on the command's own connection and with the cookie
    /// of its request. Where the command is taken out before, it doesn't go out.
    ///
    /// # Errors
    ///
    /// [`Refusal::Unfit`], [`Refusal::Gone`], [`Refusal::Closed`] and [`Refusal::Full`].
    pub fn put_data(&mut self, ticket: u64, header: &[u8; 48], tell: impl FnMut(Action)) -> Result<(), Refusal> {
        match ticket {
            // The library's word for a PDU that is of no command.
            0 => Err(Refusal::Gone),
            _ => self.put_as(0, ticket, header, 0, tell),
        }
    }

    fn put_as(
        &mut self,
        cid: u16,
        ticket: u64,
        header: &[u8; 48],
        cookie: u64,
        tell: impl FnMut(Action),
    ) -> Result<(), Refusal> {
        // SAFETY: the session and the room are this one's own, and the header has as many bytes as is said.
        self.call(tell, |session, Room { actions, room, told }| unsafe {
            raw::iscsi_c_put(session, cid, ticket, header.as_ptr(), header.len(), cookie, actions, room, told)
        })
    }

    /// The oldest PDU of a connection that [`next`](Session::next) gave and that wasn't written yet has gone into the
    /// transport, with its data. Where there is none, nothing changes.
    ///
    /// # Errors
    ///
    /// None that this crate knows of.
    pub fn written(&mut self, cid: u16, tell: impl FnMut(Action)) -> Result<(), Refusal> {
        // SAFETY: the session and the room are this one's own.
        self.call(tell, |session, Room { actions, room, told }| unsafe {
            raw::iscsi_c_written(session, cid, actions, room, told)
        })
    }

    /// A header arrived that isn't given to [`arrive`](Session::arrive), or not yet: a Data-Out, or a request that is
    /// held back while the session is busy. What it says to have arrived is heard.
    ///
    /// # Errors
    ///
    /// None that this crate knows of.
    pub fn heard(&mut self, cid: u16, header: &[u8; 48], tell: impl FnMut(Action)) -> Result<(), Refusal> {
        // SAFETY: the session and the room are this one's own, and the header has as many bytes as is said.
        self.call(tell, |session, Room { actions, room, told }| unsafe {
            raw::iscsi_c_heard(session, cid, header.as_ptr(), header.len(), actions, room, told)
        })
    }

    /// The transport of a connection is gone, and no thread writes there any more: what a Logout of it would do is
    /// done, and isn't answered.
    ///
    /// # Errors
    ///
    /// [`Refusal::UnknownConnection`], and [`Refusal::NotJoined`] where it was lost already.
    pub fn lose(&mut self, cid: u16, tell: impl FnMut(Action)) -> Result<(), Refusal> {
        // SAFETY: the session and the room are this one's own.
        self.call(tell, |session, Room { actions, room, told }| unsafe {
            raw::iscsi_c_lose(session, cid, actions, room, told)
        })
    }

    /// Another session reset or cleared a unit: this session's commands of it stop, and are answered with TASK ABORTED.
    ///
    /// # Errors
    ///
    /// None that this crate knows of.
    pub fn clear(&mut self, unit: u16, tell: impl FnMut(Action)) -> Result<(), Refusal> {
        // SAFETY: the session and the room are this one's own.
        self.call(tell, |session, Room { actions, room, told }| unsafe {
            raw::iscsi_c_clear(session, unit, actions, room, told)
        })
    }

    /// Nothing of any other session touches this unit's medium any more, also what was marked or aborted before, behind an
    /// [`Action::Reset`] of it.
    ///
    /// # Errors
    ///
    /// None that this crate knows of.
    pub fn cleared(&mut self, unit: u16, tell: impl FnMut(Action)) -> Result<(), Refusal> {
        // SAFETY: the session and the room are this one's own.
        self.call(tell, |session, Room { actions, room, told }| unsafe {
            raw::iscsi_c_cleared(session, unit, actions, room, told)
        })
    }

    /// ExpCmdSN as the last event left it, and the last MaxCmdSN that was shown.
    pub fn numbers(&self) -> Numbers {
        let mut numbers = RawNumbers { exp_cmd_sn: 0, max_cmd_sn: 0 };
        // SAFETY: the session is this one's own; no other call runs, as it isn't Sync and no call calls back.
        let answer = unsafe { raw::iscsi_c_numbers(self.raw.get(), &mut numbers) };
        let RawNumbers { exp_cmd_sn, max_cmd_sn } = numbers;
        match Refusal::check(answer) {
            Ok(()) => Numbers { exp_cmd_sn, max_cmd_sn },
            Err(why) => unreachable!("an open session has numbers: {why}"),
        }
    }

    /// Whether a request would be taken now: else [`arrive`](Session::arrive) is refused as [`Refusal::Busy`].
    pub fn may_take(&self) -> bool {
        // SAFETY: as in `numbers`.
        unsafe { raw::iscsi_c_may_take(self.raw.get()) }
    }

    /// Whether a ping of the library's own was handed out on a connection, and isn't answered. Meanwhile it may hold up all
    /// of the session. Time is the target's: one that stays so for longer than its initiators bear is to be
    /// [`lost`](Session::lose).
    pub fn is_asked(&self, cid: u16) -> bool {
        // SAFETY: as in `numbers`.
        unsafe { raw::iscsi_c_is_asked(self.raw.get(), cid) }
    }

    /// Whether a connection may [`join`](Session::join): it is the session's, hasn't joined, is neither closed nor
    /// lost.
    pub fn may_join(&self, cid: u16) -> bool {
        // SAFETY: as in `numbers`.
        unsafe { raw::iscsi_c_may_join(self.raw.get(), cid) }
    }

    /// Closes the session and frees what it holds, as a drop does. Cookies that didn't come back yet don't any more.
    pub fn close(self) {}

    /// Makes a call, and hands over what it tells: before it what an earlier call left, because what was given there
    /// panicked.
    fn call(
        &mut self,
        mut tell: impl FnMut(Action),
        ask: impl FnOnce(*mut RawSession, Room) -> u32,
    ) -> Result<(), Refusal> {
        self.hand_over(&mut tell);
        let answer = ask(self.raw.get_mut(), self.told.room());
        self.hand_over(&mut tell);
        Refusal::check(answer)
    }

    /// Hands over all that was told, until nothing waits in the library either.
    fn hand_over(&mut self, tell: &mut impl FnMut(Action)) {
        loop {
            while let Some(action) = self.told.next() {
                tell(action);
            }
            if self.told.raw.waiting == 0 {
                return;
            }
            let Room { actions, room, told } = self.told.room();
            // SAFETY: the session and the room are this one's own.
            let answer = unsafe { raw::iscsi_c_more(self.raw.get_mut(), actions, room, told) };
            debug_assert_eq!(answer, 0, "an open session tells what waits");
        }
    }
}

impl Drop for Session {
    fn drop(&mut self) {
        // SAFETY: the session is this one's own, and stays a closed one.
        let _ = unsafe { raw::iscsi_c_close(self.raw.get_mut()) };
    }
}

impl fmt::Debug for Session {
    fn fmt(&self, f: &mut fmt::Formatter<'_>) -> fmt::Result {
        f.debug_struct("Session").field("numbers", &self.numbers()).finish_non_exhaustive()
    }
}
