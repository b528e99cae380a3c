//! Refusals.

use core::fmt;

/// Why a call was refused. A call that is refused has changed nothing.
///
/// These are all that the library knows. Those of which it is said that *no call of this crate* answers them are kept
/// out by its types.
#[derive(Clone, Copy, Debug, PartialEq, Eq, Hash)]
#[non_exhaustive]
pub enum Refusal {
    /// An option is outside its limits, a CID stands twice, or there are none or more than 64.
    BadOptions = 1,
    /// Memory was refused. By [`Session::open`](crate::Session::open) alone, which takes all that the session needs.
    NoMemory = 2,
    /// The session isn't open. By no call of this crate.
    NotOpen = 3,
    /// The session is open already. By no call of this crate.
    AlreadyOpen = 4,
    /// A header of fewer than 48 bytes. By no call of this crate.
    ShortHeader = 5,
    /// A buffer that is too short for any PDU. By no call of this crate.
    ShortBuffer = 6,
    /// A null pointer. By no call of this crate.
    NullPointer = 7,
    /// Actions of an earlier call wait. By no call of this crate, as each hands over all.
    ActionsWait = 8,
    /// The CID is none of the session's.
    UnknownConnection = 9,
    /// The connection hasn't joined, or was lost.
    NotJoined = 10,
    /// The session has taken as many requests as its options allow.
    Exhausted = 11,
    /// No more requests are taken until something goes out or stops: hold the request back until
    /// [`Session::may_take`](crate::Session::may_take), and let it be [`heard`](crate::Session::heard) meanwhile.
    Busy = 12,
    /// No command with this ticket was told to start and is left to complete, or to stop.
    Stale = 13,
    /// The connection may not join: it isn't the session's, has joined, is closed or lost.
    CannotJoin = 14,
    /// The header is none of a PDU that the target may put here.
    Unfit = 15,
    /// The command of the PDU isn't live any more, so nothing more of it goes out.
    Gone = 16,
    /// The PDU's connection hasn't joined, is closed or lost.
    Closed = 17,
    /// As many PDUs of the target's own wait on the connection as may.
    Full = 18,
    /// Nothing goes out on the connection now. [`Action::Ready`](crate::Action::Ready) tells when something does.
    Nothing = 19,
    /// As many PDUs of the connection are handed out and not written as may.
    Blocked = 20,
    /// Nothing goes out on the connection any more. [`Action::Close`](crate::Action::Close) was told.
    Over = 21,
}

impl Refusal {
    /// What the library's answer means: `Ok` for 0.
    ///
    /// # Panics
    ///
    /// Where the answer has a number that the header doesn't name. The library has none, so this isn't reached.
    pub(crate) fn check(answer: u32) -> Result<(), Refusal> {
        const ALL: [Refusal; 21] = [
            Refusal::BadOptions,
            Refusal::NoMemory,
            Refusal::NotOpen,
            Refusal::AlreadyOpen,
            Refusal::ShortHeader,
            Refusal::ShortBuffer,
            Refusal::NullPointer,
            Refusal::ActionsWait,
            Refusal::UnknownConnection,
            Refusal::NotJoined,
            Refusal::Exhausted,
            Refusal::Busy,
            Refusal::Stale,
            Refusal::CannotJoin,
            Refusal::Unfit,
            Refusal::Gone,
            Refusal::Closed,
            Refusal::Full,
            Refusal::Nothing,
            Refusal::Blocked,
            Refusal::Over,
        ];
        match answer.checked_sub(1) {
            None => Ok(()),
            Some(place) => match ALL.get(place as usize) {
                Some(refusal) => Err(*refusal),
                None => unreachable!("the library has no answer {answer}"),
            },
        }
    }

    const fn text(self) -> &'static str {
        match self {
            Refusal::BadOptions => "an option is outside its limits, or a CID stands twice",
            Refusal::NoMemory => "out of memory",
            Refusal::NotOpen => "the session isn't open",
            Refusal::AlreadyOpen => "the session is open already",
            Refusal::ShortHeader => "a header has 48 bytes",
            Refusal::ShortBuffer => "the buffer is too short for a PDU",
            Refusal::NullPointer => "a pointer is null",
            Refusal::ActionsWait => "actions of an earlier call wait",
            Refusal::UnknownConnection => "the session has no connection with this CID",
            Refusal::NotJoined => "the connection hasn't joined, or was lost",
            Refusal::Exhausted => "the session has taken as many requests as its options allow",
            Refusal::Busy => "no more requests are taken until something goes out or stops",
            Refusal::Stale => "no command with this ticket is left to complete or to stop",
            Refusal::CannotJoin => "the connection may not join",
            Refusal::Unfit => "the target may put no such PDU",
            Refusal::Gone => "the PDU's command isn't live any more",
            Refusal::Closed => "the PDU's connection isn't open",
            Refusal::Full => "as many PDUs of the target's own wait as may",
            Refusal::Nothing => "nothing goes out on the connection now",
            Refusal::Blocked => "as many PDUs of the connection aren't written as may",
            Refusal::Over => "nothing goes out on the connection any more",
        }
    }
}

impl fmt::Display for Refusal {
    fn fmt(&self, f: &mut fmt::Formatter<'_>) -> fmt::Result {
        f.write_str(self.text())
    }
}

impl core::error::Error for Refusal {}
