//! What a call tells the target to do.

use crate::raw::RawAction;

/// What a target has to do. Each call hands over those that come of it, in their order, the `Forget`s last.
///
/// A new kind would be a new duty, which no target may pass over unseen: so this is no `non_exhaustive` enum, and one
/// more would come with another major version.
#[derive(Clone, Copy, Debug, PartialEq, Eq, Hash)]
pub enum Action {
    /// The unit may start the command. It ends by [`Session::complete`](crate::Session::complete) with its ticket.
    Start {
        /// The command's ticket, its name from now on. Tickets count from 1 and are never used again, as tags are.
        ticket: u64,
        /// The logical unit, from 0.
        unit: u16,
        /// The command's task attribute. The session keeps the order that it asks for.
        attribute: Attribute,
        /// The cookie of its request.
        cookie: u64,
    },
    /// A command that was started is taken out: it isn't answered, and nothing more of it goes out. The unit stops, and
    /// when it doesn't touch the medium for it any more, [`Session::stopped`](crate::Session::stopped) says so: the
    /// answer to what took it out waits for that.
    Stop {
        /// The command's ticket.
        ticket: u64,
        /// The cookie of its request.
        cookie: u64,
        /// Why it is taken out.
        why: StopReason,
    },
    /// This session's initiator reset or cleared a unit that other sessions have, too
    /// ([`Options::shared`](crate::Options::shared)). Each of them is told by its own
    /// [`clear`](crate::Session::clear); once nothing of them touches the unit's medium, also what was marked or aborted
    /// before, this one is told by [`Session::cleared`](crate::Session::cleared).
    Reset {
        /// The logical unit.
        unit: u16,
        /// The function that did it.
        function: Clearing,
    },
    /// The connection has something to send: ask [`Session::next`](crate::Session::next) until it gives nothing. It is
    /// told once until then.
    Ready {
        /// The connection.
        cid: u16,
    },
    /// Nothing goes out on the connection any more: close its transport, and then call
    /// [`Session::lose`](crate::Session::lose).
    Close {
        /// The connection.
        cid: u16,
    },
    /// Nothing speaks of this request any more, nor of this PDU of the target's own: what is kept under the cookie may
    /// be freed. Each cookie that a call took comes back so exactly once.
    Forget {
        /// The cookie.
        cookie: u64,
    },
}

impl Action {
    /// The action that the library wrote.
    ///
    /// # Panics
    ///
    /// Where it has a number that the header doesn't name. The library writes none, so this isn't reached.
    pub(crate) fn of(raw: &RawAction) -> Action {
        let &RawAction { ticket, cookie, cid, unit, .. } = raw;
        match raw.kind {
            1 => Action::Start { ticket, unit, attribute: Attribute::told(raw.attribute), cookie },
            2 => Action::Stop { ticket, cookie, why: StopReason::of(raw.why) },
            3 => Action::Reset { unit, function: Clearing::of(raw.function) },
            4 => Action::Ready { cid },
            5 => Action::Close { cid },
            6 => Action::Forget { cookie },
            kind => unreachable!("the library has no action {kind}"),
        }
    }
}

/// A task attribute (SAM-5), by the ATTR field of the SCSI Command (RFC 7143 section 11.3.1). An untagged command is
/// SIMPLE; ACA isn't supported.
#[derive(Clone, Copy, Debug, PartialEq, Eq, Hash)]
pub enum Attribute {
    /// SIMPLE: it waits for older ORDERED commands and for HEAD OF QUEUE ones.
    Simple = 1,
    /// ORDERED: it waits for all older commands and for HEAD OF QUEUE ones.
    Ordered = 2,
    /// HEAD OF QUEUE: it waits for none.
    HeadOfQueue = 3,
}

impl Attribute {
    /// By its number in a header and in an action.
    pub(crate) fn of(number: u8) -> Option<Attribute> {
        match number {
            1 => Some(Attribute::Simple),
            2 => Some(Attribute::Ordered),
            3 => Some(Attribute::HeadOfQueue),
            _ => None,
        }
    }

    fn told(number: u8) -> Attribute {
        Attribute::of(number).unwrap_or_else(|| unreachable!("the library has no attribute {number}"))
    }
}

/// Why a command is taken out.
#[derive(Clone, Copy, Debug, PartialEq, Eq, Hash)]
#[non_exhaustive]
pub enum StopReason {
    /// By a task management function of its own session.
    Aborted,
    /// By a Logout of its connection or session.
    LoggedOut,
    /// Its connection was lost.
    Lost,
    /// Another session reset its unit ([`Session::clear`](crate::Session::clear)). It alone is answered, with TASK
    /// ABORTED.
    Cleared,
}

impl StopReason {
    fn of(number: u8) -> StopReason {
        match number {
            1 => StopReason::Aborted,
            2 => StopReason::LoggedOut,
            3 => StopReason::Lost,
            4 => StopReason::Cleared,
            _ => unreachable!("the library has no reason {number}"),
        }
    }
}

/// A function that takes all commands of a unit out, whichever session they are of.
#[derive(Clone, Copy, Debug, PartialEq, Eq, Hash)]
#[non_exhaustive]
pub enum Clearing {
    /// CLEAR TASK SET.
    ClearTaskSet,
    /// LOGICAL UNIT RESET.
    LogicalUnitReset,
}

impl Clearing {
    fn of(number: u8) -> Clearing {
        match number {
            4 => Clearing::ClearTaskSet,
            5 => Clearing::LogicalUnitReset,
            _ => unreachable!("the library doesn't clear a unit by function {number}"),
        }
    }
}
