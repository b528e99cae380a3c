//! The options of a session.

use crate::raw::RawOptions;
use core::mem::size_of;

/// The options of a session: the defaults, and what is set other than they have it.
///
/// ```
/// # use cundarrix::Options;
/// let options = Options::new().window(64).units(2).acknowledged(false);
/// # assert_ne!(options, Options::default());
/// ```
///
/// Each may be any number here; [`Session::open`](crate::Session::open) refuses those outside their limits.
#[derive(Clone, Copy, Debug, PartialEq, Eq)]
pub struct Options {
    pub(crate) raw: RawOptions,
}

impl Options {
    /// 2^48, the greatest number of [`events`](Options::events).
    pub const MOST_EVENTS: u64 = 1 << 48;

    /// The defaults: first CmdSN 1, a window of 32, one unit with a task set of 64, level 1, 64 own PDUs and 16
    /// unwritten ones a connection, `acknowledged`, not `shared`, and as many events as there can be.
    pub const fn new() -> Options {
        Options {
            raw: RawOptions {
                events: Options::MOST_EVENTS,
                size: size_of::<RawOptions>() as u32,
                first_cmd_sn: 1,
                window: 32,
                units: 1,
                depth: 64,
                level: 1,
                own: 64,
                unwritten: 16,
                acknowledged: 1,
                shared: 0,
                reserved: [0; 6],
            },
        }
    }

    /// The most events that the session takes: 1 to 2^48. A request that arrives is one, so is a command that
    /// completes, and a connection that is lost. 64 + window + 8 a connection are kept back for losses and completions,
    /// so fewer requests are taken.
    pub const fn events(mut self, events: u64) -> Options {
        self.raw.events = events;
        self
    }

    /// The first CmdSN, as the login gave it (RFC 7143 section 4.2.2.1). Any number.
    pub const fn first_cmd_sn(mut self, first_cmd_sn: u32) -> Options {
        self.raw.first_cmd_sn = first_cmd_sn;
        self
    }

    /// The size of the command window, the most numbered commands that are received and not finished: 1 to 1024.
    pub const fn window(mut self, window: u32) -> Options {
        self.raw.window = window;
        self
    }

    /// How many logical units there are, numbered from 0: 1 to 256.
    pub const fn units(mut self, units: u32) -> Options {
        self.raw.units = units;
        self
    }

    /// The most commands that a unit's task set has at one time: 1 to 1024. One more is answered TASK SET FULL.
    pub const fn depth(mut self, depth: u32) -> Options {
        self.raw.depth = depth;
        self
    }

    /// The protocol level: 1, or 2 for QUERY TASK and QUERY TASK SET (RFC 7144).
    pub const fn level(mut self, level: u32) -> Options {
        self.raw.level = level;
        self
    }

    /// The most PDUs of the target's own that wait on a connection: 1 to 1024.
    /// [`Session::put`](crate::Session::put) answers `Full` at one more.
    pub const fn own(mut self, own: u32) -> Options {
        self.raw.own = own;
        self
    }

    /// The most PDUs of a connection that are handed out and not written: 1 to 1024.
    /// [`Session::next`](crate::Session::next) answers `Blocked` at one more.
    pub const fn unwritten(mut self, unwritten: u32) -> Options {
        self.raw.unwritten = unwritten;
        self
    }

    /// Whether a PDU that was written counts as under way until it is known to have arrived, by its initiator's
    /// ExpStatSN or by the answer to a ping of the library's own (RFC 7143 section 4.2.2.3.4). Without, it is enough
    /// that it is written: what lies in the transport of another connection may then still arrive behind the answer to
    /// an abort. With one connection there is no difference.
    pub const fn acknowledged(mut self, acknowledged: bool) -> Options {
        self.raw.acknowledged = acknowledged as u8;
        self
    }

    /// Whether other sessions have the units, too. Then [`Action::Reset`](crate::Action::Reset) is told, and the answer
    /// to a CLEAR TASK SET or LOGICAL UNIT RESET waits for [`Session::cleared`](crate::Session::cleared).
    pub const fn shared(mut self, shared: bool) -> Options {
        self.raw.shared = shared as u8;
        self
    }
}

impl Default for Options {
    /// As [`Options::new`].
    fn default() -> Options {
        Options::new()
    }
}
