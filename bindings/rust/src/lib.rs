//! The command queue, the task manager and the sending side of an iSCSI target (RFC 7143 sections 4.2.2, 4.2.3, 11.5
//! and 11.6; SAM-5).
//!
//! The library behind this crate is proved, call by call. By the rules that it carries out it starts each command at
//! most once, and none before its turn; once it has handed out the answer to an abort, nothing of a command that the
//! abort covers goes out, and none touches the medium any more; it answers each request at most once; StatSN, ExpCmdSN
//! and MaxCmdSN never go back. Not of all calls it is proved that they follow these rules over a whole run: the
//! repository's README says of which. This crate and the C interface's text are not proved, but tested.
//!
//! A [`Session`] is one iSCSI session in its Full Feature Phase. A target has four duties beside it:
//!
//! 1. It gives each request's header to [`Session::arrive`], with a cookie under which it keeps what it needs of that
//!    request, until [`Action::Forget`].
//! 2. It starts a command at [`Action::Start`], and says by [`Session::complete`] that it ended.
//! 3. It stops a command at [`Action::Stop`], and says by [`Session::stopped`] that it has.
//! 4. It sends what [`Session::next`] gives once [`Action::Ready`] tells it, and says by [`Session::written`] that it
//!    is sent.
//!
//! Login, data transfer and what a command means are the target's own part. So is time: no call waits, and none knows a
//! clock.
//!
//! ```
//! use cundarrix::{Action, Opcode, Options, Request, Session};
//!
//! # fn main() -> Result<(), cundarrix::Refusal> {
//! let mut session = Session::open(&Options::new(), &[1])?;
//! session.join(1, 1, |_| unreachable!("nothing is to be done yet"))?;
//!
//! // A SCSI Command arrives for unit 0, and the unit may start it.
//! let request = Request::new(Opcode::ScsiCommand).with_tag(0xa1).with_cmd_sn(1);
//! let mut started = None;
//! session.arrive(1, &request, 7, |action| {
//!     if let Action::Start { ticket, cookie, .. } = action {
//!         started = Some((ticket, cookie));
//!     }
//! })?;
//! assert_eq!(started, Some((1, 7)));
//!
//! // It ends with status GOOD, and its SCSI Response goes out.
//! session.complete(1, 0x00, |action| assert_eq!(action, Action::Ready { cid: 1 }))?;
//! let response = session.next(1, |_| ())?;
//! assert_eq!((response.len(), response[0], response.cookie()), (48, 0x21, Some(7)));
//!
//! // It is written: what is kept of the request may be freed.
//! session.written(1, |action| assert_eq!(action, Action::Forget { cookie: 7 }))?;
//! # Ok(())
//! # }
//! ```
#![no_std]

mod action;
mod options;
mod pdu;
mod raw;
mod refusal;
mod request;
mod session;

pub use action::{Action, Attribute, Clearing, StopReason};
pub use options::Options;
pub use pdu::{Pdu, PduKind};
pub use refusal::Refusal;
pub use request::{Function, LogoutReason, Opcode, Request};
pub use session::{Numbers, Session};
