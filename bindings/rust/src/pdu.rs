//! The PDUs that go out.

use crate::raw::RawPdu;
use core::fmt;
use core::ops::Deref;

/// A PDU that goes out now: its header, with StatSN, ExpCmdSN and MaxCmdSN as they are at this moment, and its data
/// segment where it is the library's. It is used as the slice of its bytes.
///
/// Of a PDU that the target put ([`PduKind::Own`]) this is the header alone: its data segment, as long as the header
/// says, is the target's to send behind it.
#[derive(Clone, Copy, PartialEq, Eq)]
pub struct Pdu {
    bytes: [u8; Pdu::LONGEST],
    length: u8,
    kind: PduKind,
    cookie: Option<u64>,
}

/// What kind of PDU it is.
#[derive(Clone, Copy, Debug, PartialEq, Eq, Hash)]
#[non_exhaustive]
pub enum PduKind {
    /// It answers a request: a SCSI Response, a Task Management Function Response, a Logout Response, a NOP-In or a
    /// Reject (RFC 7143 sections 11.4, 11.6, 11.15, 11.19 and 11.17).
    Reply,
    /// The target put it.
    Own,
    /// A NOP-In of the library's own, whose answer tells that what went before it has arrived. Where none comes, it is
    /// the target's to [`lose`](crate::Session::lose) the connection after a time.
    Ping,
    /// A NOP-In that shows MaxCmdSN. It needs no answer.
    Notice,
}

impl PduKind {
    fn of(number: u8) -> PduKind {
        match number {
            1 => PduKind::Reply,
            2 => PduKind::Own,
            3 => PduKind::Ping,
            4 => PduKind::Notice,
            _ => unreachable!("the library has no kind {number} of PDUs"),
        }
    }
}

impl Pdu {
    /// The bytes of a header.
    pub const HEADER: usize = 48;
    /// The most bytes that [`Session::next`](crate::Session::next) gives.
    pub const LONGEST: usize = 96;

    /// The PDU whose bytes the library wrote, and what it said of it.
    pub(crate) fn of(bytes: [u8; Pdu::LONGEST], raw: &RawPdu) -> Pdu {
        let cookie = (raw.has_cookie != 0).then_some(raw.cookie);
        Pdu { bytes, length: raw.length, kind: PduKind::of(raw.kind), cookie }
    }

    /// What kind of PDU it is.
    pub const fn kind(&self) -> PduKind {
        self.kind
    }

    /// The cookie of the request that it answers or is of, or that it was put with. The library's own NOP-Ins have
    /// none.
    pub const fn cookie(&self) -> Option<u64> {
        self.cookie
    }

    /// All of its bytes: its header and its data segment. Its length is a multiple of four, so none pad it.
    pub fn bytes(&self) -> &[u8] {
        self.bytes.get(..usize::from(self.length)).unwrap_or(&self.bytes)
    }

    /// Its header.
    pub fn header(&self) -> &[u8; Pdu::HEADER] {
        let (header, _) = self.bytes.split_first_chunk().unwrap_or_else(|| unreachable!("a PDU has a header"));
        header
    }

    /// Its data segment: nothing, the 20 bytes of sense data and their length, or the 48 of a rejected header.
    pub fn data(&self) -> &[u8] {
        self.bytes().get(Pdu::HEADER..).unwrap_or(&[])
    }
}

impl Deref for Pdu {
    type Target = [u8];

    fn deref(&self) -> &[u8] {
        self.bytes()
    }
}

impl AsRef<[u8]> for Pdu {
    fn as_ref(&self) -> &[u8] {
        self.bytes()
    }
}

impl fmt::Debug for Pdu {
    fn fmt(&self, f: &mut fmt::Formatter<'_>) -> fmt::Result {
        let Pdu { kind, cookie, .. } = self;
        f.debug_struct("Pdu").field("kind", kind).field("cookie", cookie).field("bytes", &self.bytes()).finish()
    }
}
