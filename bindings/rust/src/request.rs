//! The requests of an initiator, by named fields.

use crate::Attribute;
use core::fmt;
use core::ops::Deref;

/// The basic header segment of a request (RFC 7143 sections 11.2 to 11.16), to be read and made by named fields. It is
/// used as its 48 bytes.
///
/// Which field has a meaning depends on the opcode, and some share a place: see each one. None is checked here. The
/// session looks at the header as it stands.
///
/// ```
/// use cundarrix::{Attribute, Opcode, Request};
///
/// let request = Request::new(Opcode::ScsiCommand).with_attribute(Attribute::Ordered).with_tag(0xa1).with_cmd_sn(7);
/// assert_eq!(request[..2], [0x01, 0x82]);
///
/// let header: [u8; 48] = *request;
/// let read = Request::from(header);
/// assert_eq!((read.attribute(), read.tag(), read.unit()), (Some(Attribute::Ordered), 0xa1, Some(0)));
/// ```
#[derive(Clone, Copy, PartialEq, Eq, Hash)]
#[repr(transparent)]
pub struct Request {
    header: [u8; 48],
}

/// The opcodes of requests (RFC 7143 section 11.2.1.2).
#[derive(Clone, Copy, Debug, PartialEq, Eq, Hash)]
#[non_exhaustive]
pub enum Opcode {
    /// NOP-Out.
    NopOut = 0x00,
    /// SCSI Command.
    ScsiCommand = 0x01,
    /// Task Management Function Request.
    TaskManagement = 0x02,
    /// Login Request.
    Login = 0x03,
    /// Text Request.
    Text = 0x04,
    /// SCSI Data-Out.
    DataOut = 0x05,
    /// Logout Request.
    Logout = 0x06,
    /// SNACK Request.
    Snack = 0x10,
}

/// The functions of a Task Management Function Request (RFC 7143 section 11.5.1, RFC 7144 section 4).
#[derive(Clone, Copy, Debug, PartialEq, Eq, Hash)]
#[non_exhaustive]
pub enum Function {
    /// ABORT TASK.
    AbortTask = 1,
    /// ABORT TASK SET.
    AbortTaskSet = 2,
    /// CLEAR ACA.
    ClearAca = 3,
    /// CLEAR TASK SET.
    ClearTaskSet = 4,
    /// LOGICAL UNIT RESET.
    LogicalUnitReset = 5,
    /// TARGET WARM RESET.
    TargetWarmReset = 6,
    /// TARGET COLD RESET.
    TargetColdReset = 7,
    /// TASK REASSIGN.
    TaskReassign = 8,
    /// QUERY TASK.
    QueryTask = 9,
    /// QUERY TASK SET.
    QueryTaskSet = 10,
    /// I_T NEXUS RESET.
    NexusReset = 11,
    /// QUERY ASYNCHRONOUS EVENT.
    QueryAsynchronousEvent = 12,
}

/// The reasons of a Logout Request (RFC 7143 section 11.14.1).
#[derive(Clone, Copy, Debug, PartialEq, Eq, Hash)]
#[non_exhaustive]
pub enum LogoutReason {
    /// Close the session.
    CloseSession = 0,
    /// Close the connection of the CID field.
    CloseConnection = 1,
    /// Remove the connection for recovery.
    RemoveForRecovery = 2,
}

/// The one of these whose number this is.
macro_rules! by_number {
    ($number:expr; $kind:ident: $($name:ident)+) => {{
        const ALL: &[$kind] = &[$($kind::$name),+];
        let number = $number;
        ALL.iter().copied().find(|one| *one as u8 == number)
    }};
}

const IMMEDIATE: u8 = 0x40;
const FINAL: u8 = 0x80;
const READ: u8 = 0x40;
const WRITE: u8 = 0x20;

/// Numbers of several bytes, the highest byte first: how each is read, how it is set, and where it stands.
macro_rules! numbers {
    ($($(#[$text:meta])* $get:ident $with:ident $at:literal $number:ty;)+) => {
        impl Request {$(
            $(#[$text])*
            pub fn $get(&self) -> $number {
                <$number>::from_be_bytes(self.part($at))
            }

            #[doc = concat!("With this [`", stringify!($get), "`](Request::", stringify!($get), ").")]
            #[must_use]
            pub fn $with(self, number: $number) -> Request {
                self.with_part($at, number.to_be_bytes())
            }
        )+}
    };
}

numbers! {
    /// The eight bytes of the LUN, of a SCSI Command and a Task Management Function Request; also of a NOP-Out and a
    /// Data-Out that have a transfer tag.
    lun with_lun 8 u64;
    /// The Initiator Task Tag. ffffffff ([`Request::NO_TAG`]) names no task.
    tag with_tag 16 u32;
    /// The Expected Data Transfer Length of a SCSI Command.
    expected_length with_expected_length 20 u32;
    /// The Referenced Task Tag of a Task Management Function Request.
    referenced_tag with_referenced_tag 20 u32;
    /// The Target Transfer Tag of a NOP-Out, a Data-Out or a Text Request.
    transfer_tag with_transfer_tag 20 u32;
    /// The CID of a Logout Request, and of a Login Request.
    cid with_cid 20 u16;
    /// The CmdSN. A Data-Out has none.
    cmd_sn with_cmd_sn 24 u32;
    /// The ExpStatSN.
    exp_stat_sn with_exp_stat_sn 28 u32;
    /// The RefCmdSN of a Task Management Function Request.
    referenced_cmd_sn with_referenced_cmd_sn 32 u32;
    /// The DataSN of a Data-Out.
    data_sn with_data_sn 36 u32;
    /// The Buffer Offset of a Data-Out.
    offset with_offset 40 u32;
}

impl Request {
    /// The tag that names no task, and no transfer.
    pub const NO_TAG: u32 = 0xffff_ffff;

    /// A request with this opcode. It isn't immediate, its F bit is set, and all else is zero.
    pub const fn new(opcode: Opcode) -> Request {
        let mut header = [0; 48];
        header[0] = opcode as u8;
        header[1] = FINAL;
        Request { header }
    }

    /// The opcode. `None` where it is none of a request.
    pub fn opcode(&self) -> Option<Opcode> {
        by_number!(self.header[0] & 0x3f; Opcode: NopOut ScsiCommand TaskManagement Login Text DataOut Logout Snack)
    }

    /// The I bit: the request is immediate.
    pub const fn is_immediate(&self) -> bool {
        self.header[0] & IMMEDIATE != 0
    }

    /// With this I bit.
    #[must_use]
    pub const fn with_immediate(self, is_immediate: bool) -> Request {
        self.with_bits(0, IMMEDIATE, if is_immediate { IMMEDIATE } else { 0 })
    }

    /// The F bit: of a Data-Out, that it is the last one of its sequence; of a SCSI Command, that no unsolicited
    /// Data-Out follows.
    pub const fn is_final(&self) -> bool {
        self.header[1] & FINAL != 0
    }

    /// With this F bit.
    #[must_use]
    pub const fn with_final(self, is_final: bool) -> Request {
        self.with_bits(1, FINAL, if is_final { FINAL } else { 0 })
    }

    /// The R bit of a SCSI Command: data for the initiator is expected.
    pub const fn is_read(&self) -> bool {
        self.header[1] & READ != 0
    }

    /// With this R bit.
    #[must_use]
    pub const fn with_read(self, is_read: bool) -> Request {
        self.with_bits(1, READ, if is_read { READ } else { 0 })
    }

    /// The W bit of a SCSI Command: data of the initiator is expected.
    pub const fn is_write(&self) -> bool {
        self.header[1] & WRITE != 0
    }

    /// With this W bit.
    #[must_use]
    pub const fn with_write(self, is_write: bool) -> Request {
        self.with_bits(1, WRITE, if is_write { WRITE } else { 0 })
    }

    /// The task attribute of a SCSI Command. An untagged one counts as SIMPLE. `None` where it is ACA or reserved.
    pub fn attribute(&self) -> Option<Attribute> {
        Attribute::of((self.header[1] & 0x07).max(1))
    }

    /// With this task attribute.
    #[must_use]
    pub const fn with_attribute(self, attribute: Attribute) -> Request {
        self.with_bits(1, 0x07, attribute as u8)
    }

    /// The function of a Task Management Function Request. `None` where neither RFC names it.
    pub fn function(&self) -> Option<Function> {
        by_number!(
            self.header[1] & 0x7f;
            Function: AbortTask AbortTaskSet ClearAca ClearTaskSet LogicalUnitReset TargetWarmReset TargetColdReset
                TaskReassign QueryTask QueryTaskSet NexusReset QueryAsynchronousEvent
        )
    }

    /// With this function.
    #[must_use]
    pub const fn with_function(self, function: Function) -> Request {
        self.with_bits(1, 0x7f, function as u8)
    }

    /// The reason of a Logout Request. `None` where the RFC doesn't name it.
    pub fn reason(&self) -> Option<LogoutReason> {
        by_number!(self.header[1] & 0x7f; LogoutReason: CloseSession CloseConnection RemoveForRecovery)
    }

    /// With this reason.
    #[must_use]
    pub const fn with_reason(self, reason: LogoutReason) -> Request {
        self.with_bits(1, 0x7f, reason as u8)
    }

    /// How many bytes of additional header segments follow.
    pub const fn additional_length(&self) -> usize {
        self.header[4] as usize * 4
    }

    /// How long the data segment is (DataSegmentLength), without the bytes that pad it.
    pub fn data_length(&self) -> u32 {
        u32::from_be_bytes(self.part(4)) & 0x00ff_ffff
    }

    /// With this DataSegmentLength, of which 24 bits count.
    #[must_use]
    pub fn with_data_length(self, length: u32) -> Request {
        let [_, low @ ..] = length.to_be_bytes();
        self.with_part(5, low)
    }

    /// The unit that the LUN names, by the single level forms of SAM-5: the peripheral and the flat one. `None` where
    /// it has another form.
    pub fn unit(&self) -> Option<u16> {
        match self.part::<8>(8) {
            [0, unit, 0, 0, 0, 0, 0, 0] => Some(u16::from(unit)),
            [high @ 0x40..=0x7f, low, 0, 0, 0, 0, 0, 0] => Some(u16::from_be_bytes([high & 0x3f, low])),
            _ => None,
        }
    }

    /// With the LUN of this unit, below 16,384: the peripheral form below 256, the flat one from there on.
    #[must_use]
    pub fn with_unit(self, unit: u16) -> Request {
        let [high, low] = unit.to_be_bytes();
        let form = if high == 0 { 0 } else { 0x40 };
        self.with_part(8, [form | high & 0x3f, low, 0, 0, 0, 0, 0, 0])
    }

    /// The CDB of a SCSI Command, or its first 16 bytes.
    pub fn cdb(&self) -> [u8; 16] {
        self.part(32)
    }

    /// With this CDB.
    #[must_use]
    pub fn with_cdb(self, cdb: [u8; 16]) -> Request {
        self.with_part(32, cdb)
    }

    fn part<const N: usize>(&self, at: usize) -> [u8; N] {
        core::array::from_fn(|index| self.header[at + index])
    }

    fn with_part<const N: usize>(mut self, at: usize, bytes: [u8; N]) -> Request {
        self.header[at..at + N].copy_from_slice(&bytes);
        self
    }

    const fn with_bits(mut self, at: usize, mask: u8, bits: u8) -> Request {
        self.header[at] = self.header[at] & !mask | bits & mask;
        self
    }
}

impl From<[u8; 48]> for Request {
    fn from(header: [u8; 48]) -> Request {
        Request { header }
    }
}

impl From<Request> for [u8; 48] {
    fn from(request: Request) -> [u8; 48] {
        request.header
    }
}

impl Deref for Request {
    type Target = [u8; 48];

    fn deref(&self) -> &[u8; 48] {
        &self.header
    }
}

impl AsRef<[u8]> for Request {
    fn as_ref(&self) -> &[u8] {
        &self.header
    }
}

impl fmt::Debug for Request {
    fn fmt(&self, f: &mut fmt::Formatter<'_>) -> fmt::Result {
        let mut fields = f.debug_struct("Request");
        fields.field("opcode", &self.opcode()).field("is_immediate", &self.is_immediate());
        fields.field("tag", &self.tag()).field("cmd_sn", &self.cmd_sn()).finish_non_exhaustive()
    }
}
