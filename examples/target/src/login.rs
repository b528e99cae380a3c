//! The login of a connection (RFC 7143 sections 6.3, 11.12 and 11.13). Anyone may log in: there is no authentication.

use crate::connection::{Connection, Fault, Member};
use crate::keys::{add_pair, Keys};
use crate::pdu::{opcode, place, Header, Pdu, LONGEST_DATA};
use crate::session::Session;
use crate::threads::lock;
use crate::Target;
use std::io::{Read, Write};
use std::net::TcpStream;
use std::sync::{Arc, Condvar};
use std::time::Instant;

/// Byte 1: the T and C bits, the stage and the next one.
const TRANSIT: u8 = 0x80;
const CONTINUE: u8 = 0x40;
const STAGE: u8 = 0x0c;
const NEXT_STAGE: u8 = 0x03;

/// The stages; the first one, 0, is the security negotiation.
const OPERATIONAL: u8 = 1;
const FULL_FEATURE: u8 = 3;

/// A login has at most so many requests, and none of its texts is longer.
const MOST_REQUESTS: u32 = 100;
const LONGEST_TEXT: usize = 8192;

/// Why a login is refused: Status-Class and Status-Detail.
#[derive(Clone, Copy)]
enum Refused {
    Authentication = 0x0201,
    NotFound = 0x0203,
    Version = 0x0205,
    MissingParameter = 0x0207,
    NotIncluded = 0x0208,
    SessionType = 0x0209,
    NoSession = 0x020a,
    InvalidRequest = 0x020b,
    Unavailable = 0x0301,
    OutOfResources = 0x0302,
}

/// A login under way.
struct Login<'a> {
    target: &'a Arc<Target>,
    stream: &'a Arc<TcpStream>,
    keys: Keys,
    has_declared: bool,
    /// When it must have ended.
    until: Instant,
}

/// Takes a connection to the Full Feature Phase. `None` where the login was refused, or broke off.
pub fn log_in(
    requests: &mut impl Read,
    stream: &Arc<TcpStream>,
    target: &Arc<Target>,
    until: Instant,
) -> Result<Option<Member>, Fault> {
    let mut login = Login { target, stream, keys: Keys::default(), has_declared: false, until };
    for stat_sn in 0..MOST_REQUESTS {
        let Some(request) = Pdu::read(requests, LONGEST_DATA)? else {
            return Ok(None);
        };
        if request.header.opcode() != opcode::LOGIN {
            return Err("a request before the end of the login".into());
        }
        let mut response = login.response(&request.header, stat_sn);
        let taken = login.take(&request, &mut response);
        if let Err(why) = taken {
            response.header.0[place::STATUS..][..2].copy_from_slice(&(why as u16).to_be_bytes());
        }
        (&**stream).write_all(&response.to_bytes())?;
        if !matches!(taken, Ok(None)) {
            return Ok(taken.unwrap_or(None));
        }
    }
    Err("a login without end".into())
}

impl Login<'_> {
    /// A response that echoes what a response must echo. Login requests are immediate: ExpCmdSN is their own CmdSN.
    fn response(&self, request: &Header, stat_sn: u32) -> Pdu {
        let mut header = Header::new(opcode::LOGIN_RESPONSE, request.0[1] & STAGE, request.tag());
        header.0[8..16].copy_from_slice(&request.0[8..16]);
        header.set(place::STAT_SN, stat_sn);
        let exp_cmd_sn = request.number(place::CMD_SN);
        header.set(place::EXP_CMD_SN, exp_cmd_sn);
        header.set(place::MAX_CMD_SN, exp_cmd_sn.wrapping_add(self.target.options.window - 1));
        Pdu { header, data: Vec::new() }
    }

    /// Completes the response, and gives the connection once it is in the Full Feature Phase.
    fn take(&mut self, request: &Pdu, response: &mut Pdu) -> Result<Option<Member>, Refused> {
        let flags = request.header.0[1];
        let stage = (flags & STAGE) >> 2;
        let next = (flags & TRANSIT != 0).then_some(flags & NEXT_STAGE);
        if request.header.0[3] != 0 {
            return Err(Refused::Version);
        }
        // A text that goes on in another request isn't taken.
        let is_odd = next.is_some_and(|next| next <= stage || ![OPERATIONAL, FULL_FEATURE].contains(&next));
        if stage > OPERATIONAL || is_odd || flags & CONTINUE != 0 || request.data.len() > LONGEST_TEXT {
            return Err(Refused::InvalidRequest);
        }
        let answers = self.negotiate(stage, &request.data)?;
        let is_end = next == Some(FULL_FEATURE);
        let member = is_end.then(|| self.join(&request.header, &mut response.header)).transpose()?;
        response.header.0[1] |= next.map_or(0, |next| TRANSIT | next);
        response.data = answers;
        Ok(member)
    }

    fn negotiate(&mut self, stage: u8, text: &[u8]) -> Result<Vec<u8>, Refused> {
        let mut answers = self.keys.negotiate(text).ok_or(Refused::InvalidRequest)?;
        if self.keys.wants_authentication {
            return Err(Refused::Authentication);
        }
        if self.keys.initiator.is_empty() || self.keys.target.is_none() && !self.keys.is_discovery {
            return Err(Refused::MissingParameter);
        }
        if !self.keys.is_discovery && self.keys.target.as_ref() != Some(&self.target.options.name) {
            return Err(Refused::NotFound);
        }
        if stage == OPERATIONAL && !std::mem::replace(&mut self.has_declared, true) {
            add_pair(&mut answers, "MaxRecvDataSegmentLength", &LONGEST_DATA.to_string());
        }
        // An answer in several PDUs isn't sent.
        (answers.len() <= LONGEST_TEXT).then_some(answers).ok_or(Refused::InvalidRequest)
    }

    /// The connection goes to the Full Feature Phase: in the session that the TSIH names, or in a new one, which takes
    /// the place of the one that the same initiator port has.
    fn join(&self, request: &Header, response: &mut Header) -> Result<Member, Refused> {
        let (tsih, isid) = (request.short(place::TSIH), request.part(place::ISID));
        let known = |tsih| lock(&self.target.sessions).by_tsih.get(&tsih).cloned();
        let session = match tsih {
            0 => self.open(request, isid)?,
            _ if self.keys.is_discovery => return Err(Refused::SessionType),
            _ => known(tsih).filter(|session| session.is_of(&self.keys, isid)).ok_or(Refused::NoSession)?,
        };
        let (cid, longest_data) = (request.short(place::CID), self.keys.longest_data as usize);
        let connection = Connection { cid, longest_data, stream: self.stream.clone(), changed: Condvar::new() };
        let (connection, stat_sn) = (Arc::new(connection), response.number(place::STAT_SN) + 1);
        let most = session.keys.connections as usize;
        let numbers = session.with(|state| state.join(&connection, stat_sn, most)).ok_or(Refused::NotIncluded)?;
        response.set(place::EXP_CMD_SN, numbers.exp_cmd_sn);
        response.set(place::MAX_CMD_SN, numbers.max_cmd_sn);
        response.0[place::TSIH..][..2].copy_from_slice(&session.tsih.to_be_bytes());
        Ok(Member { session, connection })
    }

    /// Opens a session. The one that the same initiator port has ends first, with all of its commands. That there is none
    /// is seen under the lock under which the new one is added, so a port never has two.
    fn open(&self, request: &Header, isid: [u8; 6]) -> Result<Arc<Session>, Refused> {
        loop {
            let mut sessions = lock(&self.target.sessions);
            let Some(former) = sessions.by_tsih.values().find(|one| one.is_of(&self.keys, isid)).cloned() else {
                let has_room = sessions.by_tsih.len() < self.target.options.sessions;
                let tsih = sessions.new_tsih().filter(|_| has_room).ok_or(Refused::OutOfResources)?;
                let session = Session::open(self.target, tsih, request, self.keys.clone());
                let session = Arc::new(session.map_err(|_| Refused::OutOfResources)?);
                sessions.by_tsih.insert(tsih, session.clone());
                return Ok(session);
            };
            drop(sessions);
            if !former.abandon(self.until) {
                return Err(Refused::Unavailable);
            }
        }
    }
}
