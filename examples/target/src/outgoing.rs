//! What goes out: PDUs of the library's and of the target's own, many of them with one call of the system.

use crate::command::DataIns;
use crate::connection::Connection;
use crate::pdu::{opcode, place, Header, Pdu, LONGEST_DATA};
use crate::session::Session;
use crate::state::{Kept, State, Work};
use cundarrix::{PduKind, Refusal};
use disk::Outcome;
use std::collections::VecDeque;
use std::io::{self, ErrorKind, IoSlice, Write};
use std::sync::Arc;

/// A PDU on its way out. The data of a Data-In is a part of what its command has come to.
struct Outgoing {
    pdu: Pdu,
    outcome: Option<Arc<Outcome>>,
}

impl Outgoing {
    fn slices(&self) -> [IoSlice<'_>; 3] {
        let Pdu { header, data } = &self.pdu;
        let data = match &self.outcome {
            Some(outcome) => &outcome.data[header.number(place::OFFSET) as usize..][..header.length()],
            None => data,
        };
        let padding = &[0; 3][..data.len().next_multiple_of(4) - data.len()];
        [IoSlice::new(&header.0), IoSlice::new(data), IoSlice::new(padding)]
    }

    fn length(&self) -> usize {
        self.pdu.header.0.len() + self.pdu.header.length().next_multiple_of(4)
    }
}

/// PDUs that go out together, in their order.
#[derive(Default)]
pub struct Batch {
    pdus: VecDeque<Outgoing>,
    /// How much of the first one is written.
    written: usize,
}

impl Batch {
    /// Writes as much as the stream takes at once. How many bytes that was: none, where it takes none for now.
    pub fn write(&mut self, mut stream: impl Write) -> io::Result<usize> {
        let mut slices: Vec<IoSlice> = self.pdus.iter().flat_map(Outgoing::slices).collect();
        let mut rest = &mut slices[..];
        IoSlice::advance_slices(&mut rest, self.written);
        loop {
            match stream.write_vectored(rest) {
                Ok(0) => return Err(ErrorKind::WriteZero.into()),
                Ok(count) => {
                    self.written += count;
                    return Ok(count);
                }
                Err(why) if why.kind() == ErrorKind::Interrupted => {}
                Err(why) if [ErrorKind::WouldBlock, ErrorKind::TimedOut].contains(&why.kind()) => return Ok(0),
                Err(why) => return Err(why),
            }
        }
    }

    /// Takes out the next PDU, if it is written to its end.
    fn take_written(&mut self) -> bool {
        let length = self.pdus.front().map_or(usize::MAX, Outgoing::length);
        let is_written = self.written >= length;
        if is_written {
            self.written -= length;
            self.pdus.pop_front();
        }
        is_written
    }
}

impl State {
    /// A command is answered: what came of it is kept for the PDUs that tell it.
    pub fn conclude(&mut self, session: &Session, cookie: u64, outcome: Outcome) {
        let Some(kept) = self.requests.get_mut(&cookie) else {
            return;
        };
        let cid = kept.cid;
        if let Some(attached) = self.connections.get_mut(&cid) {
            let longest_data = attached.connection.upgrade().map_or(LONGEST_DATA, |connection| connection.longest_data);
            kept.data_ins = DataIns::new(&kept.pdu.header, outcome.data.len(), &session.keys, longest_data);
            attached.putting.push_back(cookie);
        }
        kept.outcome = Some(Arc::new(outcome));
        self.put(cid);
    }

    /// Puts what waits for room in the library's queue, as far as there is some. Whether there was.
    pub fn put(&mut self, cid: u16) -> bool {
        let mut had_room = false;
        while let Some(cookie) = self.connections.get(&cid).and_then(|attached| attached.putting.front().copied()) {
            match self.put_next(cookie) {
                Ok(()) => {}
                Err(Refusal::Full) => break,
                Err(_) => self.change(cid, |attached| attached.putting.pop_front()),
            }
            had_room = true;
        }
        had_room
    }

    /// Puts the next PDU of a command, which is complete behind its last. At an error but `Full` nothing more follows.
    fn put_next(&mut self, cookie: u64) -> Result<(), Refusal> {
        let kept = self.requests.get(&cookie).filter(|kept| kept.work != Work::Stopped).ok_or(Refusal::Gone)?;
        let (ticket, header) = (kept.ticket, kept.r2t.or_else(|| kept.data_ins.peek()));
        let Some(header) = header else {
            let status = kept.outcome.as_ref().map(|outcome| outcome.status).ok_or(Refusal::Gone)?;
            return self.call(|library, tell| library.complete(ticket, status, tell)).and(Err(Refusal::Gone));
        };
        self.call(|library, tell| library.put_data(ticket, &header.0, tell))?;
        if let Some(Kept { r2t, data_ins, .. }) = self.requests.get_mut(&cookie) {
            if r2t.take().is_none() {
                data_ins.advance();
            }
        }
        Ok(())
    }

    /// What is to be written on a connection now, unless another thread writes there. `None` where there is nothing.
    pub fn take_batch(&mut self, session: &Arc<Session>, connection: &Connection, is_writer: bool) -> Option<Batch> {
        self.carry_out(session);
        let attached = self.connections.get_mut(&connection.cid)?;
        // What the socket didn't take at once is the writer's.
        if attached.is_writing || attached.is_broken || attached.unwritten.is_some() && !is_writer {
            return None;
        }
        let mut batch = attached.unwritten.take().unwrap_or_default();
        if batch.pdus.is_empty() && std::mem::take(&mut attached.is_told) {
            self.fill(session, connection, &mut batch);
        }
        let attached = self.connections.get_mut(&connection.cid).filter(|_| !batch.pdus.is_empty())?;
        attached.is_writing = true;
        Some(batch)
    }

    /// Takes what the library hands out for a connection. Behind the last PDU of all it is given up.
    fn fill(&mut self, session: &Session, connection: &Connection, batch: &mut Batch) {
        let cid = connection.cid;
        loop {
            match self.call(|library, tell| library.next(cid, tell)) {
                Ok(handed) => batch.pdus.push_back(self.outgoing(session, connection, &handed)),
                Err(Refusal::Nothing) if self.put(cid) => {}
                Err(Refusal::Nothing) => return,
                Err(Refusal::Over) if batch.pdus.is_empty() => return self.break_off(cid),
                // As much as may be written together. There may be more behind it.
                Err(_) => return self.change(cid, |attached| attached.is_told = true),
            }
        }
    }

    /// A PDU that the library hands out, with what the target puts into it.
    fn outgoing(&mut self, session: &Session, connection: &Connection, handed: &cundarrix::Pdu) -> Outgoing {
        let mut pdu = Pdu { header: Header(*handed.header()), data: handed.data().to_vec() };
        let kept = handed.cookie().and_then(|cookie| self.requests.get_mut(&cookie));
        match (handed.kind(), kept) {
            (PduKind::Own, Some(Kept { outcome: Some(outcome), .. })) if pdu.header.opcode() == opcode::DATA_IN => {
                return Outgoing { pdu, outcome: Some(outcome.clone()) };
            }
            (PduKind::Reply, Some(kept)) => session.complete_reply(connection, &mut pdu, kept),
            _ => {}
        }
        pdu.header.set_length(pdu.data.len());
        Outgoing { pdu, outcome: None }
    }

    /// A thread has written on a connection. Whether the socket took all that it was given.
    pub fn end_batch(&mut self, cid: u16, mut batch: Batch, written: &io::Result<usize>) -> bool {
        while batch.take_written() {
            let _ = self.call(|library, tell| library.written(cid, tell));
        }
        let is_whole = batch.pdus.is_empty();
        self.change(cid, |attached| {
            attached.is_writing = false;
            if !is_whole {
                // A socket that takes more, if slowly, is as good as an answer.
                attached.was_heard |= !matches!(written, Ok(0));
                attached.unwritten = Some(batch);
                attached.wake();
            }
        });
        if written.is_err() {
            self.break_off(cid);
        }
        is_whole
    }
}
