//! The target as a program, and an initiator of few words.

use std::io::{BufRead, BufReader, Write};
use std::net::TcpStream;
use std::process::{Child, Command, Stdio};
use std::time::Duration;
use target::pdu::{opcode, place, Header, Pdu, FINAL, LONGEST_DATA, NO_TAG};

const NAME: &str = "iqn.2026-01.example.cundarrix:ram";
const TASK_MANAGEMENT: u8 = 0x02;
const IMMEDIATE: u8 = 0x40;
const CLOSED: u16 = 0xffff;

/// The target on a port of its own. It ends with this.
pub struct Target {
    program: Child,
    address: String,
}

impl Target {
    pub fn start(words: &str) -> Target {
        let mut program = Command::new(env!("CARGO_BIN_EXE_target"))
            .args(["--listen", "127.0.0.1:0", "--size", "16"])
            .args(words.split_whitespace())
            .stdout(Stdio::piped())
            .spawn()
            .expect("the program");
        let mut line = String::new();
        BufReader::new(program.stdout.take().expect("its output")).read_line(&mut line).expect("a line");
        let (_, address) = line.split_once(" at ").expect("an address");
        Target { program, address: address.split(',').next().unwrap_or_default().to_string() }
    }

    /// A socket of it, on which nothing waits for long.
    pub fn connect(&self) -> TcpStream {
        let stream = TcpStream::connect(&self.address).expect("a connection");
        stream.set_read_timeout(Some(Duration::from_secs(20))).expect("a time-out");
        stream
    }

    /// A session of the initiator's port with this number.
    pub fn log_in(&self, port: u8) -> Initiator {
        let (initiator, status) = self.try_log_in(port, 0, &format!("TargetName={NAME}\0"));
        assert_eq!(status, 0, "the login's status");
        initiator
    }

    /// A login in one request, and the status of its response: `CLOSED` where none came.
    pub fn try_log_in(&self, port: u8, tsih: u16, keys: &str) -> (Initiator, u16) {
        let mut header = Header::new(opcode::LOGIN | IMMEDIATE, 0x87, 0);
        header.0[place::ISID + 5] = port;
        header.0[place::TSIH..][..2].copy_from_slice(&tsih.to_be_bytes());
        header.set(place::CMD_SN, 1);
        let data = format!("InitiatorName=iqn.2026-01.example:test\0{keys}").into_bytes();
        let mut initiator = Initiator { stream: self.connect(), next_cmd_sn: 1, exp_stat_sn: 0, tsih: 0 };
        initiator.send(&mut header, &data);
        let Some(Pdu { header: response, .. }) = initiator.receive() else {
            return (initiator, CLOSED);
        };
        assert_eq!(response.opcode(), opcode::LOGIN_RESPONSE);
        initiator.exp_stat_sn = response.number(place::STAT_SN) + 1;
        initiator.tsih = response.short(place::TSIH);
        (initiator, response.short(place::STATUS))
    }
}

impl Drop for Target {
    fn drop(&mut self) {
        self.program.kill().expect("it runs");
        self.program.wait().expect("it ends");
    }
}

pub struct Initiator {
    pub stream: TcpStream,
    next_cmd_sn: u32,
    exp_stat_sn: u32,
    pub tsih: u16,
}

impl Initiator {
    /// Sends a PDU with the session's numbers.
    pub fn send(&mut self, header: &mut Header, data: &[u8]) {
        if header.number(place::CMD_SN) == 0 {
            header.set(place::CMD_SN, self.next_cmd_sn);
            self.next_cmd_sn += u32::from(header.0[0] & IMMEDIATE == 0);
        }
        header.set(place::EXP_CMD_SN, self.exp_stat_sn);
        let bytes = Pdu { header: *header, data: data.to_vec() }.to_bytes();
        self.stream.write_all(&bytes).expect("it is sent");
    }

    /// Sends a command on a unit, with immediate data for what it writes.
    pub fn command(&mut self, tag: u32, unit: u8, cdb: &[u8], room: u32, data: &[u8]) {
        let bits = if room > 0 { 0x40 } else { 0x20 };
        let mut header = Header::new(opcode::SCSI_COMMAND, FINAL | bits | 1, tag);
        header.0[9] = unit;
        header.set(place::EXPECTED_LENGTH, room + data.len() as u32);
        header.0[place::CDB..][..cdb.len()].copy_from_slice(cdb);
        self.send(&mut header, data);
    }

    /// Sends an immediate function on a unit: ABORT TASK (1) of a tag, or LOGICAL UNIT RESET (5).
    pub fn function(&mut self, tag: u32, unit: u8, function: u8, of_tag: u32) {
        let mut header = Header::new(TASK_MANAGEMENT | IMMEDIATE, FINAL | function, tag);
        header.0[9] = unit;
        header.set(place::TRANSFER_TAG, of_tag);
        header.set(place::MAX_CMD_SN, self.next_cmd_sn - 1);
        self.send(&mut header, &[]);
    }

    /// The next PDU that arrives. `None` where the connection is closed.
    pub fn receive(&mut self) -> Option<Pdu> {
        let pdu = Pdu::read(&mut self.stream, LONGEST_DATA).ok()??;
        let counts = ![opcode::DATA_IN, opcode::R2T, opcode::NOP_IN].contains(&pdu.header.opcode());
        self.exp_stat_sn += u32::from(counts);
        Some(pdu)
    }

    /// The answer to a tag: byte 3 (a status) or byte 2 (a function's response), and the sense data's codes.
    pub fn answer(&mut self, tag: u32) -> (u8, Option<[u8; 3]>) {
        loop {
            let Pdu { header, data } = self.receive().expect("an answer");
            if header.tag() == tag && header.opcode() == opcode::SCSI_RESPONSE {
                return (header.0[3], data.get(2..16).map(|sense| [sense[2], sense[12], sense[13]]));
            }
            if header.tag() == tag && header.opcode() == TASK_MANAGEMENT | 0x20 {
                return (header.0[2], None);
            }
        }
    }

    /// The data of the Data-Ins of a tag, to its response with status GOOD.
    pub fn data(&mut self, tag: u32) -> Vec<u8> {
        let mut data = Vec::new();
        loop {
            let pdu = self.receive().expect("an answer");
            match pdu.header.opcode() {
                opcode::DATA_IN if pdu.header.tag() == tag => data.extend(pdu.data),
                opcode::SCSI_RESPONSE if pdu.header.tag() == tag => {
                    assert_eq!(pdu.header.0[3], 0, "the status");
                    return data;
                }
                _ => {}
            }
        }
    }

    /// Answers a NOP-In of the target.
    pub fn answer_ping(&mut self, ping: &Header) {
        let mut header = Header::new(opcode::NOP_OUT | IMMEDIATE, FINAL, NO_TAG);
        header.set(place::TRANSFER_TAG, ping.number(place::TRANSFER_TAG));
        self.send(&mut header, &[]);
    }
}

pub const TEST_UNIT_READY: [u8; 6] = [0; 6];

/// The CDB of a READ (28) or WRITE (2a) of blocks from the first one on.
pub fn blocks(opcode: u8, count: u16) -> [u8; 10] {
    let [high, low] = count.to_be_bytes();
    [opcode, 0, 0, 0, 0, 0, 0, high, low, 0]
}
