//! What the tests share: requests, and calls with what they tell.

use cundarrix::{Action, Opcode, Refusal, Request};

/// A SCSI Command for unit 0, SIMPLE.
pub fn command(cmd_sn: u32, tag: u32) -> Request {
    Request::new(Opcode::ScsiCommand).with_tag(tag).with_cmd_sn(cmd_sn)
}

/// What a call answers, and what it tells.
pub fn told<T>(call: impl FnOnce(&mut dyn FnMut(Action)) -> Result<T, Refusal>) -> (Result<T, Refusal>, Vec<Action>) {
    let mut actions = Vec::new();
    let answer = call(&mut |action| actions.push(action));
    (answer, actions)
}
