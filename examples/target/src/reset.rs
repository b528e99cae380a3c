//! Resets of units, which all sessions have.

use crate::session::Session;
use crate::state::State;
use crate::threads::lock;
use cundarrix::Clearing;
use std::sync::Arc;

/// A LOGICAL UNIT RESET of a session: each command of another session that it waits for has this, too.
pub struct Reset {
    session: Arc<Session>,
    unit: u16,
}

impl Reset {
    /// Has all other sessions clear the unit. No lock of a session is held here, as each of them is taken.
    fn run(session: Arc<Session>, unit: u16) {
        let mut others: Vec<_> = lock(&session.target.sessions).by_tsih.values().cloned().collect();
        others.retain(|other| !Arc::ptr_eq(other, &session));
        let reset = Arc::new(Reset { session, unit });
        others.iter().for_each(|other| other.with(|state| state.clear(&reset)));
        reset.end();
    }

    /// One of those that it waits for is done. Behind the last one it is over.
    pub fn end(self: Arc<Reset>) {
        if let Some(Reset { session, unit }) = Arc::into_inner(self) {
            session.with(|state| state.end_resets(unit, 1));
        }
    }
}

impl State {
    /// This session's initiator reset a unit, or cleared its task set there. That is no other session's (TST 1), so
    /// these aren't told, and there is nothing to wait for.
    pub fn reset(&mut self, session: &Arc<Session>, unit: u16, function: Clearing) {
        let (resets, functions) = self.resets.entry(unit).or_default();
        *functions += 1;
        if function == Clearing::LogicalUnitReset {
            *resets += 1;
            // Who resets a unit is told that it was reset, too.
            self.attentions.insert(unit);
            let origin = session.clone();
            let _ = session.target.errands.send(Box::new(move || Reset::run(origin, unit)));
        }
        self.end_resets(unit, 0);
    }

    /// So many resets of a unit are over. Its functions are answered once none goes on any more, as the library takes
    /// each `cleared` for the oldest function, whichever is meant.
    fn end_resets(&mut self, unit: u16, over: usize) {
        let Some((resets, functions)) = self.resets.get_mut(&unit) else {
            return;
        };
        *resets -= over;
        if *resets == 0 {
            for _ in 0..std::mem::take(functions) {
                let _ = self.call(|library, tell| library.cleared(unit, tell));
            }
        }
    }

    /// Another session reset a unit. The reset waits for what the unit executes for this one.
    fn clear(&mut self, reset: &Arc<Reset>) {
        let unit = reset.unit;
        let _ = self.call(|library, tell| library.clear(unit, tell));
        self.attentions.insert(unit);
        for kept in self.requests.values_mut().filter(|kept| kept.unit == unit && kept.work.is_under_way()) {
            kept.resets.push(reset.clone());
        }
    }
}
