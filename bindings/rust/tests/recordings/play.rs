//! A target that plays a recording: what stops has stopped at once, and what goes out is written at once.

use crate::text::{Event, Outcome, Recording};
use cundarrix::{Action, Attribute, Options, PduKind, Refusal, Request, Session, StopReason};
use std::collections::{HashMap, VecDeque};

/// The session, and what its target keeps: each request under its place among the events, until it is forgotten.
pub struct Player {
    session: Session,
    kept: HashMap<u64, Request>,
    waiting: VecDeque<Action>,
}

/// What a session opens with for a recording. One that looks for arrival would wait for initiators.
pub fn opened(options: Options, recording: &Recording) -> Result<Player, Refusal> {
    let cids: Vec<u16> = recording.connections.iter().map(|(cid, _)| *cid).collect();
    let session = Session::open(&options.acknowledged(false), &cids)?;
    let mut player = Player { session, kept: HashMap::new(), waiting: VecDeque::new() };
    for (cid, stat_sn) in &recording.connections {
        let Player { session, waiting, .. } = &mut player;
        session.join(*cid, *stat_sn, |action| waiting.push_back(action))?;
    }
    assert!(player.waiting.is_empty());
    Ok(player)
}

fn word_of(attribute: Attribute) -> String {
    match attribute {
        Attribute::Simple => "simple",
        Attribute::Ordered => "ordered",
        Attribute::HeadOfQueue => "head",
    }
    .to_string()
}

impl Player {
    /// Plays an event, which has this place, and gives what came of it.
    pub fn play(&mut self, place: u64, event: &Event) -> Outcome {
        let mut outcome = Outcome::default();
        let Player { session, waiting, .. } = self;
        let tell = |action| waiting.push_back(action);
        match event {
            Event::Arrive { cid, header } => {
                session.arrive(*cid, header, place, tell).expect("it is taken");
                assert!(self.kept.insert(place, Request::from(*header)).is_none());
                outcome.is_nothing = self.waiting == [Action::Forget { cookie: place }];
            }
            Event::Complete { ticket, status } => match session.complete(*ticket, *status, tell) {
                Ok(()) => {}
                Err(Refusal::Stale) => outcome.is_nothing = true,
                Err(why) => panic!("ticket {ticket}: {why}"),
            },
        }
        self.carry_out(&mut outcome);
        outcome
    }

    /// Carries out what waits, and what comes of that.
    fn carry_out(&mut self, outcome: &mut Outcome) {
        while let Some(action) = self.waiting.pop_front() {
            let Player { session, waiting, kept } = self;
            match action {
                Action::Start { ticket, unit, attribute, cookie } => {
                    outcome.starts.push((ticket, kept[&cookie].tag(), unit, word_of(attribute)));
                }
                Action::Stop { ticket, cookie, why } => {
                    assert!(kept.contains_key(&cookie), "{action:?} is of a request that was forgotten");
                    outcome.stops.push((ticket, why == StopReason::LoggedOut));
                    session.stopped(ticket, |action| waiting.push_back(action)).expect("it runs");
                }
                Action::Ready { cid } => self.send(cid, outcome),
                Action::Close { cid } => outcome.closes.push(cid),
                Action::Forget { cookie } => {
                    assert!(kept.remove(&cookie).is_some(), "{action:?} is of a request that was forgotten");
                }
                Action::Reset { .. } => panic!("{action:?}, of a session that has its units alone"),
            }
        }
    }

    /// Sends what a connection has.
    fn send(&mut self, cid: u16, outcome: &mut Outcome) {
        loop {
            let Player { session, waiting, kept } = self;
            match session.next(cid, |action| waiting.push_back(action)) {
                Ok(pdu) if pdu.kind() == PduKind::Notice => assert_eq!((pdu[0], &pdu[16..24]), (0x20, &[0xff; 8][..])),
                Ok(pdu) => {
                    let request = &kept[&pdu.cookie().expect("a reply has a cookie")];
                    let is_reject = pdu[0] == 0x3f;
                    let is_its_own =
                        if is_reject { pdu.data() == &request[..] } else { pdu[16..20] == request[16..20] };
                    assert!(pdu.kind() == PduKind::Reply && is_its_own, "{pdu:?} answers {request:?}");
                    outcome.replies.push((cid, pdu.to_vec()));
                }
                Err(Refusal::Nothing | Refusal::Over) => return,
                Err(why) => panic!("connection {cid}: {why}"),
            }
            session.written(cid, |action| waiting.push_back(action)).expect("it is written");
        }
    }

    /// Nothing goes out that wasn't told. Whoever asks finds nothing.
    pub fn is_silent(&mut self, connections: &[(u16, u32)]) -> bool {
        connections.iter().all(|(cid, _)| {
            let answer = self.session.next(*cid, |action| panic!("{action:?} of connection {cid}, which gave nothing"));
            matches!(answer, Err(Refusal::Nothing | Refusal::Over))
        })
    }

    /// All connections are lost. Gives how many requests are still kept then.
    pub fn end(mut self, connections: &[(u16, u32)]) -> usize {
        for (cid, _) in connections {
            let Player { session, waiting, .. } = &mut self;
            session.lose(*cid, |action| waiting.push_back(action)).expect("it joined");
            self.carry_out(&mut Outcome::default());
        }
        self.kept.len()
    }
}
