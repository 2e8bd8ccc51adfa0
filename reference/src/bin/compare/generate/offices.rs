//! Several offices at one box: relief, late frames of overtaken sessions, frames to the wrong office.

use reference::link::{End, LONGEST_FRAME};
use reference::office::{Office, WINDOW};
use reference::script::OFFICES;

use super::link::next_frame;
use super::{Generator, Kind};

/// How far back frames are looked for.
const LATEST: u64 = 64;

/// Two offices, by their places, and the sessions that they have when the second relieves the first.
#[derive(Clone, Copy)]
struct Relief {
    offices: [usize; 2],
    sessions: [u32; 2],
}

impl Generator {
    /// Mostly one, or two to four.
    pub(super) fn office_count(&mut self) -> usize {
        if self.kind == Kind::Bench {
            return 1;
        }
        match self.rng.weighted(&[45, 43, 12]) {
            0 => 1,
            1 => self.rng.between(2, 4),
            _ => self.rng.between(5, OFFICES),
        }
    }

    pub(super) fn several_offices(&mut self) {
        match self.rng.weighted(&[64, 16, 8, 7, 5]) {
            0 => self.switch(),
            1 => self.relief(),
            2 => self.frame_of_another(),
            3 => self.full_windows(),
            _ if self.kind == Kind::Allowed => self.switch(),
            _ => self.same_session(),
        }
    }

    pub(super) fn use_office(&mut self, place: usize) {
        if self.simulation.in_use() != place || self.rng.chance(3) {
            self.emit(format!("use {}", place + 1));
        }
    }

    /// The place of one of the offices that take part.
    fn any(&mut self) -> usize {
        (self.first_office + self.rng.below(self.offices)) % OFFICES
    }

    /// To the office whose session is open at the box, or to any.
    pub(super) fn switch(&mut self) {
        let any = self.any();
        let place = match self.rng.weighted(&[40, 59, 1]) {
            0 => self.at_work().unwrap_or(any),
            1 => any,
            _ => self.rng.below(OFFICES),
        };
        self.use_office(place);
    }

    /// The office, other than the one in use, whose session is open at the box.
    pub(super) fn at_work(&self) -> Option<usize> {
        let open = self.simulation.cab().open()?.session;
        let mut offices = self.simulation.offices().enumerate();
        let found = offices.find(|(place, office)| {
            let running = matches!(office, Office::Opening { .. } | Office::Open(_));
            let session = office.progress().map(|now| now.session);
            running && session == Some(open) && *place != self.simulation.in_use()
        });
        found.map(|(place, _)| place)
    }

    /// The sessions of the offices that are not in use.
    pub(super) fn other_sessions(&self) -> Vec<u32> {
        let offices = self.simulation.offices().enumerate();
        let others = offices.filter(|(place, _)| *place != self.simulation.in_use());
        let sessions = others.filter_map(|(_, office)| office.progress().map(|now| now.session));
        sessions.collect()
    }

    pub(super) fn other_session(&mut self) -> u32 {
        let others = self.other_sessions();
        if others.is_empty() {
            return 1;
        }
        self.rng.pick(&others)
    }

    /// One that is not in use, where several take part.
    fn another(&mut self) -> usize {
        let any = self.any();
        if any != self.simulation.in_use() {
            return any;
        }
        let next = (any + OFFICES - self.first_office + 1) % OFFICES % self.offices;
        (self.first_office + next) % OFFICES
    }

    /// The latest frames written for an end that name this session, in order.
    fn naming(&self, end: End, session: u32) -> Vec<u64> {
        let log = self.log_for(end);
        let latest = log.written().saturating_sub(LATEST) + 1..=log.written();
        let names = |index: &u64| log.get(*index).and_then(session_of) == Some(session);
        latest.filter(names).collect()
    }

    /// The next frame for the office in use: mostly one of its own session, else as a bad link brings it.
    pub(super) fn next_for_office(&mut self) -> u64 {
        let place = self.simulation.in_use();
        if self.offices > 1 && self.rng.chance(60) {
            let (session, ..) = self.sessions();
            let own = self.naming(End::Office, session);
            let next = own.iter().find(|index| **index > self.office_had[place]);
            if let Some(index) = next.or(own.last()) {
                self.office_had[place] = *index;
                return *index;
            }
        }
        next_frame(
            &mut self.rng,
            self.simulation.from_cab(),
            &mut self.office_had[place],
        )
    }

    /// A frame that names this session, the latest more often, to an end.
    fn carry_naming(&mut self, end: End, session: u32) {
        let indexes = self.naming(end, session);
        let Some(last) = indexes.last() else {
            return;
        };
        let index = if self.rng.chance(45) {
            *last
        } else {
            self.rng.pick(&indexes)
        };
        self.carry(end, index);
    }

    fn frame_of_another(&mut self) {
        let session = self.other_session();
        let end = self.rng.pick(&[End::Box, End::Office, End::Office]);
        self.carry_naming(end, session);
    }

    /// Opens a session above all others at the office in use, and mostly brings it to work.
    pub(super) fn begin(&mut self) {
        self.enough_room();
        let (_, _, next) = self.sessions();
        let above = self.rng.pick(&[0, 0, 0, 1, 3]);
        self.open_session(next.saturating_add(above));
        if self.rng.chance(85) {
            self.carry_whole(End::Box, self.simulation.from_offices().written());
            self.carry_whole(End::Office, self.simulation.from_cab().written());
        }
    }

    pub(super) fn enough_room(&mut self) {
        if self.simulation.room() < LONGEST_FRAME {
            let room = self.rng.pick(&[LONGEST_FRAME, 64, 512]);
            self.emit(format!("room {room}"));
        }
    }

    /// One or several orders at the office in use.
    fn issue_some(&mut self) {
        if self.rng.chance(30) {
            let count = self.rng.between(1, 4);
            self.batch_of(count);
        } else {
            for _ in 0..self.rng.between(1, 3) {
                self.issue();
            }
        }
    }

    /// The office in use is relieved by another one while its orders are on their way.
    fn relief(&mut self) {
        if !matches!(self.simulation.office(), Office::Open(_)) || self.rng.chance(20) {
            self.begin();
        }
        let first = self.simulation.in_use();
        let (session, ..) = self.sessions();
        self.issue_some();
        for _ in 0..self.rng.below(4) {
            self.carry_naming(End::Box, session);
        }
        let second = self.another();
        self.use_office(second);
        self.enough_room();
        let (_, _, next) = self.sessions();
        self.open_session(next);
        let relief = Relief {
            offices: [first, second],
            sessions: [session, next],
        };
        self.bring_open(relief);
        for _ in 0..self.rng.between(4, 16) {
            self.relief_move(relief);
        }
    }

    /// The second office's OPEN, alone or in a run with late frames of the first one before and behind it.
    fn bring_open(&mut self, relief: Relief) {
        let open = self.simulation.from_offices().written();
        match self.rng.weighted(&[55, 35, 10]) {
            0 => self.carry_whole(End::Box, open),
            1 => {
                let late = self.naming(End::Box, relief.sessions[0]);
                let mut indexes = vec![open];
                for place in [0, 0, 1, 1, 1].into_iter().take(self.rng.between(1, 5)) {
                    if !late.is_empty() {
                        let place = if place == 0 { 0 } else { indexes.len() };
                        indexes.insert(place, self.rng.pick(&late));
                    }
                }
                self.written_run(&indexes);
                // Which is told the higher one, if the run opened two.
                if self.rng.chance(15) {
                    self.restart();
                }
            }
            // It is late itself.
            _ => {}
        }
    }

    fn relief_move(&mut self, relief: Relief) {
        let which = self.rng.below(2);
        let [of, to] = [0, 0].map(|_| self.rng.below(2));
        match self.rng.weighted(&[26, 32, 12, 8, 7, 7, 3, 4, 1]) {
            0 => self.carry_naming(End::Box, relief.sessions[which]),
            1 => {
                self.use_office(relief.offices[to]);
                self.carry_naming(End::Office, relief.sessions[of]);
            }
            2 => {
                self.use_office(relief.offices[1]);
                self.issue_some();
            }
            3 => {
                self.use_office(relief.offices[which]);
                self.resend();
            }
            4 => {
                let sessions = relief.sessions;
                let mut indexes = sessions.map(|session| self.naming(End::Box, session)).concat();
                indexes.sort_unstable();
                let from = indexes.len().saturating_sub(self.rng.between(2, 8));
                self.written_run(&indexes[from..]);
            }
            5 => {
                self.use_office(relief.offices[which]);
                let line = self.rng.pick(&["show", "describe"]);
                self.emit(line);
            }
            6 => self.restart_between(relief),
            7 => {
                self.use_office(relief.offices[0]);
                self.issue_some();
            }
            // The first one comes back.
            _ => {
                self.use_office(relief.offices[0]);
                self.begin();
            }
        }
    }

    /// A restart; then late frames of both sessions, and each one's answers to the other office first.
    fn restart_between(&mut self, relief: Relief) {
        self.restart();
        for session in relief.sessions {
            self.carry_naming(End::Box, session);
        }
        for place in [0, 1, 0, 1] {
            if self.rng.chance(60) {
                let of = if self.rng.chance(70) { 1 - place } else { place };
                self.use_office(relief.offices[place]);
                self.carry_naming(End::Office, relief.sessions[of]);
            }
        }
    }

    /// Two offices with as many unanswered orders as there may be; each sends some again.
    fn full_windows(&mut self) {
        let offices = [self.simulation.in_use(), self.another()];
        for place in offices {
            self.use_office(place);
            if !matches!(self.simulation.office(), Office::Open(_)) || self.rng.chance(30) {
                self.begin();
            }
            let items: Vec<Vec<u8>> = (self.unanswered()..WINDOW).map(|_| self.order()).collect();
            self.emit([b"issue-all ", &items.join(&b" / "[..])[..], b" into 516"].concat());
        }
        for _ in 0..self.rng.between(2, 8) {
            let place = self.rng.pick(&offices);
            self.use_office(place);
            let (session, ..) = self.sessions();
            match self.rng.weighted(&[40, 15, 25, 20]) {
                0 => self.resend(),
                1 => self.issue(),
                2 => self.carry_naming(End::Box, session),
                _ => self.carry_naming(End::Office, session),
            }
        }
    }

    /// A second office opens the very session that the first one has, which no list of demand 3 may do.
    fn same_session(&mut self) {
        self.enough_room();
        let session = self.other_session();
        self.emit(format!("open {session}"));
        for _ in 0..self.rng.between(3, 8) {
            match self.rng.weighted(&[30, 30, 20, 20]) {
                0 => self.carry_naming(End::Box, session),
                1 => self.carry_naming(End::Office, session),
                2 => self.issue(),
                _ => self.switch(),
            }
        }
    }
}

/// The session that a written frame names.
fn session_of(frame: &[u8]) -> Option<u32> {
    let session = frame.get(3..7)?;
    Some(u32::from_le_bytes(session.try_into().ok()?))
}
