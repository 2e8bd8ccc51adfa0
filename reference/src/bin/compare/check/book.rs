//! Document 01's book for several offices: fed the calls' arguments and which of them were refused, with
//! counts and settings of its own.

use std::array;
use std::collections::{BTreeMap, HashSet};

use reference::controller::Controller;
use reference::link::{End, Frame, Order};
use reference::office::{Office, Progress, WINDOW, Word};
use reference::script::{Answer, OFFICES, Simulation};
use reference::settings::Settings;
use reference::stream::Receiver;

use super::{Stop, holds};

pub struct Book {
    /// Every session that an opening named.
    sessions: BTreeMap<u32, Session>,
    /// Those that an OPEN has opened at the box since its start or restart.
    row: Vec<u32>,
    /// The highest of those that ever were.
    highest: u32,
    /// Fresh at a start or restart, then changed by each order taken.
    controller: Controller,
    box_receiver: Receiver,
    offices: [Page; OFFICES],
    in_use: usize,
    from_cab: Written,
    from_offices: Written,
}

struct Session {
    /// The place of the office that named it.
    office: usize,
    issued: Vec<Order>,
    taken: Vec<Order>,
}

/// What the book has of an office.
struct Page {
    stage: Stage,
    session: u32,
    confirmed: usize,
    copy: Controller,
    receiver: Receiver,
}

#[derive(Clone, Copy, PartialEq)]
enum Stage {
    Never,
    Opening,
    Open,
    Over,
}

/// The frames that the answers say were written, one way.
#[derive(Default)]
struct Written {
    frames: Vec<Vec<u8>>,
    all: HashSet<Vec<u8>>,
}

impl Written {
    fn note(&mut self, frame: &[u8]) {
        self.frames.push(frame.to_vec());
        self.all.insert(frame.to_vec());
    }
}

impl Page {
    fn unused() -> Page {
        Page {
            stage: Stage::Never,
            session: 0,
            confirmed: 0,
            copy: Controller::fresh(),
            receiver: Receiver::new(),
        }
    }
}

impl Book {
    pub fn new() -> Book {
        Book {
            sessions: BTreeMap::new(),
            row: Vec::new(),
            highest: 0,
            controller: Controller::fresh(),
            box_receiver: Receiver::new(),
            offices: array::from_fn(|_| Page::unused()),
            in_use: 0,
            from_cab: Written::default(),
            from_offices: Written::default(),
        }
    }

    fn page(&mut self) -> &mut Page {
        &mut self.offices[self.in_use]
    }

    /// How many orders were issued in an office's session.
    fn issued(&self, page: &Page) -> usize {
        let session = self.sessions.get(&page.session);
        session.map_or(0, |session| session.issued.len())
    }

    /// The open session, and how many of its orders were taken.
    fn open(&self) -> Option<(u32, usize)> {
        let session = *self.row.last()?;
        Some((session, self.sessions[&session].taken.len()))
    }

    pub fn receiver(&mut self, end: End) -> &mut Receiver {
        match end {
            End::Box => &mut self.box_receiver,
            End::Office => &mut self.page().receiver,
        }
    }

    /// The frame of that number, counted from 1, among those written for an end.
    pub fn written_for(&self, end: End, index: u64) -> Result<Vec<u8>, Stop> {
        let written = match end {
            End::Box => &self.from_offices,
            End::Office => &self.from_cab,
        };
        let frame = (index as usize)
            .checked_sub(1)
            .and_then(|place| written.frames.get(place));
        frame
            .cloned()
            .ok_or(Stop::Broken("a frame was carried that nobody wrote"))
    }

    pub fn uses(&mut self, number: u64) -> Result<bool, Stop> {
        holds((1..=OFFICES as u64).contains(&number), "there is no such office")?;
        self.in_use = number as usize - 1;
        Ok(true)
    }

    pub fn restarts(&mut self) -> Result<bool, Stop> {
        self.row_as_a_whole()?;
        self.row.clear();
        self.controller = Controller::fresh();
        self.box_receiver = Receiver::new();
        Ok(true)
    }

    /// Between two restarts the settings are the fresh ones after the orders taken of each session opened
    /// since, sessions in rising number, each session's orders being the first that its own office issued.
    pub fn row_as_a_whole(&self) -> Result<(), Stop> {
        let rising: BTreeMap<u32, &Session> =
            self.row.iter().map(|one| (*one, &self.sessions[one])).collect();
        let mut controller = Controller::fresh();
        for session in rising.values() {
            holds(session.issued.starts_with(&session.taken), NOT_THE_FIRST)?;
            session.taken.iter().for_each(|order| order.run(&mut controller));
        }
        holds(controller.settings() == self.controller.settings(), MIXED)
    }

    pub fn opens(&mut self, session: u32, frame: &[u8]) -> Result<bool, Stop> {
        if self.sessions.contains_key(&session) {
            return Err(Stop::NotAllowed);
        }
        let named = Session {
            office: self.in_use,
            issued: Vec::new(),
            taken: Vec::new(),
        };
        self.sessions.insert(session, named);
        *self.page() = Page {
            stage: Stage::Opening,
            session,
            confirmed: 0,
            copy: Controller::fresh(),
            receiver: self.page().receiver.clone(),
        };
        Ok(self.office_wrote(frame, &Frame::Open { session }))
    }

    pub fn opens_again(&mut self, frame: &[u8]) -> Result<bool, Stop> {
        let session = self.page().session;
        let opening = self.page().stage == Stage::Opening;
        Ok(self.office_wrote(frame, &Frame::Open { session }) && opening)
    }

    pub fn issues(&mut self, order: Order, frame: &[u8]) -> Result<bool, Stop> {
        let Page {
            stage,
            session,
            confirmed,
            ..
        } = *self.page();
        holds(stage == Stage::Open, "an office that is not open issued an order")?;
        order.run(&mut self.page().copy);
        let Some(named) = self.sessions.get_mut(&session) else {
            return Ok(false);
        };
        holds(
            named.office == self.in_use,
            "an order was issued in another office's session",
        )?;
        named.issued.push(order.clone());
        let count = named.issued.len();
        holds(count - confirmed <= WINDOW, "more than 8 orders are unanswered")?;
        Ok(self.office_wrote(frame, &order_frame(session, count, order)))
    }

    pub fn sends_again(&mut self, number: usize, frame: &[u8]) -> Result<bool, Stop> {
        let Page {
            stage,
            session,
            confirmed,
            ..
        } = *self.page();
        let issued = self.sessions.get(&session).map_or(&[][..], |named| &named.issued);
        if stage != Stage::Open || number <= confirmed || number > issued.len() {
            return Ok(false);
        }
        let again = order_frame(session, number, issued[number - 1].clone());
        Ok(self.office_wrote(frame, &again))
    }

    fn office_wrote(&mut self, frame: &[u8], right: &Frame) -> bool {
        self.from_offices.note(frame);
        frame == right.to_bytes()
    }

    pub fn box_gets(&mut self, frame: &[u8], answer: &Answer) -> Result<bool, Stop> {
        if !self.from_offices.all.contains(frame) {
            return Err(Stop::NotAllowed);
        }
        let (written, accepted) = match answer {
            Answer::Frame(written) => (written, true),
            Answer::RefusedFrame(_, written) => (written, false),
            // An output that is too short: nothing changes.
            _ => return Ok(true),
        };
        let right = match Frame::from_bytes(frame) {
            Some(Frame::Open { session }) => self.box_opens(session),
            Some(Frame::Order {
                session,
                number,
                order,
            }) => {
                let open = self.open().is_some_and(|(open, _)| open == session);
                holds(
                    open || !accepted,
                    "a session that is not open, or no longer, took an order",
                )?;
                self.box_takes(session, usize::from(number), order)?
            }
            _ => return Ok(false),
        };
        self.from_cab.note(written);
        Ok(*written == right.to_bytes() && accepted != matches!(right, Frame::Refuse { .. }))
    }

    fn box_opens(&mut self, session: u32) -> Frame {
        if session > self.highest {
            self.highest = session;
            self.row.push(session);
        }
        match self.open() {
            Some((open, 0)) if open == session => Frame::Welcome {
                session,
                settings: *self.controller.settings(),
            },
            Some((open, taken)) if open == session => ack(session, taken),
            _ => Frame::Refuse { session, number: 6 },
        }
    }

    fn box_takes(&mut self, session: u32, number: usize, order: Order) -> Result<Frame, Stop> {
        let refuse = |number| Ok(Frame::Refuse { session, number });
        match self.open() {
            None => refuse(5),
            Some((open, _)) if open != session => refuse(6),
            Some((_, taken)) if number <= taken => Ok(ack(session, taken)),
            Some((_, taken)) if number > taken + 1 => refuse(7),
            _ => {
                let Some(named) = self.sessions.get_mut(&session) else {
                    return Err(Stop::Broken(NOT_THE_FIRST));
                };
                holds(named.issued.get(number - 1) == Some(&order), NOT_THE_FIRST)?;
                order.run(&mut self.controller);
                named.taken.push(order);
                Ok(ack(session, number))
            }
        }
    }

    pub fn office_gets(&mut self, frame: &[u8], answer: &Answer) -> Result<bool, Stop> {
        if !self.from_cab.all.contains(frame) {
            return Err(Stop::NotAllowed);
        }
        let session = self.page().session;
        let issued = self.issued(&self.offices[self.in_use]);
        let page = self.page();
        match (page.stage, Frame::from_bytes(frame)) {
            (
                Stage::Opening,
                Some(Frame::Welcome {
                    session: named,
                    settings,
                }),
            ) if named == session => {
                page.stage = Stage::Open;
                page.copy = Controller::idle(settings);
            }
            (
                Stage::Open,
                Some(Frame::Ack {
                    session: named,
                    count,
                }),
            ) if named == session => {
                let count = usize::from(count);
                if page.confirmed < count && count <= issued {
                    page.confirmed = count;
                }
            }
            (
                Stage::Opening | Stage::Open,
                Some(Frame::Refuse {
                    session: named,
                    number: 5 | 6,
                }),
            ) if named == session => {
                page.stage = Stage::Over;
            }
            _ => {}
        }
        Ok(matches!(answer, Answer::Ok))
    }

    /// The sentences themselves, of what both ends hold now.
    pub fn compare(&self, simulation: &Simulation) -> Result<(), Stop> {
        let cab = simulation.cab();
        let open = cab.open().map(|open| (open.session, usize::from(open.taken)));
        holds(
            open.map(|(session, _)| session) == self.row.last().copied(),
            "the box's open session is not the book's",
        )?;
        holds(open == self.open(), "k is not the number of orders taken")?;
        holds(
            cab.highest() == self.highest,
            "the box's highest session is not the book's",
        )?;
        holds(cab.controller().settings() == self.controller.settings(), MIXED)?;
        for (page, office) in self.offices.iter().zip(simulation.offices()) {
            self.compare_office(page, office)?;
            let same = open.is_some_and(|(open, _)| open == page.session);
            if same && office.word() == Word::Settled {
                let ours = office.settings().map(Settings::to_block);
                let held = cab.controller().settings().to_block();
                holds(ours == Some(held), "settled, and the settings differ")?;
            }
        }
        Ok(())
    }

    fn compare_office(&self, page: &Page, office: &Office) -> Result<(), Stop> {
        let word = office.word();
        holds((word == Word::Over) == (page.stage == Stage::Over), NOT_OVER)?;
        let Some(Progress {
            session,
            confirmed,
            issued,
        }) = office.progress()
        else {
            return holds(page.stage == Stage::Never, "an office has lost its session");
        };
        let [confirmed, issued] = [confirmed, issued].map(usize::from);
        holds(
            page.stage != Stage::Never && session == page.session,
            "an office's session is not the one that it opened",
        )?;
        let taken = self.sessions.get(&session).map_or(0, |named| named.taken.len());
        holds(
            confirmed <= taken,
            "an office has more confirmed than was taken in its session",
        )?;
        holds(confirmed == page.confirmed, "a is not the book's")?;
        holds(
            issued == self.issued(page),
            "the issued count is not the number of orders issued",
        )?;
        let settled = page.stage == Stage::Open && confirmed == issued;
        holds(
            (word == Word::Settled) == settled,
            "an office's word is not the book's",
        )?;
        let held = office.settings();
        let right = (page.stage == Stage::Open).then(|| page.copy.settings());
        holds(
            held == right,
            "an office's settings are not WELCOME's after the orders issued",
        )
    }
}

const NOT_THE_FIRST: &str = "the orders taken are not the first ones that the session's own office issued";
const MIXED: &str = "the box's settings are not the fresh ones after the orders taken, session by session";
const NOT_OVER: &str = "an office is over without a REFUSE 5 or 6 of its session, or is not after one";

fn ack(session: u32, taken: usize) -> Frame {
    let count = taken as u16;
    Frame::Ack { session, count }
}

fn order_frame(session: u32, number: usize, order: Order) -> Frame {
    Frame::Order {
        session,
        number: number as u16,
        order,
    }
}
