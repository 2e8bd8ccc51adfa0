//! Batches of orders and runs of frames.

use super::Simulation;
use super::answer::{Answer, Judged};
use super::parse::Many;
use crate::cab;
use crate::link::Order;
use crate::refusal::Refusal;

impl Simulation {
    pub(super) fn many(&mut self, many: &Many, lent: Option<usize>) -> Answer {
        let room = lent.unwrap_or(self.room);
        let result = match many {
            Many::Issue(orders) => self.issue_all(orders, room),
            Many::ToBox { lengths, bytes } => self.frames_to_box(lengths, bytes, room),
        };
        let answer = result.unwrap_or_else(Answer::Refused);
        match lent {
            None => answer,
            Some(lent) => Answer::Lent {
                untouched: lent - written(&answer),
                answer: Box::new(answer),
            },
        }
    }

    fn issue_all(&mut self, orders: &[Order], room: usize) -> Result<Answer, Refusal> {
        let frames = self.office_mut().issue_all(orders, room)?;
        for frame in &frames {
            self.from_offices.push(frame);
        }
        Ok(Answer::Frames(frames))
    }

    fn frames_to_box(&mut self, lengths: &[u64], bytes: &[u8], room: usize) -> Result<Answer, Refusal> {
        let results = self.cab.frames_in(lengths, bytes, room)?;
        self.note_highest();
        let frames = cab::cut(lengths, bytes)?;
        let judged = frames.into_iter().zip(results).map(|(frame, result)| Judged {
            frame: frame.to_vec(),
            answer: self.box_answered(result),
        });
        Ok(Answer::Run(judged.collect()))
    }
}

/// How many bytes of output an answer took.
fn written(answer: &Answer) -> usize {
    match answer {
        Answer::Frame(frame) | Answer::RefusedFrame(_, frame) => frame.len(),
        Answer::Frames(frames) => frames.iter().map(Vec::len).sum(),
        Answer::Run(run) => run.iter().map(|judged| written(&judged.answer)).sum(),
        _ => 0,
    }
}
