//! What both ends hold, in bytes.

use super::answer::Hex;
use crate::cab::Cab;
use crate::office::Office;

pub fn cab(cab: &Cab) -> String {
    let highest = cab.highest();
    let settings = cab.controller().settings().to_block();
    let settings = Hex(&settings);
    match cab.open() {
        Some(open) => format!(
            "box session {} highest {highest} taken {} settings{settings}",
            open.session, open.taken
        ),
        None => format!("box session none highest {highest} settings{settings}"),
    }
}

pub fn office(office: &Office) -> String {
    let mut line = format!("office {}", office.word());
    if let Some(progress) = office.progress() {
        line += &format!(
            " session {} confirmed {} issued {}",
            progress.session, progress.confirmed, progress.issued
        );
    }
    if let Some(settings) = office.settings() {
        line += &format!(" settings{}", Hex(&settings.to_block()));
    }
    line
}
