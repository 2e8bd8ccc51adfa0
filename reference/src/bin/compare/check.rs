//! Demand 3's closing sentences, for every office, looked at after every call of an allowed script.

mod book;
mod said;
#[cfg(test)]
mod tests;

use reference::script::{Answer, Simulation};

use book::Book;

/// Why a list is followed no further.
enum Stop {
    /// Demand 3's list may not have the line.
    NotAllowed,
    /// A sentence does not hold.
    Broken(&'static str),
}

fn holds(sentence: bool, broken: &'static str) -> Result<(), Stop> {
    if sentence {
        Ok(())
    } else {
        Err(Stop::Broken(broken))
    }
}

/// How many lines from the first on make a list that demand 3 allows; or the line, from 0,
/// after which a sentence did not hold of such a list, and which one.
pub fn closing_sentences(lines: &[Vec<u8>]) -> Result<usize, (usize, String)> {
    let mut simulation = Simulation::new();
    let mut book = Book::new();
    for (place, line) in lines.iter().enumerate() {
        let Some(answer) = simulation.line(line) else {
            continue;
        };
        match follow(&mut book, &simulation, line, answer.bare()) {
            Ok(()) => {}
            Err(Stop::NotAllowed) => return Ok(place),
            Err(Stop::Broken(what)) => return Err((place, what.to_string())),
        }
    }
    match book.row_as_a_whole() {
        Err(Stop::Broken(what)) => Err((lines.len().saturating_sub(1), what.to_string())),
        _ => Ok(lines.len()),
    }
}

fn follow(book: &mut Book, simulation: &Simulation, line: &[u8], answer: &Answer) -> Result<(), Stop> {
    if matches!(answer, Answer::Invalid(..)) {
        return Ok(());
    }
    let as_the_rules_give = said::enter(book, &said::words(line), answer)?;
    book.compare(simulation)?;
    holds(
        as_the_rules_give,
        "a frame written is not what the rules give from the book",
    )
}
