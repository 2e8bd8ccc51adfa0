//! That the book notices what the list does not account for.

use reference::script::Simulation;

use super::book::Book;
use super::{Stop, closing_sentences, follow};

fn lines_of(lines: &[&str]) -> Vec<Vec<u8>> {
    lines.iter().map(|line| line.as_bytes().to_vec()).collect()
}

/// Office 1 has session 3, with two of three orders taken and one of these confirmed; office 2 has opened session 4.
/// The third order is `to-box 4`, the ACK that is late `to-office 3`.
const RELIEF: [&str; 13] = [
    "open 3",
    "to-box 1",
    "to-office 1",
    "issue-all raise 10 / raise 20 / raise 40 into 516",
    "to-box 2",
    "to-office 2",
    "to-box 3",
    "use 2",
    "open 4",
    "to-box 5",
    "to-office 4",
    "lower 5",
    "to-box 6",
];

/// What is broken after the relief and lines that the book is not told of.
fn broken_by(hidden: &[&str]) -> &'static str {
    broken(&RELIEF, hidden)
}

/// What is broken after these lines and others that the book is not told of.
fn broken(lines: &[&str], hidden: &[&str]) -> &'static str {
    let mut simulation = Simulation::new();
    let mut book = Book::new();
    let mut told = |simulation: &mut Simulation, line: &str| {
        let answer = simulation.line(line.as_bytes()).expect("each line is a call");
        follow(&mut book, simulation, line.as_bytes(), answer.bare())
    };
    for line in lines {
        assert!(told(&mut simulation, line).is_ok(), "{line}");
    }
    for line in hidden {
        let answer = simulation.line(line.as_bytes()).map(|answer| answer.to_string());
        assert!(!answer.unwrap_or_default().starts_with("line"), "{line}");
    }
    match told(&mut simulation, "show") {
        Ok(()) => "nothing",
        Err(Stop::NotAllowed) => "not allowed",
        Err(Stop::Broken(what)) => what,
    }
}

const ORDER_4_2: &str = "box 12 06 00 04 00 00 00 02 00 22 02 00 01 00";

#[test]
fn what_the_book_is_not_told_is_noticed() {
    for (hidden, what) in [
        (&[][..], "nothing"),
        (
            &["box 10 04 00 05 00 00 00"],
            "the box's open session is not the book's",
        ),
        (&["restart"], "the box's open session is not the book's"),
        (&[ORDER_4_2], "k is not the number of orders taken"),
        (
            &[
                "restart 9",
                "restart 3",
                "to-box 5",
                "box 12 06 00 04 00 00 00 01 00 22 02 00 01 00",
            ],
            "the box's settings are not the fresh ones after the orders taken, session by session",
        ),
        // Each session's own, and not the open one's.
        (
            &["use 1", "office 14 05 00 03 00 00 00 06"],
            "an office is over without a REFUSE 5 or 6 of its session, or is not after one",
        ),
        (
            &["use 1", "office 13 06 00 03 00 00 00 03 00"],
            "an office has more confirmed than was taken in its session",
        ),
        (&["use 1", "to-office 3"], "a is not the book's"),
        (
            &["use 1", "raise 1"],
            "the issued count is not the number of orders issued",
        ),
        (
            &["use 1", "open 2"],
            "an office's session is not the one that it opened",
        ),
        (
            &["use 7", "open 2"],
            "an office's session is not the one that it opened",
        ),
        (&["use 1", "open 3"], "a is not the book's"),
        (&["to-office 5"], "a is not the book's"),
    ] {
        assert_eq!(broken_by(hidden), what, "{hidden:?}");
    }
}

#[test]
fn one_register_trimmed_otherwise_is_noticed() {
    let orders = [
        "C8 01", "CA 01 02", "CC 03 04", "CE 05 06", "D0 07 08", "D2 01", "C8 01",
    ];
    let mut list = vec![
        "open 3".to_string(),
        "to-box 1".to_string(),
        "to-office 1".to_string(),
    ];
    for (index, order) in (2..).zip(orders) {
        list.extend([format!("command {order}"), format!("to-box {index}")]);
    }
    let list: Vec<&str> = list.iter().map(String::as_str).collect();
    // The box starts anew, and takes the same orders; of one of them the data are others.
    let again = |place: usize, order: &str| {
        let mut orders = orders;
        orders[place] = order;
        let mut lines = vec!["restart 2".to_string(), "to-box 1".to_string()];
        for (number, order) in (1..).zip(orders) {
            let length = order.split(' ').count();
            let head = format!("12 06 00 03 00 00 00 0{number} 00 21 0{length} 00");
            lines.push(format!("box {head} {order}"));
        }
        let lines: Vec<&str> = lines.iter().map(String::as_str).collect();
        broken(&list, &lines)
    };
    assert_eq!(again(0, "C8 01"), "nothing");
    for (place, order) in [
        (1, "CA 01 03"),
        (2, "CC 04 04"),
        (3, "CE 05 07"),
        (4, "D0 06 08"),
        (5, "D2 03"),
        (6, "C8 00"),
    ] {
        assert_eq!(
            again(place, order),
            "the box's settings are not the fresh ones after the orders taken, session by session",
            "{order}"
        );
    }
    // And in the office's own copy, where the frame written is another too.
    for order in ["CA 01 03", "D2 03", "C8 00"] {
        let mut simulation = Simulation::new();
        let mut book = Book::new();
        for line in &list {
            let answer = simulation.line(line.as_bytes()).expect("each line is a call");
            assert!(follow(&mut book, &simulation, line.as_bytes(), answer.bare()).is_ok());
        }
        let answer = simulation.line(format!("command {order}").as_bytes());
        let answer = answer.expect("each line is a call");
        let told = follow(&mut book, &simulation, b"command CA 01 02", answer.bare());
        assert!(
            matches!(
                told,
                Err(Stop::Broken(
                    "an office's settings are not WELCOME's after the orders issued"
                ))
            ),
            "{order}"
        );
    }
}

#[test]
fn lists_of_several_offices() {
    let covered = |lines: &[&str]| closing_sentences(&lines_of(lines));
    let behind = [
        // Late frames of session 3, their REFUSEs to both offices, answers of session 4 to the other one.
        "to-box 4",
        "to-box-all 1 2 6 into 141",
        "to-office 6",
        "use 1",
        "to-office 4",
        "to-office 5",
        "to-office 3",
        "to-office 6",
        "open 5",
        "pieces-box 7 3",
        "restart",
        "to-box 6",
        "use 8",
        "open 6",
        "use 2",
        "to-office 11",
        "open 7",
        "to-box 9",
        "to-box 8",
        "show",
    ];
    let list = [&RELIEF[..], &behind].concat();
    assert_eq!(covered(&list), Ok(list.len()));
    // A session named again, at its own office or at another, ends what the list may have.
    for again in ["open 3", "open 4"] {
        for office in ["use 1", "use 2", "use 5"] {
            let lines = [&RELIEF[..], &[office, again, "show"]].concat();
            assert_eq!(covered(&lines), Ok(RELIEF.len() + 1), "{office} {again}");
        }
    }
    // A refused opening names none.
    let refused = ["room 46", "open 5", "room 47", "use 3", "open 5", "show"];
    let lines = [&RELIEF[..], &refused].concat();
    assert_eq!(covered(&lines), Ok(lines.len()));
}

#[test]
fn half_frames_at_several_offices_in_a_list() {
    let half = "stream-office 01 09 00 13 06 00";
    let lines = [
        &RELIEF[..],
        &[
            half,
            "use 1",
            half,
            "use 2",
            "stream-office 04 00 00 00 01 00",
            "use 1",
            "show",
            "stream-office 03 00 00 00 02 00",
            "pieces-office 4 1",
            "show",
        ],
    ]
    .concat();
    assert_eq!(closing_sentences(&lines_of(&lines)), Ok(lines.len()));
    // Amid another frame of the same office.
    let lines = [&RELIEF[..], &[half, "pieces-office 4 1", "show"]].concat();
    assert_eq!(closing_sentences(&lines_of(&lines)), Ok(RELIEF.len() + 1));
}
