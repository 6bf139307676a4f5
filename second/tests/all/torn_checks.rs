//! The comparison finds a library that goes by another rule for cells in one place, and one that met no torn cell is found out.

use super::differ::{replay, StandIn};
use second::built::Link;
use second::checks::random_lists;
use second::draw_link::drawn_link;
use second::library::{Asked, CountNumbers, Lent, Library, ZERO_COUNTS};
use second::limits::{Row, CELLS, TORN_CELL};
use second::links::made_up_links;
use second::matlink::Matlink;
use second::met::{Accepted, Met, REACHABLE, RUN_REACHABLE};
use second::random::Random;
use second::threads::Amount;

/// Where cells are asked about.
#[derive(Clone, Copy, Debug, PartialEq)]
enum Place {
    Supply,
    Mat,
    Pad,
    Air,
}

/// A library that takes one cell for another in one place.
struct Takes {
    place: Place,
    cell: u16,
    other: u16,
}

/// Cells on both sides of both edges, each with the one that it is taken for.
const TAKEN: [(u16, u16); 4] = [(4095, 4096), (4096, 4095), (65_534, 65_535), (65_535, 65_534)];

impl Takes {
    fn taken(&self, place: Place, cells: &[u16]) -> Vec<u16> {
        let taken = |cell: &u16| if self.place == place && *cell == self.cell { self.other } else { *cell };
        cells.iter().map(taken).collect()
    }

    /// Question 4 by this library's rule.
    fn sound(&self, link: &Matlink) -> bool {
        let mut link = link.clone();
        let Matlink { mat_cell, pad_cell, data, .. } = &mut link;
        let all: [(Place, &mut [u16]); 3] = [(Place::Mat, mat_cell), (Place::Pad, pad_cell), (Place::Air, data)];
        for (place, cells) in all {
            cells.copy_from_slice(&self.taken(place, cells));
        }
        Link::from(&link).sound()
    }
}

impl Library for Takes {
    fn open(&self, link: &mut Matlink, asked: Asked) -> u8 {
        StandIn(None).open(link, asked)
    }

    fn step(
        &self,
        link: &mut Matlink,
        event: (u32, u32),
        supply: &[u16],
        record: &mut [u16],
        counts: &mut CountNumbers,
    ) -> u8 {
        if !self.sound(link) {
            *counts = ZERO_COUNTS;
            return 4;
        }
        // a link that is sound by this rule alone is at least not refused by 4
        let answer = StandIn(None).step(link, event, &self.taken(Place::Supply, supply), record, counts);
        answer * u8::from(answer != 4)
    }

    fn run(&self, link: &mut Matlink, lent: Lent) -> u8 {
        StandIn(None).run(link, Lent { supply: &self.taken(Place::Supply, lent.supply), ..lent })
    }

    fn ride(&self, asked: Asked, lent: Lent) -> u8 {
        StandIn(None).ride(asked, Lent { supply: &self.taken(Place::Supply, lent.supply), ..lent })
    }
}

#[test]
fn another_rule_is_found_by_made_up_links() {
    for place in [Place::Supply, Place::Mat, Place::Pad, Place::Air] {
        for (cell, other) in TAKEN {
            let found = made_up_links(&Takes { place, cell, other }, &replay(), Amount { seed: 0, events: 100_000 });
            let report = found.expect_err("it is found");
            assert!(report.starts_with("# links, seed "), "{place:?}, {cell}: {report}");
        }
    }
}

#[test]
fn another_rule_is_found_by_random_lists() {
    for (cell, other) in TAKEN {
        let library = Takes { place: Place::Supply, cell, other };
        let report = random_lists(&library, &replay(), Amount { seed: 0, events: 500_000 }).expect_err("it is found");
        assert!(report.starts_with("# lists, seed "), "{cell}: {report}");
        assert!(report.lines().any(|line| line.starts_with("row ")), "a row with that cell: {report}");
    }
}

/// A change of drawn links, and what none has then.
pub type Change = (fn(&mut Link), &'static str);

/// Every answer that there can be, in calls enough, and drawn links that are changed.
pub fn met(change: fn(&mut Link)) -> Met {
    let mut met = Met::default();
    for (kind, answers) in (0..).zip(REACHABLE) {
        for answer in answers.iter().chain(&[4, 6]) {
            (0..2000).for_each(|_| met.answer(kind, *answer));
        }
    }
    RUN_REACHABLE.iter().for_each(|answer| met.run(*answer));
    let mut random = Random::new(1);
    for _ in 0..2000 {
        let mut link = drawn_link(&mut random);
        change(&mut link);
        met.link(&Matlink::from(&link));
    }
    met
}

/// Rows without torn cells.
fn mend(rows: &mut [Row]) {
    rows.as_flattened_mut().iter_mut().filter(|cell| **cell == TORN_CELL).for_each(|cell| *cell = 0);
}

/// Torn cells that question 4 does not ask about do not count, nor those of links that are not sound.
#[test]
fn links_without_torn_cells_are_found_out() {
    assert_eq!(met(|_| {}).all_there(), Ok(()));
    let changes: [Change; 4] = [
        (
            |link| {
                mend(&mut link.mat.rows);
                if link.limits.window < 32 {
                    link.mat.rows[31] = [TORN_CELL; CELLS];
                }
            },
            "an outstanding row",
        ),
        (
            |link| {
                mend(&mut link.pad.rows);
                if !link.pad.held[0] {
                    link.pad.rows[0] = [TORN_CELL; CELLS];
                }
            },
            "a held row",
        ),
        (
            |link| link.data.messages.iter_mut().for_each(|message| mend(std::slice::from_mut(&mut message.row))),
            "a data message",
        ),
        (|link| link.replies.count = 33, "an outstanding row"),
    ];
    for (change, name) in changes {
        let expected = format!("made-up links: none sound with a torn cell in {name}");
        assert_eq!(met(change).all_there(), Err(expected));
    }
}

#[test]
fn nothing_accepted_with_a_torn_cell_is_found_out() {
    let mut accepted = Accepted::default();
    accepted.add(&[4095; CELLS]);
    assert_eq!(accepted.all_there("lists", false), Ok(()), "too few");
    assert_eq!(accepted.all_there("lists", true), Err("lists: none accepted with a torn cell".into()));
    accepted.add(&[4095, TORN_CELL]);
    assert_eq!(accepted.all_there("lists", true), Ok(()));
    assert_eq!(accepted.to_string(), "2, 1 of these with a torn cell");
}
