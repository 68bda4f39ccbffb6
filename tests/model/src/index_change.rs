//! What a call does to the entries of an index, and what reading by pid finds, in
//! kinds, so that random runs can say which of them they met.

use crate::index::{Entry, ENTRY, WORDS};
use std::collections::BTreeSet;

/// One thing that a call can do to the entries.
#[derive(Clone, Copy, Debug, PartialEq, Eq, PartialOrd, Ord)]
pub enum Change {
    /// The first entry of all comes.
    Begins,
    /// An entry comes before all others, between two, or behind all.
    ComesFirst,
    ComesBetween,
    ComesLast,
    /// An entry comes whose pid has one in an s_group of a lower name, or of a
    /// higher one.
    ComesBehindOwn,
    ComesBeforeOwn,
    /// The last free place is taken.
    Fills,
    /// An entry goes that stood before all others, between two, or behind all.
    GoesFirst,
    GoesBetween,
    GoesLast,
    /// An entry goes, and its pid has another.
    GoesFromOwn,
    /// The only entry goes.
    Ends,
    /// One of as many entries as there are places goes.
    MakesRoom,
    /// An entry gives way to one that stands before it, behind it, or in its place.
    MovesUp,
    MovesDown,
    MovesInPlace,
    /// Several entries go and others stay.
    SeveralGo,
    /// Several entries go, and between two of them one stays.
    ScatteredGo,
    /// Several entries go and none stays.
    AllGo,
    /// There are entries, and all stay as they are.
    Stays,
}

impl Change {
    /// Every change once.
    pub const ALL: [Change; 20] = [
        Change::Begins,
        Change::ComesFirst,
        Change::ComesBetween,
        Change::ComesLast,
        Change::ComesBehindOwn,
        Change::ComesBeforeOwn,
        Change::Fills,
        Change::GoesFirst,
        Change::GoesBetween,
        Change::GoesLast,
        Change::GoesFromOwn,
        Change::Ends,
        Change::MakesRoom,
        Change::MovesUp,
        Change::MovesDown,
        Change::MovesInPlace,
        Change::SeveralGo,
        Change::ScatteredGo,
        Change::AllGo,
        Change::Stays,
    ];
}

/// Which changes lead from the one to the other.
pub fn changes(before: &[Entry], after: &[Entry]) -> BTreeSet<Change> {
    let come = places_outside(after, before);
    let gone = places_outside(before, after);
    match (come.as_slice(), gone.as_slice()) {
        ([], []) => {
            let stays = (!before.is_empty()).then_some(Change::Stays);
            stays.into_iter().collect()
        }
        ([place], []) => coming(*place, after),
        ([], [place]) => going(*place, before),
        ([], several) => going_together(several, before),
        ([new], [old]) => BTreeSet::from([match new.cmp(old) {
            std::cmp::Ordering::Less => Change::MovesUp,
            std::cmp::Ordering::Greater => Change::MovesDown,
            std::cmp::Ordering::Equal => Change::MovesInPlace,
        }]),
        _ => BTreeSet::new(),
    }
}

/// The places of the entries that are not among the others.
fn places_outside(entries: &[Entry], others: &[Entry]) -> Vec<usize> {
    let others: BTreeSet<&Entry> = others.iter().collect();
    let places = 0..entries.len();
    places
        .filter(|place| !others.contains(&entries[*place]))
        .collect()
}

/// Whether an entry of the same pid stands at the place.
fn own(entries: &[Entry], place: usize, other: Option<usize>) -> bool {
    other
        .and_then(|other| entries.get(other))
        .is_some_and(|entry| entry.p == entries[place].p)
}

fn coming(place: usize, after: &[Entry]) -> BTreeSet<Change> {
    let found = [
        (Change::Begins, after.len() == 1),
        (Change::ComesFirst, after.len() > 1 && place == 0),
        (Change::ComesBetween, 0 < place && place + 1 < after.len()),
        (
            Change::ComesLast,
            after.len() > 1 && place + 1 == after.len(),
        ),
        (
            Change::ComesBehindOwn,
            own(after, place, place.checked_sub(1)),
        ),
        (Change::ComesBeforeOwn, own(after, place, Some(place + 1))),
        (Change::Fills, after.len() * ENTRY == WORDS),
    ];
    holding(&found)
}

fn going(place: usize, before: &[Entry]) -> BTreeSet<Change> {
    let own = own(before, place, place.checked_sub(1)) || own(before, place, Some(place + 1));
    let found = [
        (Change::Ends, before.len() == 1),
        (Change::GoesFirst, before.len() > 1 && place == 0),
        (Change::GoesBetween, 0 < place && place + 1 < before.len()),
        (
            Change::GoesLast,
            before.len() > 1 && place + 1 == before.len(),
        ),
        (Change::GoesFromOwn, own),
        (Change::MakesRoom, before.len() * ENTRY == WORDS),
    ];
    holding(&found)
}

fn going_together(places: &[usize], before: &[Entry]) -> BTreeSet<Change> {
    let all = places.len() == before.len();
    let apart = places.windows(2).any(|two| two[0] + 1 < two[1]);
    let found = [
        (Change::SeveralGo, !all),
        (Change::ScatteredGo, apart),
        (Change::AllGo, all),
        (Change::MakesRoom, before.len() * ENTRY == WORDS),
    ];
    holding(&found)
}

fn holding<T: Copy + Ord>(found: &[(T, bool)]) -> BTreeSet<T> {
    let held = found.iter().filter(|(_, holds)| *holds);
    held.map(|(kind, _)| *kind).collect()
}

/// One thing that reading by pid can find.
#[derive(Clone, Copy, Debug, PartialEq, Eq, PartialOrd, Ord)]
pub enum Reading {
    /// Nobody goes by anything.
    NoEntries,
    /// Nobody goes by the pid, which is below all others, between two, or above
    /// all.
    NobodyBelow,
    NobodyBetween,
    NobodyAbove,
    /// The pid has one entry.
    One,
    /// The pid has several entries.
    Several,
    /// The pid has the first entry of all, or the last.
    TheFirst,
    TheLast,
    /// The pid has every entry, and there are several.
    All,
    /// The pid goes by different names, or by one name in several s_groups.
    OtherNames,
    SameName,
}

impl Reading {
    /// Every reading once.
    pub const ALL: [Reading; 11] = [
        Reading::NoEntries,
        Reading::NobodyBelow,
        Reading::NobodyBetween,
        Reading::NobodyAbove,
        Reading::One,
        Reading::Several,
        Reading::TheFirst,
        Reading::TheLast,
        Reading::All,
        Reading::OtherNames,
        Reading::SameName,
    ];
}

/// What reading by this pid finds among the entries.
pub fn readings(entries: &[Entry], p: u32) -> BTreeSet<Reading> {
    let own: Vec<&Entry> = entries.iter().filter(|entry| entry.p == p).collect();
    let ends = [entries.first(), entries.last()].map(|entry| entry.map(|entry| entry.p));
    let [Some(lowest), Some(highest)] = ends else {
        return BTreeSet::from([Reading::NoEntries]);
    };
    let nobody = own.is_empty();
    let names: BTreeSet<u32> = own.iter().map(|entry| entry.n).collect();
    holding(&[
        (Reading::NobodyBelow, nobody && p < lowest),
        (Reading::NobodyBetween, nobody && lowest < p && p < highest),
        (Reading::NobodyAbove, nobody && p > highest),
        (Reading::One, own.len() == 1),
        (Reading::Several, own.len() > 1),
        (Reading::TheFirst, p == lowest),
        (Reading::TheLast, p == highest),
        (Reading::All, own.len() > 1 && own.len() == entries.len()),
        (Reading::OtherNames, names.len() > 1),
        (Reading::SameName, names.len() < own.len()),
    ])
}
