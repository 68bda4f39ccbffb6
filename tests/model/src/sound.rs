//! Soundness of 1,220 words, clause by clause as document 01 lists them. Each
//! clause is judged on its own, so that a message can name all that fail; only
//! when the roster size or the number of groups is out of range do the others
//! have nothing to speak of.

use crate::state::MOST_GROUPS;
use crate::table::{
    BODIES, BODY, CONNECTIONS, CONTENTS, FREE_GROUPS, GROUP_COUNT, HIDDEN, MEMBERS, ROSTER_SIZE,
    WORDS, ZERO,
};
use std::collections::BTreeSet;

/// One clause of soundness.
#[derive(Clone, Copy, Debug, PartialEq, Eq, PartialOrd, Ord)]
pub enum Clause {
    /// Word 0 is 1 to 64.
    RosterSizeInRange,
    /// Word 2 is 0 to 32.
    GroupCountInRange,
    /// Word 1 lies within the roster.
    HiddenOnRoster,
    /// Word 3 is zero.
    WordThreeZero,
    /// An s_group name isn't zero.
    GroupNameInRange,
    /// A group has at most 32 registered names.
    NameCountInRange,
    /// Contents ascend by group name.
    GroupNamesAscend,
    /// No two group names are equal.
    GroupNamesDistinct,
    /// Contents from G on are zero.
    UnusedContentsZero,
    /// Each group has a member.
    GroupHasMember,
    /// Members lie within the roster.
    MembersOnRoster,
    /// Member words from G on are zero.
    UnusedMembersZero,
    /// A registered name isn't zero.
    ProcessNameInRange,
    /// Registered names ascend within a group.
    ProcessNamesAscend,
    /// Registered names of a group are distinct.
    ProcessNamesDistinct,
    /// Pids of a group are distinct.
    PidsDistinct,
    /// The host of each registered pid is on the roster.
    HostsOnRoster,
    /// Body words from a group's count on, and bodies from G on, are zero.
    UnusedBodiesZero,
    /// Connections lie within the roster.
    ConnectionsOnRoster,
    /// Connections of nodes beyond the roster are zero.
    UnusedConnectionsZero,
    /// Connections are mutual.
    ConnectionsMutual,
    /// No node connects to itself.
    NoSelfConnection,
    /// Members of one s_group are all connected.
    MembersConnected,
    /// Free normal groups lie within the roster.
    FreeGroupsOnRoster,
    /// Free words of nodes beyond the roster are zero.
    UnusedFreeWordsZero,
    /// Each free group stands in the words of its own nodes.
    FreeGroupsInOwnWords,
    /// Free groups are disjoint.
    FreeGroupsDisjoint,
    /// Free groups cover exactly the normal nodes in no s_group.
    FreeGroupsCover,
    /// Free nodes of one group are connected.
    SharedAreConnected,
    /// Connected free normal nodes are of one group.
    ConnectedShare,
}

impl Clause {
    /// Every clause once.
    pub const ALL: [Clause; 30] = [
        Clause::RosterSizeInRange,
        Clause::GroupCountInRange,
        Clause::HiddenOnRoster,
        Clause::WordThreeZero,
        Clause::GroupNameInRange,
        Clause::NameCountInRange,
        Clause::GroupNamesAscend,
        Clause::GroupNamesDistinct,
        Clause::UnusedContentsZero,
        Clause::GroupHasMember,
        Clause::MembersOnRoster,
        Clause::UnusedMembersZero,
        Clause::ProcessNameInRange,
        Clause::ProcessNamesAscend,
        Clause::ProcessNamesDistinct,
        Clause::PidsDistinct,
        Clause::HostsOnRoster,
        Clause::UnusedBodiesZero,
        Clause::ConnectionsOnRoster,
        Clause::UnusedConnectionsZero,
        Clause::ConnectionsMutual,
        Clause::NoSelfConnection,
        Clause::MembersConnected,
        Clause::FreeGroupsOnRoster,
        Clause::UnusedFreeWordsZero,
        Clause::FreeGroupsInOwnWords,
        Clause::FreeGroupsDisjoint,
        Clause::FreeGroupsCover,
        Clause::SharedAreConnected,
        Clause::ConnectedShare,
    ];
}

/// Whether 1,220 words are sound.
pub fn sound(words: &[u64]) -> bool {
    failing_clauses(words).is_empty()
}

/// The clauses that fail for these words, which must number 1,220.
pub fn failing_clauses(words: &[u64]) -> BTreeSet<Clause> {
    assert_eq!(words.len(), WORDS, "soundness speaks of 1,220 words");
    let ranges = [
        (
            (1..=64).contains(&words[ROSTER_SIZE]),
            Clause::RosterSizeInRange,
        ),
        (
            words[GROUP_COUNT] <= MOST_GROUPS as u64,
            Clause::GroupCountInRange,
        ),
    ];
    let out_of_range = failing(&ranges);
    if !out_of_range.is_empty() {
        return out_of_range;
    }
    let table = Parts::of(words);
    let mut all = failing(&table.first_words());
    all.extend(failing(&table.contents()));
    all.extend(failing(&table.members()));
    all.extend(failing(&table.bodies()));
    all.extend(failing(&table.connections()));
    all.extend(failing(&table.free_groups()));
    all
}

fn failing(judged: &[(bool, Clause)]) -> BTreeSet<Clause> {
    let wrong = judged.iter().filter(|(holds, _)| !holds);
    wrong.map(|(_, clause)| *clause).collect()
}

/// Whether bit `node` stands in a set's word.
fn has(set: u64, node: usize) -> bool {
    set >> node & 1 == 1
}

fn all_zero(words: &[u64]) -> bool {
    words.iter().all(|word| *word == 0)
}

/// The parts of a table whose two counts are in range. Each used part ends at
/// its count, and the rest of it is the unused part.
struct Parts<'a> {
    words: &'a [u64],
    size: usize,
    groups: usize,
    roster: u64,
}

impl<'a> Parts<'a> {
    fn of(words: &'a [u64]) -> Parts<'a> {
        let size = words[ROSTER_SIZE] as usize;
        Parts {
            words,
            size,
            groups: words[GROUP_COUNT] as usize,
            roster: u64::MAX >> (64 - size),
        }
    }

    fn group_name(&self, place: usize) -> u64 {
        self.words[CONTENTS + place] % 65_536
    }

    fn name_count(&self, place: usize) -> u64 {
        self.words[CONTENTS + place] / 65_536
    }

    fn member_words(&self) -> &'a [u64] {
        &self.words[MEMBERS..MEMBERS + self.groups]
    }

    fn connection_words(&self) -> &'a [u64] {
        &self.words[CONNECTIONS..CONNECTIONS + self.size]
    }

    fn free_words(&self) -> &'a [u64] {
        &self.words[FREE_GROUPS..FREE_GROUPS + self.size]
    }

    fn body(&self, place: usize) -> &'a [u64] {
        let start = BODIES + BODY * place;
        &self.words[start..start + BODY]
    }

    /// The used words of a body; a count beyond the limit uses all of them.
    fn entries(&self, place: usize) -> &'a [u64] {
        let used = (self.name_count(place) as usize).min(BODY);
        &self.body(place)[..used]
    }

    fn unused_entries(&self, place: usize) -> &'a [u64] {
        &self.body(place)[self.entries(place).len()..]
    }

    fn within_roster(&self, sets: &[u64]) -> bool {
        sets.iter().all(|set| set & !self.roster == 0)
    }

    fn connected(&self, a: usize, b: usize) -> bool {
        has(self.words[CONNECTIONS + a], b)
    }

    /// All ordered pairs of different nodes of the roster.
    fn pairs(&self) -> impl Iterator<Item = (usize, usize)> + '_ {
        let nodes = 0..self.size;
        nodes.flat_map(move |a| (0..self.size).filter(move |b| *b != a).map(move |b| (a, b)))
    }

    fn first_words(&self) -> Vec<(bool, Clause)> {
        vec![
            (
                self.within_roster(&[self.words[HIDDEN]]),
                Clause::HiddenOnRoster,
            ),
            (self.words[ZERO] == 0, Clause::WordThreeZero),
        ]
    }

    fn contents(&self) -> Vec<(bool, Clause)> {
        let names: Vec<u64> = (0..self.groups)
            .map(|place| self.group_name(place))
            .collect();
        let distinct: BTreeSet<u64> = names.iter().copied().collect();
        vec![
            (
                names.iter().all(|name| *name != 0),
                Clause::GroupNameInRange,
            ),
            (
                (0..self.groups).all(|place| self.name_count(place) <= BODY as u64),
                Clause::NameCountInRange,
            ),
            (
                names.windows(2).all(|two| two[0] <= two[1]),
                Clause::GroupNamesAscend,
            ),
            (distinct.len() == names.len(), Clause::GroupNamesDistinct),
            (
                all_zero(&self.words[CONTENTS + self.groups..MEMBERS]),
                Clause::UnusedContentsZero,
            ),
        ]
    }

    fn members(&self) -> Vec<(bool, Clause)> {
        let all_connected = |members: &u64| {
            self.pairs()
                .filter(|(a, b)| has(*members, *a) && has(*members, *b))
                .all(|(a, b)| self.connected(a, b))
        };
        vec![
            (
                self.member_words().iter().all(|set| *set != 0),
                Clause::GroupHasMember,
            ),
            (
                self.within_roster(self.member_words()),
                Clause::MembersOnRoster,
            ),
            (
                all_zero(&self.words[MEMBERS + self.groups..CONNECTIONS]),
                Clause::UnusedMembersZero,
            ),
            (
                self.member_words().iter().all(all_connected),
                Clause::MembersConnected,
            ),
        ]
    }

    fn bodies(&self) -> Vec<(bool, Clause)> {
        let each = |judge: &dyn Fn(&[u64]) -> bool| {
            (0..self.groups).all(|place| judge(self.entries(place)))
        };
        let distinct = |entries: &[u64], part: fn(u64) -> u64| {
            let parts: BTreeSet<u64> = entries.iter().map(|entry| part(*entry)).collect();
            parts.len() == entries.len()
        };
        let name: fn(u64) -> u64 = |entry| entry >> 32;
        let pid: fn(u64) -> u64 = |entry| entry & 0xFFFF_FFFF;
        let host_on_roster = |entry: &u64| (pid(*entry) / 67_108_864) < self.size as u64;
        let used_bodies_end = (0..self.groups).all(|place| all_zero(self.unused_entries(place)));
        let unused_bodies = &self.words[BODIES + BODY * self.groups..];
        vec![
            (
                each(&|entries| entries.iter().all(|entry| name(*entry) != 0)),
                Clause::ProcessNameInRange,
            ),
            (
                each(&|entries| entries.windows(2).all(|two| name(two[0]) <= name(two[1]))),
                Clause::ProcessNamesAscend,
            ),
            (
                each(&|entries| distinct(entries, name)),
                Clause::ProcessNamesDistinct,
            ),
            (
                each(&|entries| distinct(entries, pid)),
                Clause::PidsDistinct,
            ),
            (
                each(&|entries| entries.iter().all(host_on_roster)),
                Clause::HostsOnRoster,
            ),
            (
                used_bodies_end && all_zero(unused_bodies),
                Clause::UnusedBodiesZero,
            ),
        ]
    }

    fn connections(&self) -> Vec<(bool, Clause)> {
        vec![
            (
                self.within_roster(self.connection_words()),
                Clause::ConnectionsOnRoster,
            ),
            (
                all_zero(&self.words[CONNECTIONS + self.size..FREE_GROUPS]),
                Clause::UnusedConnectionsZero,
            ),
            (
                self.pairs()
                    .all(|(a, b)| self.connected(a, b) == self.connected(b, a)),
                Clause::ConnectionsMutual,
            ),
            (
                (0..self.size).all(|a| !self.connected(a, a)),
                Clause::NoSelfConnection,
            ),
        ]
    }

    /// The normal nodes in no s_group.
    fn free_normal_nodes(&self) -> u64 {
        let in_groups = self.member_words().iter().fold(0, |all, set| all | set);
        self.roster & !self.words[HIDDEN] & !in_groups
    }

    fn free_groups(&self) -> Vec<(bool, Clause)> {
        let free = self.free_words();
        let normal = self.free_normal_nodes();
        let covered = free.iter().fold(0, |all, set| all | set) & self.roster;
        let in_own_words = |i: usize| {
            free[i] == 0
                || has(free[i], i) && (0..self.size).all(|j| !has(free[i], j) || free[j] == free[i])
        };
        let free_pairs = || {
            self.pairs()
                .filter(|(a, b)| has(normal, *a) && has(normal, *b))
        };
        let share = |a: usize, b: usize| has(free[a], b);
        vec![
            (self.within_roster(free), Clause::FreeGroupsOnRoster),
            (
                all_zero(&self.words[FREE_GROUPS + self.size..BODIES]),
                Clause::UnusedFreeWordsZero,
            ),
            (
                (0..self.size).all(in_own_words),
                Clause::FreeGroupsInOwnWords,
            ),
            (
                self.pairs()
                    .all(|(a, b)| free[a] == free[b] || free[a] & free[b] == 0),
                Clause::FreeGroupsDisjoint,
            ),
            (covered == normal, Clause::FreeGroupsCover),
            (
                free_pairs().all(|(a, b)| !share(a, b) || self.connected(a, b)),
                Clause::SharedAreConnected,
            ),
            (
                free_pairs().all(|(a, b)| share(a, b) || !self.connected(a, b)),
                Clause::ConnectedShare,
            ),
        ]
    }
}
