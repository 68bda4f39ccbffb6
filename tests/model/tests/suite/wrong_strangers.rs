//! Readings of the strangers of 02 that look right, each as other rules for the
//! model, and a script that tells each of them apart.

use crate::helpers::told_apart;
use model::answer::{Answer, Reason, Value};
use model::rules::{own_nodes, Found, Law, Rules};
use model::state::{host_of, State};

/// What lines print under the documents and under a wrong reading, after those
/// that give s_group 5 of 0 and 1 a name 70 hosted on 1 and a name 71 hosted on 2.
fn hosts_told_apart(wrong: &dyn Rules, lines: &[(&str, &str, &str)]) {
    let hosted = [
        ("open 4 0", "ok 0"),
        ("0 new_s_group 5 3", "group 5 3 0"),
        ("0 register_name 5 70 67108865", "true 0"),
        ("0 register_name 5 71 134217729", "true 0"),
    ];
    let before = hosted.map(|(line, printed)| (line, printed, printed));
    told_apart(wrong, &[&before, lines].concat());
}

/// Whether the rules of the documents find a stranger.
fn stranger(state: &State, found: &Found) -> bool {
    Law.tell(state, found).reason == Reason::HostOutside
}

/// Tells the members.
struct MembersTold;

impl Rules for MembersTold {
    fn tell(&self, state: &State, found: &Found) -> Answer {
        found.answer(!stranger(state, found))
    }
}

#[test]
fn telling_the_members_is_told_apart() {
    hosts_told_apart(
        &MembersTold,
        &[("0 whereis_name 5 70", "pid 67108865 0", "pid 67108865 21")],
    );
}

/// Tells nobody.
struct NobodyTold;

impl Rules for NobodyTold {
    fn tell(&self, _: &State, found: &Found) -> Answer {
        found.answer(false)
    }
}

#[test]
fn telling_nobody_is_told_apart() {
    hosts_told_apart(
        &NobodyTold,
        &[
            ("0 whereis_name 5 71", "pid 134217729 21", "pid 134217729 0"),
            ("3 send 0 5 71", "pid 134217729 21", "pid 134217729 0"),
        ],
    );
}

/// Tells strangers at lookups and not at sends.
struct SendsTellNobody;

impl Rules for SendsTellNobody {
    fn send_found(&self, state: &mut State, found: &Found) -> Answer {
        Law.send_found(state, found);
        found.answer(false)
    }
}

#[test]
fn sends_that_tell_nobody_are_told_apart() {
    hosts_told_apart(
        &SendsTellNobody,
        &[
            (
                "3 whereis_name 0 5 71",
                "pid 134217729 21",
                "pid 134217729 21",
            ),
            ("0 send 5 71", "pid 134217729 21", "pid 134217729 0"),
            ("3 send 0 5 71", "pid 134217729 21", "pid 134217729 0"),
        ],
    );
}

/// Tells the host of a pid that is given, where the caller's own nodes lack it.
struct GivenPidsTold;

impl Rules for GivenPidsTold {
    fn send(&self, state: &mut State, caller: u32, pid: u32) -> Answer {
        let answer = Law.send(state, caller, pid);
        if own_nodes(state, caller).contains(&host_of(pid)) {
            return answer;
        }
        Answer {
            reason: Reason::HostOutside,
            ..answer
        }
    }
}

#[test]
fn telling_a_given_pid_is_told_apart() {
    hosts_told_apart(
        &GivenPidsTold,
        &[
            ("0 send 67108865", "pid 67108865 0", "pid 67108865 0"),
            ("0 send 134217729", "pid 134217729 0", "pid 134217729 21"),
        ],
    );
}

/// Makes no connection to a stranger.
struct StrangersUnlinked;

impl Rules for StrangersUnlinked {
    fn send_found(&self, state: &mut State, found: &Found) -> Answer {
        if stranger(state, found) {
            return found.answer(true);
        }
        Law.send_found(state, found)
    }
}

#[test]
fn leaving_a_stranger_unlinked_is_told_apart() {
    hosts_told_apart(
        &StrangersUnlinked,
        &[
            ("3 send 0 5 71", "pid 134217729 21", "pid 134217729 21"),
            ("3 own_nodes", "nodes 12 2 0", "nodes 8 1 0"),
            ("0 send 5 71", "pid 134217729 21", "pid 134217729 21"),
            ("1 delete_s_group 5", "true 0", "true 0"),
            ("0 own_nodes", "nodes 15 4 0", "nodes 11 3 0"),
        ],
    );
}

/// Judges by the own nodes of the asking node.
struct ByAskersNodes;

impl Rules for ByAskersNodes {
    fn tell(&self, state: &State, found: &Found) -> Answer {
        found.answer(!own_nodes(state, found.asker).contains(&found.host()))
    }
}

#[test]
fn judging_by_the_s_groups_of_the_asking_node_is_told_apart() {
    hosts_told_apart(
        &ByAskersNodes,
        &[
            ("0 new_s_group 6 5", "group 6 5 0", "group 6 5 0"),
            (
                "1 whereis_name 5 71",
                "pid 134217729 21",
                "pid 134217729 21",
            ),
            ("0 whereis_name 5 71", "pid 134217729 21", "pid 134217729 0"),
            ("3 send 0 5 71", "pid 134217729 21", "pid 134217729 0"),
        ],
    );
}

/// Judges by the own nodes of the caller.
struct ByCallersNodes;

impl Rules for ByCallersNodes {
    fn tell(&self, state: &State, found: &Found) -> Answer {
        found.answer(!own_nodes(state, found.caller).contains(&found.host()))
    }
}

#[test]
fn judging_by_the_own_nodes_of_the_caller_is_told_apart() {
    hosts_told_apart(
        &ByCallersNodes,
        &[
            (
                "0 whereis_name 5 71",
                "pid 134217729 21",
                "pid 134217729 21",
            ),
            ("2 whereis_name 0 5 70", "pid 67108865 0", "pid 67108865 21"),
            (
                "2 whereis_name 0 5 71",
                "pid 134217729 21",
                "pid 134217729 0",
            ),
        ],
    );
}

/// Judges by the connections of the asking node.
struct ByConnections;

impl Rules for ByConnections {
    fn tell(&self, state: &State, found: &Found) -> Answer {
        let (asker, host) = (found.asker, found.host());
        found.answer(asker != host && !state.connected(asker, host))
    }
}

#[test]
fn judging_by_connections_is_told_apart() {
    hosts_told_apart(
        &ByConnections,
        &[
            ("0 send 5 71", "pid 134217729 21", "pid 134217729 21"),
            (
                "1 whereis_name 5 71",
                "pid 134217729 21",
                "pid 134217729 21",
            ),
            ("0 whereis_name 5 71", "pid 134217729 21", "pid 134217729 0"),
            ("0 send 5 71", "pid 134217729 21", "pid 134217729 0"),
        ],
    );
}

/// Judges by the connections of the caller, after the send's own is made.
struct AfterTheConnection;

impl Rules for AfterTheConnection {
    fn send_found(&self, state: &mut State, found: &Found) -> Answer {
        Law.send_found(state, found);
        let (caller, host) = (found.caller, found.host());
        found.answer(caller != host && !state.connected(caller, host))
    }
}

#[test]
fn judging_after_the_connection_is_told_apart() {
    hosts_told_apart(
        &AfterTheConnection,
        &[
            (
                "0 whereis_name 5 71",
                "pid 134217729 21",
                "pid 134217729 21",
            ),
            ("0 send 5 71", "pid 134217729 21", "pid 134217729 0"),
            ("3 send 1 5 71", "pid 134217729 21", "pid 134217729 0"),
        ],
    );
}

/// Refuses what finds a stranger: Error, and no connection of a send.
struct StrangersRefused;

impl Rules for StrangersRefused {
    fn tell(&self, state: &State, found: &Found) -> Answer {
        if stranger(state, found) {
            return Answer::error(Reason::HostOutside);
        }
        found.answer(false)
    }

    fn send_found(&self, state: &mut State, found: &Found) -> Answer {
        let answer = self.tell(state, found);
        if answer.value != Value::Error {
            self.connect(state, found.caller, found.host());
        }
        answer
    }
}

#[test]
fn refusing_a_stranger_is_told_apart() {
    hosts_told_apart(
        &StrangersRefused,
        &[
            ("0 whereis_name 5 71", "pid 134217729 21", "error 21"),
            ("3 send 0 5 71", "pid 134217729 21", "error 21"),
            ("3 own_nodes", "nodes 12 2 0", "nodes 8 1 0"),
        ],
    );
}
