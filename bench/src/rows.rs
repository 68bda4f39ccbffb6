//! The rows of the tables that are printed.

use crate::plain::test::Peer;

/// Characters of what a row is about.
const WIDTH: usize = 52;

/// What a row says: the times of the proved side and of its peer, in nanoseconds but for scripts, and which test the peer calls.
pub struct Times {
    pub ours: f64,
    pub theirs: f64,
    pub test: &'static str,
}

/// Which of all sides, of which the proved one is the first, is the fastest plain one.
pub fn fastest_peer(all: &[f64]) -> usize {
    (1..all.len())
        .min_by(|one, other| all[*one].total_cmp(&all[*other]))
        .expect("a peer")
}

/// The times of the proved side and of the fastest of its peers.
pub fn fastest<F>(all: &[f64], peers: &[Peer<F>]) -> Times {
    let peer = fastest_peer(all);
    Times {
        ours: all[0],
        theirs: all[peer],
        test: peers[peer - 1].test,
    }
}

/// The line above the rows of a table.
pub fn heading(what: &str) {
    heading_with(what, "");
}

/// The line above rows that say more.
pub fn heading_with(what: &str, more: &str) {
    println!(
        "\n{what:<WIDTH$} {:>10} {:>10} {:>7}{more}  plain test",
        "proved ns", "plain ns", "ratio"
    );
}

/// One line of the table, marked where the ratio is over the bar.
pub fn row(what: &str, times: &Times, bar: f64) {
    row_with(what, times, "", bar);
}

/// A line that says more.
pub fn row_with(what: &str, times: &Times, more: &str, bar: f64) {
    let Times { ours, theirs, test } = times;
    let ratio = ours / theirs;
    let mark = if ratio > bar { "over the bar" } else { "" };
    let line =
        format!("{what:<WIDTH$} {ours:>10.1} {theirs:>10.1} {ratio:>7.2}{more}  {test:<12} {mark}");
    println!("{}", line.trim_end());
}
