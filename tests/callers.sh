#!/usr/bin/env bash
# Every public function of the crates for callers can be called on anything: it has no `requires`. And it says what comes of it: it has an `ensures`, and
# each of them is an equation (`≡`).
set -uo pipefail
cd "$(dirname "${BASH_SOURCE[0]}")/.."

# The crates that others call. The crates below them are steps, which may ask for a sound table, a length or an index.
callers='sgroup indexed table opening launch launch_report refusal_head launch_refusals script who_report sgroup_c'

# Reads the public functions of files, from `pub fn` to the line that begins the body, and says what is amiss. Without what stands in parentheses, an equation is
# two sides with one `≡` between them, and no other relation or connective.
judge() {
    awk '
        function amiss(what) { print FILENAME ": " name ": " what; bad = 1 }
        function judged(   clauses, n, i) {
            many++
            if (head ~ /requires[a-z0-9_* ]*\{/) amiss("a public function of a crate for callers has a requires")
            n = split(head, clauses, /ensures[a-z0-9_* ]*\{/)
            if (n < 2) amiss("it promises nothing")
            for (i = 2; i <= n; i++) if (!equation(clauses[i])) amiss("a promise is no equation: " clauses[i])
        }
        function equation(s) {
            sub(/}[^}]*$/, "", s)
            while (gsub(/\([^()]*\)/, "", s)) {}
            return split(s, sides, /≡/) == 2 && s !~ /→|×|⊎|↔|≤|≢|</
        }
        /^[ ]*pub ([a-z]+ |"C" )*fn / { if (inside) amiss("its body is not found"); name = $0; sub(/^.*fn /, "", name); sub(/\(.*/, "", name); head = ""; inside = 1 }
        inside { head = head " " $0 }
        inside && (/^[ ]*\{$/ || (/\{$/ && head !~ /(requires|ensures)[a-z0-9_* ]*\{/)) { judged(); inside = 0 }
        END { if (inside) amiss("its body is not found"); if (!many) amiss("there is no public function"); exit bad }
    ' "$@"
}

bad=0
for crate in $callers; do
    mapfile -t files < <(find "crates/$crate/src" -name '*.rt')
    judge "${files[@]}" </dev/null || bad=1
done
exit $bad
