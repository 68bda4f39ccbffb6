#!/usr/bin/env bash
# The independent model of documents 01 and 02 passes its own tests: the sample, the marked steps, the edges, each wrong reading told apart,
# soundness clause by clause, names that leave with their node, strangers that lookups tell, the index by pid, random runs; for launch files every reason, every trap of the place, and places found by brute force.
#
#   [MODEL_SEED=SEED] [MODEL_ROUNDS=ROUNDS] tests/model.sh     another seed for the random tests, other rounds for each of them
set -uo pipefail
cd "$(dirname "${BASH_SOURCE[0]}")/model"
export MODEL_SEED=${MODEL_SEED:-1}
echo "model: seed $MODEL_SEED, ${MODEL_ROUNDS:-the usual} rounds"
cargo test --release --offline --quiet
