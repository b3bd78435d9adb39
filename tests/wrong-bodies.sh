#!/usr/bin/env bash
# tests/wrong-bodies.sh [--gate] [CRATE | CRATE/NAME ..]
#
# Tries each wrong body of these crates, those of these names, or all: the files of must-fail, which the gate tries too, and those of
# more-wrong-bodies. With --gate, those of must-fail alone. The prover has to refuse each, and by a goal: a wrong body that is
# refused since a proof cites a name that it took away shows nothing of the contract.
#
# Run it when a crate's contract changes, and before a release. docs/ARCHITECTURE.md says what a wrong body costs.
# Libraries and proofs that `rt check` made of the same text anywhere on this machine are taken as they are. What `rt ci`
# keeps can't be: a first run after a gate alone proves the crate and the libraries below it once.
#
# The last line has the numbers and the processor time. The status is 0 if each wrong body was refused by a goal, those of
# more-wrong-bodies perhaps by names.
set -euo pipefail
exec python3 "$(dirname "$0")/wrong_bodies.py" "$@"
