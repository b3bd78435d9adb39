#!/usr/bin/env bash
# tests/docs.sh
#
# Says which of the pages and pictures that scripts write is out of date, which link or quoted path leads nowhere, which
# names of files and of definitions have two meanings, which contracts differ from contracts.lock, which public clause nothing holds, which lemma files are public for no other crate, which name in the
# iterators of a HopSlotMap might hide a read, which words of public
# clauses docs/DEFINITIONS.md lacks, which clauses docs/PROVED.md names that don't exist in the calls beside them, which slow
# operation has no cause in docs/PERFORMANCE.md, which cost is said more than once, which number of crates, wrong bodies or lines
# is out of date, which line of a source is too long, which public call no test runs, which page has no place on the site, whether a page says of a crate's axioms what its last verdict doesn't, and which text of a picture is wider
# than its box. It takes some seconds. The status is 0 if there is no fault.
cd "$(dirname "$0")/../docs"
status=0
for script in ../rust/eraser/test.py ../rust/erase.py ../tests/links.py ../tests/one_meaning.py ../tests/private_lemmas.py ../tests/counted_reads.py ../tests/calls.py lock.py ../tests/planted_weakenings.py ../tests/guards.py api.py site.py words.py counts.py theorem.py related.py verdicts.py calling.py performance.py pictures/crates.py pictures/hop_blocks.py pictures/slot.py pictures/speed.py; do
    python3 "$script" --check || status=1
done
exit $status
