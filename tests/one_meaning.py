#!/usr/bin/env python3
# tests/one_meaning.py [--check]
#
# Lists the names of files, and the words that specs/ declare, that stand twice in the repository and aren't known to have one meaning. So it does with
# the lemmas of one name in one crate, and with a lemma that is proved in two files. The lists below give for each that stands twice the meaning
# that all its places have. The status is 0 if nothing is listed.
import collections
import glob
import os
import re
import sys

TOP = os.path.dirname(os.path.dirname(os.path.abspath(__file__)))

# Each of these files is about one call, or one kind of calls, of its crate's map. In slotmap_slots it has that part for two maps
CALLS = 'access clear clone detach drain entry equal extend find insert into_iter iter list primary remove retain secondary'.split()

SOURCES = {
    'lib main tests': 'the root of a crate, or of its tests',
    ' '.join(CALLS): 'that call of a map; for primary and secondary, of the trait',
    'call maps keyed many sized held lists runs kinds walks steps replies stop script': 'that part of a program that reads rows or scripts, or of a run',
    'commands errors keys joined json clones scheduler packed': 'that subject: its definition, its tests, or an example of it',
    'blocks disjoint entries owned slices': 'the blocks of vacant slots, several keys at once, entries, owned iterators, or packed slices: the calls, or guards of their contracts',
    'guards': 'what callers rely on in the calls of a structure, or of those for C',
    'basic dense hop sparse': 'that map: its calls in rows, or guards of its contracts',
    'run': 'runs: of scripts, or guards of their contracts',
    'calls': 'calls of a structure, of callers or of the scheduler itself',
    'debug': 'the text of a type in a debugger',
    'handle': 'a handle for C: of a map, or of a side table',
    'links search rows': 'links of nodes or slots; a search along them; rows of a layout or of a file',
    'room': 'room for more keys: of a list, or in examples',
    'next_after': 'that call: of a map, or of a bounded map',
    'add beside moves place take': 'that subject: of a list, or of several lists in one map',
}

LEMMAS = {
    'Callers': 'what callers cite: of the core, of a structure, and by the facade',
    'CloneLemmas': 'clones of values',
    'Copied': 'what a copy has: of several lists, or of a scheduler',
    'Counts Linking': 'the same of lists of keys and of lists of numbers',
    'Indices': 'the keys of a map by their indices',
    'Copied Moved Seen': 'what is copied or moved, and what a user sees: of one structure and of another',
    'Common': 'what the proofs of a crate cite, passed on by one file',
    'ContentLemmas': 'what a map holds',
    'DrainLemmas': 'drains',
    'Draining Visiting': 'the steps of a drain, and a loop that visits all: of one structure and of another',
    'FromListLemmas': 'a map that is read from a list of slots',
    'IterLemmas': 'iterators',
    'Results': 'what clauses say of results',
    'RetainLemmas': '`retain`',
    'Send': 'a type may go to another thread',
    'SettledLemmas': 'what calls know of slots between calls, by what the map holds',
    'SlotLemmas': 'the slots of a map in memory',
    'WellFormed': 'a map stays well formed',
    'WrittenLemmas': 'the list of slots that a map is written as',
    'Changes Ends Written': 'what a change, an end or a write is: of links of numbers, of a list, or of several lists',
    'Orders': 'the order in which keys are reused, or in which nodes are left',
}

SPECS = {
    'Call': 'what calls ensure, whatever they return',
    'Content': 'what a map holds',
    'Drain': 'drains',
    'Entry': 'entries',
    'Extend': 'calls that put many pairs',
    'Found': 'what a look-up finds',
    'Iter': 'iterators',
    'Kept': 'how lists are kept: numbers in two vectors, values in a map and its links',
    'Linked Segment Splice': 'lists that are kept as links, of keys and of numbers',
    'Lends': 'what a map ends as once a reference into it ends',
    'Pass': 'passes of a closure',
    'Places': 'places and what they hold: of a map, or of several lists',
    'Refused': 'why a call of a list, or of several lists, is refused',
    'Retain': '`retain`',
    'Slots': 'the slots of a map in memory',
    'Words': 'words of several files, passed on by one: of the core for the crates above, of all crates for callers',
    'Written': 'the list of slots that a map is written as',
}

WORDS = {
    'lends_value lends_get entry_lends occupied_lends rests_if_err': 'what is left once the reference to a value ends',
    'IsSound IsContent IsIter IsInPlace': 'what always holds, of slots, of a content, of an iterator, of an entry',
    'Content content_code content_of with_value value_of used retired pairs_of': 'the same of each kind of map, and of the states of its machine',
    'drain_loan drain_live drain_count DrainCanStep DrainSteps TakesPair TakesFirst': 'the same of the drain of each kind of map',
    'KeepsLent SameLoan YieldsInOrder': 'the same of the drain of each structure',
    'IsSlotClone AreSlotClones places_of value_at version_in next_at pairs_from pairs_left': 'the same of slots of each kind',
    'is_found Refuses IsRefused HandsBack': 'what that call finds or ensures, or why it is refused',
    'entry_map_ref entry_map entry_lender entry_key entry_value entry_with entry_without occupied_with IsWritten Enters IsEntryOf IfEntry': 'the same of the entries of each secondary map',
    'CanReplace AreValuesOf with_values dropped CallsAt': 'several keys or calls of a closure, of each kind of map',
    'Given Step DetachStep StepInsert StepRemove StepDetach StepReattach after_insert after_remove after_detach after_reattach': 'the same of each machine',
    'keys_from': 'the part of a list from a key on',
    'memory': 'what a structure has memory for: where it stays, no vector has grown',
    'AreListed RefusesBeside': 'each key is once in one list, and in no other; why a call beside another key is refused',
    'memory': 'what a list has memory for, or several lists in one map',
    'key_after': 'the key after another one, in a list of keys or of elements',
    'IsOnce without is_key same times': 'lists of indices or keys: none twice; all but one; how often a key is in one',
    'AreApart AreLinked IsListed IsSegment followed link_between listed no_ends no_link own put_before': 'the same of lists of keys or edges, and of numbers',
    'Nodes IsChain Unlinks Relinks IsWalk follow with_link with_next with_prev link_in ends_in ends_of first_or last_or': 'what is linked both ways: nodes, slots, or the keys of a list',
}

# Lemmas that other files cite, of one name in one crate
LEMMA_NAMES = {
    'detached full inserts no_memory reattach_served removed': 'that command of a run, and of a joined run',
    'leads_on next_listed': 'a way goes on, and the next edge or key is listed: of two searches',
    'listed_once not_found taken goes_up put_len stands': 'the same of two models of a structure or a map',
    'holder_spec send': 'that function of each handle for C, by the name that the checker wants',
}

# Lemmas of one name and one statement in two files
PROVED_TWICE = {
    'dropped_push slots_equal': 'of words that each map has for itself',
    'keeps_lent yields_in_order': 'the same of the drain of each structure',
    'first second some_is own': 'a line of logic that a structure proves for itself',
    'below-changed sorted-changed': 'of entries whose values are changed by the value, or by the key',
    'holder_spec': 'that function of each handle for C, by the name that the checker wants',
}


def known(table):
    return {name for names in table for name in names.split()}


def relative(path):
    return os.path.relpath(path, TOP)


def repeated_files(pattern, allowed):
    found = collections.defaultdict(list)
    for path in sorted(glob.glob(f'{TOP}/crates/{pattern}', recursive=True)):
        name = os.path.splitext(os.path.basename(path))[0]
        if '/out/' not in path and name not in ('Lib', 'Answers', 'Invariants', 'Proof'):
            found[name].append(relative(path))
    return [f'{name}: {", ".join(paths)}' for name, paths in sorted(found.items()) if len(paths) > 1 and name not in allowed]


def repeated_words():
    found = collections.defaultdict(list)
    declared = re.compile(r"^\s*(?:abbrev pub|unfoldable pub|pub record|pub data|pub abbrev)\s+([A-Za-z][\w'\-]*)")
    for path in sorted(glob.glob(f'{TOP}/crates/*/specs/**/*.antt', recursive=True)):
        if '/out/' not in path:
            for number, line in enumerate(open(path, encoding='utf-8'), 1):
                word = declared.match(line)
                if word and word.group(1) != 'use':
                    found[word.group(1)].append(f'{relative(path)}:{number}')
    return [f'{word}: {", ".join(places)}' for word, places in sorted(found.items()) if len(places) > 1 and word not in known(WORDS)]


def lemmas():
    """The lemmas of all crates: crate, name, statement, whether other files may cite it, and place. Fields of records are none."""
    declared = re.compile(r"^( *)(pub )?([A-Za-z][\w'\-]*) : (.*)$")
    for path in sorted(glob.glob(f'{TOP}/crates/*/proofs/**/[A-Z]*.antt', recursive=True)):
        if '/out/' in path or os.path.basename(path) in ('Answers.antt', 'Invariants.antt', 'Lib.antt', 'Common.antt'):
            continue
        with open(path, encoding='utf-8') as file:
            lines = file.read().split('\n')
        for number, line in enumerate(lines):
            match = declared.match(line)
            if match:
                indent, pub, name, statement = match.groups()
                rest = number + 1
                while rest < len(lines) and lines[rest].startswith(indent + '    '):
                    statement += ' ' + lines[rest].strip()
                    rest += 1
                if rest < len(lines) and re.match(rf'{indent}(unfolding|{re.escape(name)}) ', lines[rest]):
                    yield relative(path).split('/')[1], name, ' '.join(statement.split()), bool(pub), f'{relative(path)}:{number + 1}'


def repeated_lemmas():
    cited, proved = collections.defaultdict(list), collections.defaultdict(list)
    for crate, name, statement, pub, place in lemmas():
        if pub:
            cited[crate, name].append(place)
        proved[name, statement].append(place)
    faults = [f'two lemmas of {crate}: {name}: {", ".join(places)}' for (crate, name), places in sorted(cited.items()) if len(places) > 1 and name not in known(LEMMA_NAMES)]
    for (name, statement), places in sorted(proved.items()):
        files = {place.split(':')[0] for place in places}
        if len(files) > 1 and len(statement) > 25 and name not in known(PROVED_TWICE):
            faults.append(f'a lemma that is proved twice: {name}: {", ".join(places)}')
    return faults


def main():
    faults = [f'two files of src/: {x}' for x in repeated_files('*/src/**/*.rt', known(SOURCES))]
    faults += [f'two files of proofs/: {x}' for x in repeated_files('*/proofs/**/[A-Z]*.antt', known(LEMMAS))]
    faults += [f'two files of specs/: {x}' for x in repeated_files('*/specs/*.antt', known(SPECS))]
    faults += [f'two declarations: {x}' for x in repeated_words()]
    faults += repeated_lemmas()
    for fault in faults:
        print(fault)
    if faults:
        print(f'{len(faults)} names stand twice: rename one, or say in {relative(__file__)} what all of them mean')
    return 1 if faults else 0


if __name__ == '__main__':
    sys.exit(main())
