#!/usr/bin/env python3
"""Brings this repository's own definitions and lemmas to the spelling of today's Rattle: words in snake case.

usage: python3 tools/port_names.py        once, at the top, right after the kit's port.py

port.py respells the names of the libraries, and those of ours that are spelled like one. This does the rest: a name that
specs/ or a lemma file of proofs/ declares, with a dash or a capital inside, gets underscores. A lemma that would get the
name of its definition gets `_lem` behind it (LEMMAS). Names of goals, which Rattle makes, stay: they belong to the
proof files, which are turned by hand. Texts beside the crates (must-fail edits, pages) get port.py's respellings too.
"""

import collections
import glob
import re

WORD = r'[^\s(){}.;,@"«»\[\]`/:*]+'
MARKS = r"(?:(?:pub|abbrev|unfoldable|opaque|private|data|record) )*"
DECLARATION = re.compile(rf"(?m)^ *{MARKS}({WORD}(?: {WORD})*?)((?: [{{(][^{{}}\n]*[}})])*) :(?= |$)")

# Lemmas that would fall together with the definition that they speak of.
LEMMAS = {
    "array-next": "array_next_lem",
    "levels-in": "levels_in_lem",
    "by-single": "by_single_lem",
    "instr-at": "instr_at_lem",
    "join-words": "join_words_lem",
    "within-words": "within_words_lem",
    "settle-word": "settle_word_lem",
    "mark-of": "mark_of_lem",
}
# The same, of lemmas that port.py has respelled.
TURNED_LEMMAS = {"join_slot": "join_slot_lem", "put_word": "put_word_lem"}

# What port.py said of our names: in crates/ it has turned them, in edits and pages it has not.
TURNED = """
after-same afterOf all-read all-right allBytes answerIn arrayAt asks-nothing at-in at-return back-on below-all
below-fails beside-none block-read blockAt both-runs by-kind bytesOf call-met call-ok call-step callAt dataOf dueAt
else-same endOf flat-ok get-spec goes-on goes-step going-start guard-mono high-bit home-at home-below home-here homeOf
if-kept if-ok if-past in-list in-table in-words isPlain join-is join-slot kept-on kindOf last-byte leftOf lengthOf
lies-in lies-out lineOf listFrom listed-same load-spec load-word main-spec mark-on markOf memOf named-count nextOf
no-call no-longer no-return no-way none-left number-at numberOf one-at one-below one-left one-more one-of only-calls
outOf packedAt part-lies partOf parts-all partsAt pass-all pick-ind pick-same put-one put-same put-spec put-word
reaches-end read-found read-ok read-spec record-is regsIn regsOf rest-all room-at room-for rowAt rows-fit rowsOf
run-is run-spec run-step runAt same-length says-if says-map seen-end seven-spec shifted-down shifted-up shut-at
shut-else shut-ok shut-one shut-out signatureAt slot-is slot-small stack-set stackOf stands-on start-spec startOf
step-args step-by step-is step-same step-spec stepOf store-spec store-word tableOf to-start to-step typingBy upTo
wayOf wordAt words-count wordsOf write-spec
""".split()

# Rust functions whose generated names port.py took for lemmas of a library.
NO_LEMMAS = {"start_of_lem": "start_of", "out_of_lem": "out_of"}


def snake(name):
    words = re.sub(r"(?<=[a-z0-9])[A-Z]", lambda m: "_" + m[0].lower(), name)
    return words.replace("-", "_")


def read(path):
    with open(path, encoding="utf-8") as file:
        return file.read()


def texts(*patterns):
    return sorted(p for pattern in patterns for p in glob.glob(pattern, recursive=True) if "/out/" not in p)


def of_a_function(path):
    """A proof file of one function or cycle, where most names are made by Rattle."""
    return path.endswith("/Proof.antt")


def declared(text):
    return {name for m in DECLARATION.finditer(re.sub(r"--[^\n]*", "", text)) for name in m[1].split()}


def table(paths):
    names = set()
    for path in paths:
        if not of_a_function(path):
            names |= declared(read(path))
    old = {n for n in names if n[0].islower() and snake(n) != n}
    new = {n: LEMMAS.get(n, snake(n)) for n in old}
    meets = collections.Counter(list(new.values()) + [n for n in names - old if n not in TURNED_LEMMAS])
    together = sorted(n for n, count in meets.items() if count > 1)
    if together:
        raise SystemExit(f"names that would fall together: {' '.join(together)}")
    return new


def turn_code(code, new, stay):
    def word(m):
        name, behind_dot = m[0], m.start() > 0 and code[m.start() - 1] == "."
        if behind_dot and name in NO_LEMMAS:
            return NO_LEMMAS[name]
        # «x.name» is a field or what Rattle calls a step; `use A.B.name` is a path
        if behind_dot and name in LEMMAS:
            return snake(name)
        return name if name in stay else new.get(name, name)

    return re.sub(WORD, word, code)


def turn_comment(text, new):
    """Code spans, and bare words with a capital inside: a bare word with a dash may be English."""
    spans = re.sub(r"`[^`\n]*`", lambda m: re.sub(WORD, lambda w: new.get(w[0], w[0]), m[0]), text)
    return re.sub(r"(?<![\w`-])[a-z]+[A-Z]\w*", lambda m: new.get(m[0], m[0]), spans)


def turn(path, new, comment):
    text = read(path)
    stay = {n for n in declared(text)} if of_a_function(path) else set()
    out, at = [], 0
    for m in re.finditer(comment, text):
        out += [turn_code(text[at : m.start()], new, stay), turn_comment(m[0], new)]
        at = m.end()
    out.append(turn_code(text[at:], new, stay))
    write(path, text, "".join(out))


def turn_edit(path, new):
    lines = []
    for line in read(path).split("\n"):
        key, colon, rest = line.partition(":")
        if key in ("old", "new", "refused", "unproved"):
            rest = re.sub(WORD, lambda m: new.get(m[0], m[0]), rest)
        elif key == "why":
            rest = turn_comment(rest, new)
        lines.append(key + colon + rest)
    write(path, read(path), "\n".join(lines))


def write(path, old, text):
    if text != old:
        with open(path, "w", encoding="utf-8") as file:
            file.write(text)


def main():
    antt = texts("crates/*/specs/**/*.antt", "crates/*/proofs/**/*.antt")
    new = table(antt)
    for path in antt:
        turn(path, new | TURNED_LEMMAS, r"--[^\n]*")
    for path in texts("crates/*/src/**/*.rt"):
        turn(path, new | TURNED_LEMMAS, r'//[^\n]*|"(?:\\.|[^"\\])*"')
    all_new = {n: snake(n) for n in TURNED} | {"join-slot": "join_slot_lem", "put-word": "put_word_lem"} | new
    for path in texts("crates/*/must-fail/*.edit"):
        turn_edit(path, all_new)
    for path in texts("*.md", "docs/**/*.md", "tests/second/*.md"):
        write(path, read(path), turn_comment(read(path), all_new))
    print(f"{len(new)} names, and those that port.py had turned in {len(TURNED)}")


main()
