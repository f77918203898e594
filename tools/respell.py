#!/usr/bin/env python3
"""Brings the repository's own definitions and lemmas to the spelling of today's Rattle.

usage: python3 tools/respell.py [FOLDER]     FOLDER: the top of a checkout; this one, if none is named

Run once, after the kit's port.py, over a checkout of the older spelling. Words are in snake case, a dash joins two names, and a plain word is
added with `_`. In this repository only clauses, `ghost use` lines, specs/ and proofs/ have these names: no function of src/, no string, input or
output. A second run changes nothing.
"""

import pathlib
import re
import sys

# definitions of specs/, which clauses and edits name too
DEFINITIONS = {
    "seqNo": "seq_no",
    "newSeq": "new_seq",
    "onwardSeq": "onward_seq",
    "nextSeq": "next_seq",
    "aheadSeq": "ahead_seq",
    "pollNo": "poll_no",
    "newPoll": "new_poll",
    "onwardPoll": "onward_poll",
    "nextPoll": "next_poll",
    "aheadPoll": "ahead_poll",
    "agePoll": "age_poll",
    "olderPoll": "older_poll",
}

# lemmas of proofs/: a name, then a plain word. (`ahead-more` is turned by port.py.)
LEMMAS = {
    "onward-round": "onward_round",
    "ahead-by": "ahead_by",
    "ahead-self": "ahead_self",
    "ahead-between": "ahead_between",
    "ahead-same": "ahead_same",
    "onward-same": "onward_same",
    "residue-is": "residue_is",
    "residue-same": "residue_same",
    "age-after": "age_after",
    "age-before": "age_before",
    "older-yes": "older_yes",
    "older-no": "older_no",
    "onward-code": "onward_code",
    "ahead-code": "ahead_code",
    "onward-spec": "onward_spec",
    "ahead-spec": "ahead_spec",
    "age-spec": "age_spec",
    "older-spec": "older_spec",
}


def turned(text, table):
    for old, new in table.items():
        text = re.sub(r"(?<![\w.'-])" + re.escape(old) + r"(?![\w'-])", new, text)
    return text


def collisions(texts):
    """New names that some file already has, before anything is turned."""
    for new in [*DEFINITIONS.values(), *LEMMAS.values()]:
        for path, text in texts.items():
            if re.search(r"(?<![\w.'-])" + re.escape(new) + r"(?![\w'-])", text):
                yield path, new


def main():
    top = pathlib.Path(sys.argv[1] if len(sys.argv) > 1 else pathlib.Path(__file__).resolve().parent.parent)
    files = [p for p in sorted(top.glob("crates/**/*")) if p.suffix in (".rt", ".antt", ".edit") and "out" not in p.relative_to(top).parts]
    texts = {p: p.read_text(encoding="utf-8") for p in files}
    old = [*DEFINITIONS, *LEMMAS]
    if not any(re.search(r"(?<![\w.'-])" + re.escape(o) + r"(?![\w'-])", t) for o in old for t in texts.values()):
        print("respell: nothing to do")
        return
    clash = sorted(set(collisions(texts)))
    if clash:
        for path, new in clash:
            print(f"respell: {path.relative_to(top)} has the name {new} already", file=sys.stderr)
        raise SystemExit(1)
    n = 0
    for path, text in texts.items():
        table = DEFINITIONS if path.suffix == ".rt" else DEFINITIONS | LEMMAS
        new = turned(text, table)
        if new != text:
            path.write_text(new, encoding="utf-8")
            n += 1
    print(f"respell: {n} files changed")


if __name__ == "__main__":
    main()
