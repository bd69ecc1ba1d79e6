"""Tries wrong.py on a small crate: what it must tell, it tells, and what is refused passes."""

import contextlib
import io
import pathlib
import sys
import tempfile

sys.dont_write_bytecode = True
import wrong

CRATE, FILE = "edge_tables", "src/tables.rt"
LINE = "        let contacts = &row.contacts[child as usize];"
CLAUSE = "        ensures one_step { steps.new ≡ steps.old + 1 }\n"
# what is tried, the edit's new text, the changes of the crate before it, and what must be said (None: it is refused)
TRIALS = [
    ("an edit that a clause refuses", "        steps.tick();" + LINE[7:], [], None),
    ("an edit that changes nothing", LINE, [], "BAD EDIT: it changes nothing"),
    ("an edit with a name that is nowhere", "        let contacts = &nowhere[child as usize];", [], "NOT TRIED"),
    ("an edit whose text is not there", LINE, [(LINE, LINE.replace("&row", "& row"))], "BAD EDIT: an 'old:' text is in"),
    ("a clause that lets an edit through", "        steps.tick();" + LINE[7:], [(CLAUSE, CLAUSE.replace("old + 1", "new"))], "NOT REFUSED"),
    ("a control that is not proved", "        let contacts = &row.contacts[0];",
     [("        contacts[edge as usize]", "        contacts[0]")], "NOT TRIED: without the edit"),
]


def changed(text, changes):
    """The text with each change made at the first place from the function's head on."""
    head = text.index("pub fn contact<")
    before, after = text[:head], text[head:]
    for old, new in changes:
        assert old in after, old
        after = after.replace(old, new, 1)
    return before + after


def said_of(kit, crate, new, changes):
    """What wrong.py says of one edit, and its status."""
    with tempfile.TemporaryDirectory(prefix="wrong-trial-") as room:
        wrong.tree_with(kit, crate, [], room)
        file = pathlib.Path(room, "crates", CRATE, FILE)
        file.write_text(changed(file.read_text(), changes))
        home = pathlib.Path(room, "edits", CRATE)
        home.mkdir(parents=True)
        (home / "trial.edit").write_text(f"file: {FILE}\nold: {LINE}\nnew: {new}\n")
        out = io.StringIO()
        with contextlib.redirect_stdout(out):
            status = wrong.main(room, home.parent, CRATE)
        return status, out.getvalue()


def main(top):
    kit, bad = wrong.of_kit("rt"), 0
    crate = next(it for it in kit.rtlib.crates_below(top) if it.name == CRATE)
    for what, new, changes, wanted in TRIALS:
        status, said = said_of(kit, crate, new, changes)
        is_right = status == 0 if wanted is None else status == 1 and wanted in said
        bad += not is_right
        print(f"wrong: {what}: {'told' if is_right else 'NOT TOLD: ' + said}")
    print(f"wrong: {len(TRIALS)} trials, {bad} wrong")
    return 1 if bad else 0


if __name__ == "__main__":
    sys.exit(main(sys.argv[1]))
