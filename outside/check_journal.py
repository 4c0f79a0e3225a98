#!/usr/bin/env python3
"""Makes the lines that a program about saved journals runs over disks in memory, and says what each gives.

    check_journal.py lines
    check_journal.py answer

`append ID FAILS KEPT GROUPS` makes the file of an instance on an empty disk whose calls of these numbers fail (`-` for none), and appends the groups
one after the other, until a call is refused. A write that fails leaves the first KEPT bytes of its piece. Groups stand between `;`, the
spellings of a group between `,`. It gives `ok` or `fault` for the making and for each group, then the disk's record of its calls, `put AT KEPT BYTES`,
`synced`, and `other` for a sync that failed, and then what the file opens to. Each write is torn at each byte.

`open ID BYTES NEXT` opens a file with these bytes, appends one entry more and opens it again. It gives `opens SPELLINGS` twice, or `refused` with
`magic`, `instance` or `entry AT`. The files are those that a crash may leave at each call, of each length, and some that were damaged.

`make NAME ID GROUPS` makes a journal in a file of the system, appends the groups, and opens the file once more while it is held, which is a fault.
`read NAME ID` opens it again. Both then give the file's bytes, or `no file`. `remove NAME` takes it away.

What is written is put together here from the layout, and what a crash may leave by disk_model.py.
"""
import sys

from disk_model import ANY, Disk, Fault, Stopped, every_case
from journal_file import FIRST_GATE, Refused, blocks, header, open_journal, write_journal
from test_journal_file import ENTRIES, INSTANCE, NEXT, SMALL, File

OTHER_INSTANCE = bytes(16)
GROUPS = [[SMALL[0]], [SMALL[1], NEXT]]
FILLS = (0x00, 0x01, 0xFF)


def shown(groups):
    return ";".join(",".join(each.hex() for each in group) for group in groups) or "-"


def opens_to(spellings):
    return [" ".join(["opens", *(each.hex() for each in spellings)])]


def answer_open(data, instance=INSTANCE):
    """What a file opens to. Any bytes are a spelling here: what they spell is not the file's concern."""
    try:
        return opens_to(open_journal(data, instance, lambda spelling: True).spellings)
    except Refused as why:
        return [f"refused {why.cause}" + ("" if why.at is None else f" {why.at}")]


# --- appending ---------------------------------------------------------------------------------------------------------


def writes(groups):
    """What each step writes, in order: the making, and each group behind the gate and at it. A sync follows each write."""
    steps, gate = [[(0, write_journal(INSTANCE, []))]], FIRST_GATE
    for group in groups:
        steps.append([(gate + 1, blocks(group)[1:] + b"\0"), (gate, b"\1")])
        gate += len(blocks(group))
    return steps


def put(file, at, piece):
    return file[:at] + piece + file[at + len(piece):] if piece else file


def answer_append(groups, fails, kept):
    """The outcome of each step, the record of the calls, and what is left."""
    outcomes, calls, number, file = [], [], 0, b""
    for step in writes(groups):
        for at, piece in step:
            number += 1
            came = piece[:kept] if number in fails else piece
            calls.append(f"put {at} {len(came)} {piece.hex()}")
            file = put(file, at, came)
            if number not in fails:
                number += 1
                calls.append("other" if number in fails else "synced")
            if number in fails:
                return outcomes + ["fault"] + calls + answer_open(file)
        outcomes.append("ok")
    return outcomes + calls + answer_open(file)


def torn_sizes(groups, number):
    """How many bytes of its piece a failing call may leave: those of a write, of each length."""
    pieces = [piece for step in writes(groups) for _, piece in step]
    return range(len(pieces[number // 2]) + 1) if number % 2 and number // 2 < len(pieces) else [0]


def appends():
    for groups in ([], GROUPS[:1], GROUPS):
        last = 2 + 4 * len(groups)
        for fails, kept in [((), 0), *(((number,), kept) for number in range(1, last + 1) for kept in torn_sizes(groups, number))]:
            answers = answer_append(groups, fails, kept)
            done = [each for group in groups[:max(answers.count("ok") - 1, 0)] for each in group]
            begun = done + [each for group in groups[answers.count("ok") - 1:answers.count("ok")] for each in group]
            # What a program finds that goes on after the fault is what was appended, with the group or without. A file of which the making failed is
            # none yet, unless all of it was written.
            assert answers[-1:] in [opens_to(done), opens_to(begun)] or (answers[0] == "fault" and answers[-1] == "refused magic"), answers
            words = ",".join(map(str, fails)) or "-"
            yield f"append {INSTANCE.hex()} {words} {kept} {shown(groups)}", answers


# --- opening -----------------------------------------------------------------------------------------------------------

# Where gates stand before and after each group.
GATES = {FIRST_GATE + len(blocks([each for group in GROUPS[:count] for each in group])) for count in range(len(GROUPS) + 1)}


def filled(cells, fill, gate):
    """A file in which each byte that may be any is this one, and each gate that may be any is that one."""
    return bytes(gate if cell is ANY and place in GATES else fill if cell is ANY else cell for place, cell in enumerate(cells))


def crashed():
    """What a crash may leave at each call, of each length. What has to open is said by what was appended, and not by reading."""
    files = {}

    def one(choices):
        disk, done, allowed = Disk(write_journal(INSTANCE, []), choices, 1, True), [], None
        file = File(disk, FIRST_GATE)
        for group in GROUPS:
            try:
                file.append(group)
            except (Stopped, Fault):
                allowed = [done, done + group]
                break
            done = done + group
        cells = disk.crash()
        for fill in FILLS:
            for gate in (0, 1, 7, 255):
                data = filled(cells, fill, gate)
                assert answer_open(data) in [opens_to(each) for each in allowed or [done]], data.hex()
                files[data] = None

    every_case(one)
    return list(files)


def damaged():
    """Files of an entry of each kind: cut at each length, with another gate, and with another length."""
    spellings = [bytes.fromhex(text) for text in ENTRIES.values()]
    whole, gate = write_journal(INSTANCE, spellings), FIRST_GATE
    yield whole
    yield whole + b"\1\0\0"
    yield from (whole[:length] for length in range(len(whole)))
    for spelling in spellings:
        yield from (whole[:gate] + bytes([other]) + whole[gate + 1:] for other in (0, 2, 7, 255))
        yield from (whole[:gate + 1 + place] + b"\x01" + whole[gate + 2 + place:] for place in range(7))
        yield whole[:gate + 8] + b"\0" + whole[gate + 9:]
        gate += 9 + len(spelling)
    yield b"ETPJRN02" + whole[8:]
    yield header(INSTANCE)
    # An entry of no bytes, and a file whose last entry has the last byte behind it or not.
    yield write_journal(INSTANCE, [b""])
    yield header(INSTANCE) + blocks([b"", SMALL[0]])
    yield header(INSTANCE) + b"\1" + bytes(7) + b"\1\2"
    yield header(INSTANCE) + b"\1" + bytes(7) + b"\1\2\0"


def opens():
    for data, instance in [*((each, INSTANCE) for each in [*crashed(), *damaged()]), (write_journal(INSTANCE, SMALL), OTHER_INSTANCE)]:
        answers = answer_open(data, instance)
        if answers[0].startswith("opens"):
            answers += [answers[0] + " " + NEXT.hex()]
        yield f"open {instance.hex()} {data.hex() or '-'} {NEXT.hex()}", answers


# --- files of the system -----------------------------------------------------------------------------------------------


def files():
    everything = [each for group in GROUPS for each in group]
    whole, me, other = write_journal(INSTANCE, everything).hex(), INSTANCE.hex(), OTHER_INSTANCE.hex()
    yield f"read journal {me}", ["refused magic", "no file"]
    yield f"make journal {me} {shown(GROUPS)}", ["ok"] * (1 + len(GROUPS)) + ["fault", whole]
    yield f"read journal {me}", [*opens_to(everything), whole]
    yield f"read journal {other}", ["refused instance", whole]
    yield f"make ./empty {me} -", ["ok", "fault", write_journal(INSTANCE, []).hex()]
    yield f"make nowhere/journal {me} -", ["fault", "no file"]
    yield from ((f"remove {name}", [gone]) for name, gone in [("journal", "removed"), ("./empty", "removed"), ("nowhere/journal", "no file")])


def main():
    if sys.argv[1:] not in (["lines"], ["answer"]):
        sys.exit(__doc__)
    for line, answers in [*appends(), *opens(), *files()]:
        print(line if sys.argv[1] == "lines" else "\n".join(answers))


if __name__ == "__main__":
    main()
