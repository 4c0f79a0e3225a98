#!/usr/bin/env python3
"""The lines of the program check_objects, and what they give, over plain tables.

`cases` prints the lines, and `answer` what each gives. A line is a look, or a list of operations that are done at once, with commas
between them:

    spaces                             how many dataspaces there are
    space PATH                         when a dataspace was made and last put
    object PATH WELL                   an object: the well of a number in a dataspace
    put_space PATH AT                  puts a dataspace at this moment
    drop_space PATH                    drops a dataspace, with its objects
    put_object PATH WELL AT DATA       puts an object with this data, named after its dataspace
    drop_object PATH WELL              removes an object

`-` is the empty text.
"""
import random
import sys


def text(word):
    return "" if word == "-" else word


class Store:
    def __init__(self):
        self.tables = {"space": {"": (0, 0)}, "object": {}}

    def put(self, table, key, at, *rest):
        made = self.tables[table].get(key, (at,))[0]
        self.tables[table][key] = (made, at, *rest)

    def do(self, call, path, *rest):
        path = text(path)
        if call == "put_space":
            self.put("space", path, int(rest[0]))
        elif call == "drop_space":
            self.tables["space"].pop(path, None)
            self.tables["object"] = {key: object for key, object in self.tables["object"].items() if key[0] != path}
        elif call == "put_object":
            well, at, data = rest
            self.put("object", (path, well), int(at), path, text(data).encode())
        else:
            self.tables["object"].pop((path, rest[0]), None)

    def space(self, path):
        found = self.tables["space"].get(text(path))
        return "created %d written %d" % found if found else "no dataspace"

    def object(self, path, well):
        found = self.tables["object"].get((text(path), well))
        if found is None:
            return "no object"
        created, written, name, data = found
        return "created %d written %d changed 3 active 1 name %s data %s" % (created, written, '"%s"' % name, list(data))

    def answer(self, line):
        call, *words = line.split(" ")
        if call == "spaces":
            return "%d dataspaces" % len(self.tables["space"])
        if call in ("space", "object"):
            return getattr(self, call)(*words)
        operations = line.split(",")
        for operation in operations:
            self.do(*operation.split(" "))
        return "%d done" % len(operations)


FIXED = """\
spaces
space -
object - 1
put_space w 5
put_space w 9
spaces
space w
put_object - 1 5 -
put_object - 1 9 -
object - 1
put_object w 1 5 a
put_object w 2 6 bc
drop_object w 1
object w 1
object w 2
put_object w 1 5 -
put_object x 1 6 -
drop_space w
object w 1
object w 2
object x 1
object - 1
put_object w 1 5 -
drop_space w,put_object w 2 6 2
object w 1
object w 2
put_object w 2 7 3,drop_space w
object w 2
drop_space v,drop_object v 1
drop_space -
space -
spaces
put_space - 8
space -
"""


def drawn(count):
    """Lists of one to four operations, and looks at what they may have altered."""
    draw = random.Random(31)

    def path():
        return draw.choice(["-", "v", "w", "x"])

    def operation(at):
        kind = draw.randrange(8)
        if kind == 0:
            return "put_space %s %d" % (path(), at)
        if kind == 1:
            return "drop_space %s" % path()
        if kind < 6:
            data = "".join(draw.choice("abc") for _ in range(draw.randrange(4)))
            return "put_object %s %d %d %s" % (path(), draw.randrange(3), at, data or "-")
        return "drop_object %s %d" % (path(), draw.randrange(3))

    lines = []
    for at in range(10, 10 + count):
        lines.append(",".join(operation(at) for _ in range(draw.randrange(1, 5))))
        lines.append(draw.choice(["spaces", "space %s" % path()]))
        lines += ["object %s %d" % (path(), draw.randrange(3)) for _ in range(2)]
    return lines


def main():
    lines = FIXED.splitlines() + drawn(150)
    if sys.argv[1:] == ["cases"]:
        print("\n".join(lines))
    elif sys.argv[1:] == ["answer"]:
        store = Store()
        for line in lines:
            print(store.answer(line))
    else:
        sys.exit("cases or answer")


main()
