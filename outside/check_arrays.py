#!/usr/bin/env python3
"""The calls of the program check_arrays, and their results, computed with plain lists.

`cases` prints the calls, one a line, and `answer` what each gives. A line has a call and its words:

    dims DIMS COUNT                            how many elements there are; COUNT may be `any`
    judge DIMS KIND ELEMENTS                   why a record is not an array
    reserve MORE                               makes room for more arrays
    put SPACE PATH DIMS KIND ELEMENTS AT       puts an array that was written at AT
    get SPACE PATH                             the array
    slice SPACE PATH STARTS COUNTS             the elements of a region
    patch SPACE PATH STARTS COUNTS KIND ELEMENTS
    copied SPACE PATH STARTS COUNTS            the elements of a region of a copy of the record
    copied SPACE PATH STARTS COUNTS KIND ELEMENTS      a copy of the record with a patch, which the store does not have
    written SPACE PATH AT                      notes when it was last written
    drop_object SPACE, drop_space SPACE        how many arrays went
    apply OPERATION;OPERATION..                does operations in order: `set` with the words of a put, `patch` with those of a
                                               patch and its moment, `drop_object` or `drop_space`

A list is written with commas, and `-` is that of none. Floats and doubles are given by their bits; a text may be written as
PIECE*COUNT.
"""
import itertools
import random
import sys

KINDS = ["boolean", "int", "long", "float", "double", "string", "bytes"]
SIZES = {"boolean": 1, "int": 4, "long": 8, "float": 4, "double": 8, "bytes": 1}
RANK = "there are not 1 to 8 dimensions, or not as many starts and counts"
OUTSIDE = "a dimension, a start or a count is negative, or a region passes a dimension"
KIND = "the values are of another kind than the array"
COUNT = "there are not as many elements as the dimensions or counts make"
TOO_LARGE = "the array would have more than 4194304 elements or 33554432 bytes"


def listed(word):
    return [] if word == "-" else word.split(",")


def numbers(word):
    return [int(item) for item in listed(word)]


def elements(kind, word):
    if kind != "string":
        return listed(word)
    texts = []
    for item in listed(word):
        piece, star, count = item.partition("*")
        texts.append(piece * int(count) if star else item)
    return texts


def product(items):
    whole = 1
    for item in items:
        whole *= item
    return whole


def size(kind, items):
    if kind == "string":
        return sum(8 + len(item.encode()) for item in items)
    return SIZES[kind] * len(items)


def dims_of(dims, count):
    """How many elements the dimensions make, or why they are refused."""
    if not 1 <= len(dims) <= 8:
        return RANK
    if min(dims) < 0:
        return OUTSIDE
    if count is not None and count != product(dims):
        return COUNT
    return TOO_LARGE if product(dims) > 4194304 else product(dims)


def places(dims, starts, counts):
    """The places of a region's elements, in row-major order. A region without elements is not walked."""
    if product(counts) == 0:
        return []
    spans = [range(start, start + count) for start, count in zip(starts, counts)]
    found = []
    for index in itertools.product(*spans):
        place = 0
        for dim, part in zip(dims, index):
            place = place * dim + part
        found.append(place)
    return found


def shown(kind, items):
    texts = ['"%s"' % item for item in items] if kind == "string" else items
    return " ".join([kind, *texts])


class Store:
    def __init__(self):
        self.arrays = {}

    def region(self, array, starts, counts):
        """The places of a region's elements, or why it is not a region of the array."""
        if len(starts) != len(array["dims"]) or len(counts) != len(array["dims"]):
            return RANK
        for dim, start, count in zip(array["dims"], starts, counts):
            if start < 0 or count < 0 or start + count > dim:
                return OUTSIDE
        return places(array["dims"], starts, counts)

    def put(self, space, path, dims, kind, items, at):
        dims, items = numbers(dims), elements(kind, items)
        count = dims_of(dims, len(items))
        if isinstance(count, str):
            return count
        if size(kind, items) > 33554432:
            return TOO_LARGE
        before = self.arrays.get((space, path))
        created = before["created"] if before else int(at)
        self.arrays[space, path] = {"dims": dims, "kind": kind, "items": items, "written": int(at), "created": created}
        return "done"

    def get(self, space, path):
        array = self.arrays.get((space, path))
        if array is None:
            return "no array"
        kind, items = array["kind"], array["items"]
        moments = "created %d written %d" % (array["created"], array["written"])
        return "%s elements %d bytes %d %s" % (moments, len(items), size(kind, items), shown(kind, items))

    def slice(self, space, path, starts, counts):
        array = self.arrays.get((space, path))
        if array is None:
            return "no array"
        found = self.region(array, numbers(starts), numbers(counts))
        if isinstance(found, str):
            return found
        return shown(array["kind"], [array["items"][place] for place in found])

    def patch(self, space, path, starts, counts, kind, items):
        array = self.arrays.get((space, path))
        if array is None:
            return "no array"
        found = self.region(array, numbers(starts), numbers(counts))
        if isinstance(found, str):
            return found
        if kind != array["kind"]:
            return KIND
        items = elements(kind, items)
        if len(items) != product(numbers(counts)):
            return COUNT
        new = list(array["items"])
        for place, item in zip(found, items):
            new[place] = item
        if size(kind, new) > 33554432:
            return TOO_LARGE
        array["items"] = new
        return "done"

    def copied(self, space, path, starts, counts, *values):
        held = dict(self.arrays)
        if not values:
            return self.slice(space, path, starts, counts)
        if (space, path) in held:
            self.arrays[space, path] = dict(held[space, path])
        answer = self.patch(space, path, starts, counts, *values)
        if answer == "done":
            answer = self.get(space, path)
        self.arrays = held
        return answer

    def judge(self, dims, kind, items):
        answer = Store().put("", "", dims, kind, items, 0)
        if answer == "done":
            return "an array"
        return "code %d: %s" % (17 if answer == TOO_LARGE else 5, answer)

    def apply(self, line):
        operations = [operation.split(" ") for operation in line.split(";")]
        for call, *words in operations:
            getattr(self, {"set": "put", "patch": "patch_in_place"}.get(call, call))(*words)
        return "%d done" % len(operations)

    def patch_in_place(self, space, path, starts, counts, kind, items, at):
        """A patch among operations: it leaves an array of bytes, and one that it does not fit, as it is."""
        array = self.arrays.get((space, path))
        if array and array["kind"] != "bytes" and self.patch(space, path, starts, counts, kind, items) == "done":
            array["written"] = int(at)

    def written(self, space, path, at):
        if (space, path) not in self.arrays:
            return "no array"
        self.arrays[space, path]["written"] = int(at)
        return "done"

    def reserve(self, more):
        return "done"

    def dims(self, dims, count):
        return str(dims_of(numbers(dims), None if count == "any" else int(count)))

    def drop_space(self, space):
        gone = [key for key in self.arrays if key[0] == space]
        for key in gone:
            del self.arrays[key]
        return str(len(gone))

    def drop_object(self, space):
        return self.drop_space(space)


FIXED = """\
dims 4,6 24
dims 4194304 any
dims 4611686018427387904,4611686018427387904,0 0
dims 1099511627776,0 0
dims 4194305 any
dims 4611686018427387904,4611686018427387904 any
dims - 1
dims 1,1,1,1,1,1,1,1,1 any
dims 1,1,1,1,1,1,1,1 1
dims 2,-1 2
dims 5000000 2
dims 4611686018427387904,4611686018427387904 18446744073709551615
reserve 3
put w a 4,6 int 0,1,2,3,4,5,6,7,8,9,10,11,12,13,14,15,16,17,18,19,20,21,22,23 1
slice w a 3,5 1,1
slice w a 3,5 0,1
slice w a 1,2 2,2
slice w a 4,6 0,0
slice w a 3,5 2,1
slice w a -1,0 1,1
slice w a 0,0 1,-1
slice w a 3 1,1
slice w a 0,0 1
patch w a 3,5 1,1 int 99
patch w a 0,0 0,6 int -
slice w a 3,4 1,2
patch w a 0,0 1,1 string a,b
patch w a 0,0 1,2 int 1
patch w a 0,0 5,1 string a
get w a
put w b 2 int 1 1
put w b 2,-1 int 1,2 1
put w b - int 1 1
put w b 2 int 1,2 3
put w b 3 long -9223372036854775808,0,9223372036854775807 7
get w b
written w b 9
get w b
written w c 9
slice w c 0 1
patch w c 0 1 int 1
get w c
put w d 2,2 string a,,c,d 1
patch w d 0,1 2,1 string x,y
get w d
patch w d 0,0 1,1 string a*33554398
get w d
patch w d 0,0 1,1 string a*33554397
slice w d 0,1 2,1
patch w d 0,0 1,1 string a
patch w d 1,1 1,1 string bc*2
get w d
put w d 2 string a*33554417,a 1
put w h 2 string a*33554415,a 1
slice w h 1 1
put w e 1099511627776,0 int - 1
slice w e 0,0 549755813888,0
patch w e 0,0 549755813888,0 int -
slice w e 0,0 1099511627776,1
put w f 0,1099511627776 bytes - 1
slice w f 0,549755813888 0,549755813888
patch w f 0,0 0,1099511627776 bytes -
put w g 2048,2048,0 string - 1
slice w g 1024,1024,0 1024,1024,0
patch w g 0,0,0 2048,2048,0 string -
get w g
put x a 1 boolean true 2
put y a 1 boolean false 2
reserve 1000
drop_object x
drop_space w
drop_space w
get w a
get x a
get y a
put q a 4,6 int 0,1,2,3,4,5,6,7,8,9,10,11,12,13,14,15,16,17,18,19,20,21,22,23 1
copied q a 1,2 2,2
copied q a 3,5 2,1
copied q a 3,5 1,1 int 99
copied q a 3,5 1,1 long 99
copied q a 3,5 2,1 int 98,99
copied q b 3,5 1,1
copied q b 3,5 1,1 int 99
slice q a 3,5 1,1
judge 4,6 int 1
judge 1,2 int 3,4
judge - int -
judge 2,-1 long -
judge 1 string a*33554425
apply set s a 2 int 1,2 3;set t a 1 long 7 4;drop_space s
get s a
get t a
apply drop_space t;set t a 2 int 5,6 8;set t a 3 int 5,6 9;set t b 1 boolean true 9
get t a
get t b
apply set t a 2 int 6,5 10;set s c 1 int 1 11;drop_object t;drop_object s;set s c 1 int 2 12
get t a
get t b
get s c
apply set u a 2,2 int 1,2,3,4 1;patch u a 0,1 2,1 int 5,6 2;patch u a 1,0 1,1 int 7 3
get u a
apply patch u a 0,0 1,1 long 8 4;patch u a 0,0 1,2 int 8 5;patch u a 2,0 1,1 int 8 6;patch u b 0 1 int 8 7
get u a
get u b
apply set u b 2 bytes 1,2 8;patch u b 0 1 bytes 3 9
get u b
apply patch u a 0,0 1,1 int 9 10;drop_object u;set u a 2 string a,b 11;patch u a 1 1 string ccc 12
get u a
apply patch u a 0 1 string a*33554425 13
get u a
apply patch u a 0 1 string d 14;drop_space u;patch u a 0 1 string e 15
get u a
"""


def value(draw, kind):
    """Some element of a kind."""
    if kind == "boolean":
        return draw.choice(["true", "false"])
    if kind == "string":
        return "".join(draw.choice("abc") for _ in range(draw.randrange(4)))
    bits = {"int": 32, "long": 64, "float": 32, "double": 64, "bytes": 8}[kind]
    least = -(1 << bits - 1) if kind in ("int", "long") else 0
    return str(draw.randrange(least, least + (1 << bits)))


def word(items):
    return ",".join(str(item) for item in items) if items else "-"


def region(draw, dims):
    starts = [draw.randrange(dim + 1) for dim in dims]
    return starts, [draw.randrange(dim - start + 1) for dim, start in zip(dims, starts)]


def drawn():
    """Arrays of each kind and each rank, and regions of them."""
    draw = random.Random(12)
    lines = []
    for kind, rank in itertools.product(KINDS, range(1, 9)):
        dims = [draw.choice([1, 2, 2, 3, 3, 5] if rank < 4 else [1, 2, 2, 3]) for _ in range(rank)]
        items = [value(draw, kind) for _ in range(product(dims))]
        # a list of one empty text would be written as nothing
        if kind == "string":
            items = [item or "_" for item in items]
        lines.append("put r a %s %s %s %d" % (word(dims), kind, word(items), rank))
        for _ in range(3):
            starts, counts = region(draw, dims)
            lines.append("slice r a %s %s" % (word(starts), word(counts)))
            starts, counts = region(draw, dims)
            more = [value(draw, kind) or "_" for _ in range(product(counts))]
            lines.append("patch r a %s %s %s %s" % (word(starts), word(counts), kind, word(more)))
        lines.append("get r a")
    return lines


def main():
    lines = FIXED.splitlines() + drawn()
    if sys.argv[1:] == ["cases"]:
        print("\n".join(lines))
    elif sys.argv[1:] == ["answer"]:
        store = Store()
        for line in lines:
            call, rest = line.split(" ", 1)
            print(store.apply(rest) if call == "apply" else getattr(store, call)(*rest.split(" ")))
    else:
        sys.exit("cases or answer")


main()
