"""A server whose sessions have transactions, made of plain tables like that of `row_samples.py`, on which it builds.

A transaction keeps its operations in order. What it sees is a copy of the store's present tables on which these were done. With each key
that it touched it keeps the length of the journal at that time; the store notifies open transactions of each entry that alters a key.
"""
import uuid

import row_samples
from row_samples import INSTANCE, PAYLOAD_LIMIT, Contents, Refused, array_bytes, elements, object_name, space_path

OPERATION_LIMIT = 4_096
KEY_LIMIT = 16_384
STAGED_LIMIT = 67_108_864
JOURNAL_BYTES = 536_870_912

# --- keys, and what is counted -------------------------------------------------------------------------------------------

# A key is the pair of a word and a path, a URI, or a URI and a path: ("space", path), ("object", uri) or ("array", (uri, path)).


def path_of(key):
    """The path of the dataspace of a key."""
    kind, name = key
    return name if kind == "space" else object_name(name if kind == "object" else name[0])[0]


def touched_by(operation):
    """The keys that an operation touches, in the order in which they are looked at, each with whether what is there is weighed."""
    what, name = operation[:2]
    match what:
        case "put_object":
            return [(("space", operation[2]), False), (("object", name), False)]
        case "delete_object":
            return [(("object", name), False)]
        case "put_array":
            return [(("object", name[0]), False), (("array", name), False)]
        case "patch_array":
            return [(("array", name), True)]


def alters(operation, key):
    """Whether an operation alters what is at a key."""
    what, name = operation[:2]
    match what:
        case "put_space":
            return key == ("space", name)
        case "drop_space":
            return path_of(key) == name
        case "put_object":
            return key == ("object", name)
        case "delete_object":
            return key == ("object", name) or key[0] == "array" and key[1][0] == name
        case "put_array" | "patch_array":
            return key == ("array", name)


def length(text):
    return len(text.encode())


def value_weight(value):
    branch, held = value["item"]
    if branch in (6, 17):
        return 8 + len(held.encode() if branch == 6 else held)
    if branch == 18:
        slices = held["slices"]
        return 8 + sum(8 + (8 + len(each["slice"]["item"][1]) if each["slice"]["item"][0] == 6 else list_weight(elements(each["slice"]["item"])))
                       for each in slices)
    return list_weight(held["values"]) if branch > 6 else 8


def list_weight(items):
    sizes = {str: lambda item: length(item), bytes: len}
    return 8 + sum(8 + sizes.get(type(item), lambda item: 0)(item) for item in items)


def custom_weight(custom):
    return sum(length(name) + value_weight(value) for name, value in custom.items())


def texts_size(key):
    kind, name = key
    return length(name) if kind != "array" else length(name[0]) + length(name[1])


def operation_size(operation):
    """The counted bytes of an operation."""
    what, name = operation[:2]
    match what:
        case "put_space":
            return 64 + length(name) + custom_weight(operation[2])
        case "drop_space":
            return 64 + length(name)
        case "delete_object":
            return 64 + length(name)
        case "put_object":
            given = operation[3]
            resource = given["resource"]
            texts = sum(map(length, [name, *resource["alternateUris"], resource["name"], given["format"]]))
            return 256 + texts + custom_weight(resource["customData"]) + len(given["data"])
        case "put_array":
            return 256 + texts_size(("array", name)) + array_bytes(operation[2]["values"]) + custom_weight(operation[2]["custom"])
        case "patch_array":
            return 256 + texts_size(("array", name)) + array_bytes(operation[4])


def point_size(point):
    branch, held = point[1]["item"]
    sizes = {0: 0, 1: 1, 2: 4, 3: 8, 4: 4, 5: 8}
    return 16 + (sizes[branch] if branch in sizes else len(held.encode() if branch == 6 else held))


def change_size(change):
    what, content = change[1:3]
    if what == "append":
        return sum(map(point_size, content))
    return 32 + sum(map(point_size, content[2])) if what == "replace" else 16


# --- the store ---------------------------------------------------------------------------------------------------------


class Store(row_samples.Store):
    """Has the operations of each entry too, counts the journal's bytes, and knows the open transactions."""

    def __init__(self, channels, journal):
        super().__init__(channels, journal)
        self.operations, self.size, self.open = [[]], 64, []

    def add(self, changes=(), operations=(), touched=()):
        changes, operations = list(changes), list(operations)
        size = self.size + 64 + sum(map(change_size, changes)) + sum(map(operation_size, operations))
        size += sum(64 + texts_size(key) for key in touched)
        if size > JOURNAL_BYTES:
            raise Refused(12)
        super().add(changes)
        self.operations.append(operations)
        self.size = size
        for transaction in self.open:
            transaction.hear(len(self.entries) - 1, operations)

    def weight(self, key):
        """How many bytes of payload the object or array of a key has."""
        kind, name = key
        if kind == "object":
            return len(self.objects[name]["data"]) if name in self.objects else 0
        return array_bytes(self.arrays[name]["values"]) if name in self.arrays else 0


class Transaction:
    """Operations that wait for their commit, and the keys that were touched, each with the journal's length at that time."""

    def __init__(self, store, number, read_only, paths):
        self.store, self.id, self.read_only, self.paths = store, number, read_only, paths
        self.operations, self.size, self.touched, self.first_clash, self.met_room = [], 0, {}, None, True
        store.open.append(self)

    def hear(self, place, operations):
        """Notes the first entry after a touch that alters what was touched."""
        if self.first_clash is None and any(alters(operation, key) for operation in operations for key in self.touched):
            self.first_clash = place

    def end(self):
        self.store.open.remove(self)

    def commit(self):
        """Why the operations don't become an entry; empty if they do, or if there are none."""
        self.end()
        if self.first_clash is not None:
            return f"conflict {self.first_clash}"
        if self.operations:
            try:
                self.store.add(operations=self.operations, touched=self.touched)
            except Refused:
                return "journal full"
            for operation in self.operations:
                self.store.do(operation)
        return ""

    # -- looking

    def look(self, wants):
        """Looks at keys and notes them. For each name of a request `wants` has keys, each with whether what is there is weighed. Returns
        the names that are refused."""
        given, refused, mark = 0, set(), len(self.store.entries)
        for name, keys in wants.items():
            for key, weighed in keys:
                size = self.store.weight(key) if weighed else 0
                if given + size > PAYLOAD_LIMIT:
                    refused.add(name)
                else:
                    given += size
        for name, keys in wants.items():
            for key, _ in keys:
                if key in self.touched or len(self.touched) < KEY_LIMIT:
                    self.touched.setdefault(key, mark)
                else:
                    refused.add(name)
                    self.met_room = False
        return refused

    def view(self):
        """The contents of the store, with the staged operations done on them."""
        view = Contents()
        view.spaces, view.objects, view.arrays = self.store.tables()
        for operation in self.operations:
            view.do(operation)
        return view

    def objects_at(self, uris):
        refused = self.look({name: [(("object", uri), True)] for name, uri in uris.items()})
        given, found, view = 0, {}, self.view()
        for name, uri in uris.items():
            each = view.objects.get(uri)
            if name in refused:
                found[name] = 12
            elif each is None:
                found[name] = 11
            elif given + len(each["data"]) > PAYLOAD_LIMIT:
                found[name] = 12
            else:
                given += len(each["data"])
                found[name] = each
        return found

    def arrays_at(self, items, see):
        """Whole arrays are looked at and weighed, whatever is seen of them."""
        refused = self.look({name: [(("array", item[0]), True)] for name, item in items.items()})
        given, found, view = 0, {}, self.view()
        for name, (key, *rest) in items.items():
            array = view.arrays.get(key)
            found[name] = 12 if name in refused else 11 if array is None else see(array, *rest)
            if not isinstance(found[name], int):
                if given + array_bytes(array["values"]) > PAYLOAD_LIMIT:
                    found[name] = 12
                else:
                    given += array_bytes(array["values"])
        return found

    # -- staging

    def judged(self, items):
        """The codes of operations, in the order of their names; those that are accepted are staged."""
        refused = self.look({name: touched_by(operation) for name, operation in items.items()})
        given, codes, view = 0, {}, self.view()
        for name, operation in items.items():
            codes[name] = 12 if name in refused else view.refusal(operation)
            if codes[name] is None and operation[0] == "patch_array":
                size = array_bytes(view.arrays[operation[1]]["values"])
                if given + size > PAYLOAD_LIMIT:
                    codes[name] = 12
                else:
                    given += size
            if codes[name] is None:
                codes[name] = self.stage(operation)
            if codes[name] is None:
                view.do(operation)
        return codes

    def stage(self, operation):
        size = self.size + operation_size(operation)
        if len(self.operations) == OPERATION_LIMIT or size > STAGED_LIMIT:
            return 12
        self.operations.append(operation)
        self.size = size
        return None


# --- a session ---------------------------------------------------------------------------------------------------------


class Session(row_samples.Session):
    def __init__(self, server, number):
        super().__init__(server, number)
        self.transaction, self.starts = None, 0

    @property
    def contents(self):
        return self.transaction or self.store

    def object_name(self, uri):
        name = object_name(uri)
        if isinstance(name, int) or self.transaction is None or name[0] in self.transaction.paths:
            return name
        return 6

    def ask_to_write(self):
        if self.transaction is not None and self.transaction.read_only:
            raise Refused(6)

    def ask_to_change_spaces(self):
        if self.transaction is not None:
            raise Refused(8)

    def on_start_transaction(self, moment, value):
        if self.transaction is not None:
            raise Refused(15)
        if len(value["dataspaceUris"]) > 1024:
            raise Refused(12)
        paths = [space_path(uri) for uri in value["dataspaceUris"]]
        if 9 in paths:
            raise Refused(9)
        # the default dataspace is named by its URI, which none may change, and by an empty list
        paths = ["" if path == 6 else path[0] for path in paths] or [""]
        self.starts += 1
        id = uuid.uuid5(INSTANCE, f"tx:{self.number}:{self.starts}").bytes
        self.transaction = Transaction(self.store, id, value["readOnly"], paths)
        return [self.told(2, id)]

    @staticmethod
    def told(kind, id, reason=""):
        return 18, kind, {"transactionUuid": id, "successful": not reason, "failureReason": reason}

    def ended(self, value):
        """The open transaction, which is over, where the request names it."""
        if self.transaction is None:
            raise Refused(8)
        if value["transactionUuid"] != self.transaction.id:
            raise Refused(5)
        ended, self.transaction = self.transaction, None
        return ended

    def on_commit_transaction(self, moment, value):
        ended = self.ended(value)
        return [self.told(5, ended.id, ended.commit())]

    def on_rollback_transaction(self, moment, value):
        ended = self.ended(value)
        ended.end()
        return [self.told(6, ended.id)]


class Server(row_samples.Server):
    make_store, make_session = Store, Session
