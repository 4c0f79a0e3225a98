"""Files of the repository in paragraphs, of which some are written by scripts.

A paragraph ends at a blank line that a line at the margin follows: an item of Rust, or a definition. It is known by what it
defines, so that a written paragraph takes the place of the one that defines the same, and all others stay as they are. The
comment above a definition is written by hand, unless the writer has one for it.
"""
import re

COMMENT = re.compile(r"(?:(?:///|//|--).*\n)*")
ITEM = re.compile(r"(?:pub(?:\(\w+\))? )?(fn|static|enum|struct|const|mod) (\w+)")
IMPL = re.compile(r"impl(?:<[^>]*>)? (\w+)(?:<[^>]*>)?(?: for (\w+))?")
DEFINITION = re.compile(r"(?:abbrev )?(?:pub )?(?:record )?([^\s:]+) :")
ATTRIBUTES = re.compile(r"(?:#\[.*\]\n)*")


def parts_of(paragraph):
    """The comment above a paragraph, and the rest."""
    end = COMMENT.match(paragraph).end()
    return paragraph[:end], paragraph[end:]


def key_of(paragraph):
    """What a paragraph defines, or None."""
    code = parts_of(paragraph)[1]
    code = code[ATTRIBUTES.match(code).end():]
    if found := ITEM.match(code):
        return f"{found[1]} {found[2]}"
    if found := IMPL.match(code):
        return f"impl {found[1]} for {found[2]}" if found[2] else f"impl {found[1]}"
    if found := DEFINITION.match(code):
        return found[1]
    return None


def lines_of(text):
    return sum(1 for line in text.splitlines() if line.strip())


class TextFile:
    def __init__(self, path, top):
        self.path, self.name = path, str(path.relative_to(top))
        self.before = path.read_text() if path.exists() else ""
        self.paragraphs = re.split(r"\n\n(?=\S)", self.before.rstrip("\n")) if self.before else []
        self.written, self.tail = [], None

    @property
    def text(self):
        return "\n\n".join(self.paragraphs) + "\n"

    def must_stand(self):
        if not self.before:
            raise LookupError(f"{self.name}: begin this file by hand, with its head and what it imports, and name it in the crate")

    def place(self, key):
        return next((at for at, each in enumerate(self.paragraphs) if key_of(each) == key), None)

    def in_order(self, key, whats):
        """Records or messages in the order in which the paragraph of `key` names them; new ones come last."""
        at = self.place(key)
        standing = "" if at is None else parts_of(self.paragraphs[at])[1]
        found = [re.search(rf"(?:\.|::|^ +){what.name}\b", standing, re.M) for what in whats]
        order = {what.name: match.start() if match else len(standing) for what, match in zip(whats, found)}
        return sorted(whats, key=lambda what: order[what.name])

    def put(self, paragraphs):
        """Puts (comment, code) pairs in their places; a new one comes after the one before it. With None the
        existing comment stays, and a comment that begins with a question mark is used only if there is none."""
        self.must_stand()
        last = None
        for comment, code in paragraphs:
            key = key_of(code)
            at = self.place(key)
            if at is None:
                at = len(self.paragraphs) if last is None else last + 1
                self.paragraphs.insert(at, "")
                standing = ""
            else:
                standing = parts_of(self.paragraphs[at])[0]
            if comment is None:
                comment = standing
            elif comment.startswith("?"):
                comment = standing or comment[1:]
            self.paragraphs[at] = comment + code.rstrip("\n")
            self.written.append(key)
            last = at

    def counts(self):
        """How many lines of the present file are generated, and how many are by hand, not counting blank ones."""
        standing = re.split(r"\n\n(?=\S)", self.before.rstrip("\n"))
        if self.tail is not None:
            written = lines_of(self.before[self.tail:])
        else:
            written = sum(lines_of(each) for each in standing if key_of(each) in self.written)
        return written, lines_of(self.before) - written

    def put_after(self, key, comment, code):
        """The same for one paragraph, which is put after that of `key` if it is new."""
        if self.place(key_of(code)) is None:
            at = self.place(key)
            if at is None:
                raise LookupError(f"{self.name}: nothing defines {key}")
            self.paragraphs.insert(at + 1, code)
        self.put([(comment, code)])

    def put_tail(self, begin, text):
        """Writes the rest of the file from the first line on that begins so."""
        whole = self.text
        found = re.search("^" + re.escape(begin), whole, re.M)
        if found is None:
            raise LookupError(f"{self.name}: no line begins with {begin}")
        self.paragraphs, self.tail = [(whole[:found.start()] + text).rstrip("\n")], found.start()
        self.written.append("the rest from " + begin)

    def put_whole(self, text):
        self.paragraphs, self.tail = [text.rstrip("\n")], 0
        self.written.append("the whole file")

    def alias(self, declared):
        """The name by which this file calls the module `declared`, of a `use` with `as`; none where it names what it takes."""
        self.must_stand()
        found = re.search(r"\b" + re.escape(declared) + r" as (\w+)", self.text)
        if found is None and declared + ".{" not in self.text:
            raise LookupError(f"{self.name}: import {declared} by hand, under a name of its own")
        return found[1] + "." if found else ""

    def import_names(self, begin, names, before=None):
        """Adds names to the list in braces of the `use` that begins so: at the end, or before the name `before`."""
        self.must_stand()
        whole = self.text
        found = re.search(r"^" + re.escape(begin) + r"\{([^}]*)\}", whole, re.M)
        if found is None:
            raise LookupError(f"{self.name}: no line begins with {begin}{{")
        listed = [each.strip() for each in found[1].split(",") if each.strip()]
        new = [each for each in dict.fromkeys(names) if each not in listed]
        if new:
            at = listed.index(before) if before in listed else len(listed)
            listed[at:at] = new
            self.replace(whole[:found.start(1)] + ", ".join(listed) + whole[found.end(1):])

    def import_lines(self, lines):
        """Adds whole lines of `use`; a new one comes after the line before it in the list."""
        self.must_stand()
        whole = self.text
        for before, line in zip([None, *lines], lines):
            if re.search("^" + re.escape(line) + "$", whole, re.M):
                continue
            if before is None:
                raise LookupError(f"{self.name}: no line {line}")
            whole = re.sub("^" + re.escape(before) + "$", lambda found: found[0] + "\n" + line, whole, count=1, flags=re.M)
        self.replace(whole)

    def replace(self, whole):
        self.paragraphs = re.split(r"\n\n(?=\S)", whole.rstrip("\n"))
