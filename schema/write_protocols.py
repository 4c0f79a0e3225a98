"""Writes what etp_frame has for each protocol: the enum of all messages, how one is read and written, its parts, and the lemmas about
which messages a protocol has."""
from write_messages import nested

COMMON = ["exception", "acknowledge"]
NUMBERS = "protocols::"


def arms(protocols, right):
    return "".join(f"            {right(each)},\n" for each in protocols)


def message_enum(protocols):
    variants = "".join(f"    {each.name}(Boxed<{each.enum}>),\n" for each in protocols)
    return f"#[derive(Debug, Drop)]\npub enum Message {{\n{variants}}}"


def message_impl(protocols):
    def by(method):
        return arms(protocols, lambda each: f"Message::{each.name}(message) => message.get().{method}")

    def is_of(each):
        if each.name == "Core":
            return "Message::Core(message) => is_core_of(message.get(), protocol)"
        return f"Message::{each.name}(_) => protocol == {NUMBERS}{each.snake.upper()}"

    numbers = arms(protocols, lambda each: f"Message::{each.name}(_) => {NUMBERS}{each.snake.upper()}")
    reads = arms(protocols, lambda each: f"{NUMBERS}{each.snake.upper()} => read_{each.snake}(from, kind)")
    return f"""impl Message {{
    /// The message's number.
    pub fn kind(&self) -> i32
        ensures {{ result ≡ pos (message_body self.now).number }}
    {{
        match self {{
{by("kind()")}        }}
    }}

    /// The number of the protocol whose enum has the message.
    pub fn protocol(&self) -> i32
        ensures {{ result ≡ pos (protocol_of self.now) }}
    {{
        match self {{
{numbers}        }}
    }}

    /// Whether the protocol of this number has the message.
    pub fn is_of(&self, protocol: i32) -> bool
        ensures {{ IsTrue result ↔ IsOf self.now protocol }}
    {{
        match self {{
{arms(protocols, is_of)}        }}
    }}

    /// The message of this protocol and number whose body is at the front of the rest, if the protocol has one.
    pub(crate) fn read(from: &mut Reader<'_>, protocol: i32, kind: i32) -> Result<Option<Message>, Fault>
        ensures {{ Reads (kind_at (typed_kind protocol kind) from.old.left from.old.rest.now) result from.new }}
    {{
        match protocol {{
{reads}            _ => Ok(None),
        }}
    }}

    /// Appends the written spelling of the message's body. After `NoMemory` what was there is still at the front.
    pub(crate) fn write(&self, into: &mut Vec<u8>) -> Result<(), NoMemory>
        ensures written {{ Writes (plain (message_body self.now).value) into.old.items into.new.items result }}
        ensures typed {{ OnOk result (HasSchema (message_body self.now).schema (message_body self.now).value) }}
        ensures fits {{ OnOk result (FitsTree (message_body self.now).value) }}
    {{
        match self {{
{by("write(into)")}        }}
    }}

    /// How much of a message the body takes.
    pub(crate) fn measure(&self) -> Measure
        ensures {{ result ≡ measured (message_body self.now).value }}
    {{
        match self {{
{by("measure()")}        }}
    }}
}}"""


def read_function(protocol):
    kinds = f"under m.{protocol.name} {protocol.snake}_kinds"
    common = ""
    if protocol.name != "Core":
        kinds = f"common_kinds ++ {kinds}"
        common = "    if is_common(kind) {\n        return read_common(from, kind);\n    }\n"
    return (f"fn read_{protocol.snake}(from: &mut Reader<'_>, kind: i32) -> Result<Option<Message>, Fault>\n"
            f"    ensures {{ Reads (kind_at (kind_in ({kinds}) kind) from.old.left from.old.rest.now) result from.new }}\n{{\n{common}"
            f"    match {protocol.enum}::read(from, kind) {{\n"
            f"        Ok(Some(message)) => Ok(Some(Message::{protocol.name}(boxed(from, message)?))),\n"
            f"        Ok(None) => Ok(None),\n        Err(fault) => Err(fault),\n    }}\n}}")


def read_answers(protocol):
    """The answers of the proof that a protocol's messages are read as defined."""
    is_core = protocol.name == "Core"
    lemmas = "under_read, under_fails" if is_core else "common_read, behind_read, behind_fails"
    word, other = ("under", "") if is_core else ("behind", "(sym c.if-is_common.ensures) ")
    of = (f"m.{protocol.name} {protocol.snake}_kinds c.args.kind c.args.from.now.left c.args.from.now.rest.now "
          "(to_z-of_z w32 c.args.kind k)")

    def answer(goal, proof):
        return f"pub {goal} : goal.{goal}\n{goal} c =\n    let k : FitsSigned w32 c.args.kind = search rules in\n    {proof}"

    texts = [f"""use Rattle.std.proofs.Common.{{◌∙◌, Some, None, sym, ap, FitsSigned, w32, rules}}
use Rattle.std.proofs.lemmas.Int.{{to_z-of_z}}
use Rattle.{protocol.file.crate}.specs.{protocol.file.forms}.{{{protocol.snake}_kinds}}
use Rattle.etp_frame.specs.declared.message.Message.TheVariants as m
use Rattle.etp_frame.proofs.TypedLemmas.{{{lemmas}}}
use Rattle.etp_frame.proofs.message.read_{protocol.snake}.Goals as goal"""]
    if not is_core:
        texts.append(answer("returns-then-is_common", f"common_read {of} c.read_common.result c.read_common.new.from {other}c.read_common.ensures"))
    boxed = "returns-in_ok-boxed-in-Ok-Some"
    some = "(c.in-Ok-Some.field-0-is ∙ ap Some (sym c.in_ok-boxed-in-Ok-Some.ensures.value)) c.in-Ok-Some.ensures"
    texts.append(answer(boxed, f"{word}_read {of} _ _ _ {other}{some}"))
    texts.append(answer("returns-in-Ok-None", f"{word}_read {of} None _ _ {other}c.in-Ok-None.field-0-is c.in-Ok-None.ensures"))
    texts.append(answer("returns-in-Err", f"{word}_fails {of} c.in-Err.fault {other}c.in-Err.ensures"))
    return "\n\n".join(texts)


# ---- Specifications


def cases(name, protocols, right):
    return "\n".join(f"{name} (m.{each.name} x){right(each)}" for each in protocols)


def message_specs(schema, written):
    every = list(schema.protocols.values())

    def ordered(name):
        return written.in_order(name, every)

    body = cases("message_body", ordered("message_body"), lambda each: f" = {each.snake}_body x")
    yield None, f"abbrev pub message_body : Message → Body\n{body}"
    for each in every:
        yield f"?-- that of {each.name}\n", f"abbrev pub {each.snake}_number : ℕ\n{each.snake}_number = {each.number}"
    numbers = cases("protocol_of", ordered("protocol_of"), lambda each: f" = {each.snake}_number")
    yield None, f"abbrev pub protocol_of : Message → ℕ\n{numbers}"
    of = cases("IsOf", ordered("IsOf"), lambda each: " protocol = " + (
        "IsOfCore x protocol" if each.name == "Core" else f"protocol ≡ pos {each.snake}_number"))
    yield None, f"abbrev pub IsOf : Message → ℤ → Type 0\n{of}"
    rows = []
    for each in every:
        own = f"under m.{each.name} {each.snake}_kinds"
        rows.append(f"    protocol {each.snake}_number ({own if each.name == 'Core' else 'common_kinds ++ ' + own})")
    yield None, "abbrev pub protocols : List Protocol\nprotocols =\n" + " ∷\n".join(rows) + " ∷ []"


def parts_of(protocol):
    """A protocol's messages in parts; those of Store need the number of the session and how many blobs it sent."""
    if not protocol.growing:
        return f"m.{protocol.name} x ∷ []"
    more = " number k" if any(each.chunks for each in protocol.growing) else ""
    return f"{protocol.snake}_parts limit{more} x"


def part_specs(schema, written):
    ordered = written.in_order("parts", list(schema.protocols.values()))
    lines = "\n".join(f"parts limit number k (m.{each.name} x) = {parts_of(each)}" for each in ordered)
    return f"abbrev pub parts : ℕ → ℕ → ℕ → Message → List Message\n{lines}"


def joined_specs(schema, written):
    ordered = written.in_order("joined", [each for each in schema.protocols.values() if each.growing])
    lines = "\n".join(f"joined (m.{each.name} x) (m.{each.name} y) = m.{each.name} ({each.snake}_joined x y)" for each in ordered)
    return f"abbrev pub joined : Message → Message → Message\n{lines}\njoined x y = x"


def parts_whole(schema, written):
    def proof(each):
        if not each.growing:
            return "refl"
        return f"{each.snake}_whole limit number k x u" if any(one.chunks for one in each.growing) else f"{each.snake}_whole limit x"

    ordered = written.in_order("parts_whole", list(schema.protocols.values()))
    lines = "\n".join(f"parts_whole limit number k (m.{each.name} x) u = {proof(each)}" for each in ordered)
    return ("pub parts_whole : (limit number k : ℕ) (x : Message) → is_unsent x ≡ true → whole (parts limit number k x) ≡ Some x\n" + lines)


# ---- Lemmas on which messages a protocol has


def found_at(each):
    name, snake = each.name, each.snake
    if name == "Core":
        number, proof = 0, "reads_under m.Core core_kinds core_body x (core_found x)"
    else:
        number, proof = each.number, f"reads_behind m.{name} {snake}_kinds {snake}_body x (own_{snake} x) ({snake}_found x)"
    return (f"{snake}_at : (x : {each.enum}) → Reads ({snake}_body x) (m.{name} x) (typed_kind (pos {number}) (pos ({snake}_body x).number))\n"
            f"{snake}_at x = {proof}")


def common_at(each, word, count):
    """That a message of every protocol is found under each."""
    name, form = each.name, f"{each.snake}_form"
    reads = f"Reads (body {each.number} {form} x) (m.Core (c.{name} x))"
    return (f"{word}_at : (x : {name}) (p : ℤ) → is_protocol p ≡ true → {reads} (typed_kind p (pos {each.number}))\n"
            f"{word}_at x p h =\n    let r = {word}_read x in\n"
            f"    at_each ({reads}) (pos {each.number}) protocols p {nested(['r'] * count, 'tt')} h")


def protocol_lemmas(schema, written):
    every = list(schema.protocols.values())
    for each in every:
        yield None, found_at(each)
    for each, word in zip(schema.common, COMMON):
        yield None, common_at(each, word, len(every))
    lines = []
    for each in written.in_order("found_of", every):
        snake, name = each.snake, each.name
        proof = "core_of x p h" if name == "Core" else (
            f"subst (λ (q : ℤ). Reads ({snake}_body x) (m.{name} x) (typed_kind q (pos ({snake}_body x).number))) (sym h) ({snake}_at x)")
        lines.append(f"found_of (m.{name} x) p h = {proof}")
    yield None, ("pub found_of : (x : Message) (p : ℤ) → IsOf x p → Reads (message_body x) x (typed_kind p (pos (message_body x).number))\n"
                 + "\n".join(lines))
    again = [f"{'again_under' if each.name == 'Core' else 'behind_again'} m.{each.name} {each.snake}_body (λ x. refl) "
             f"{each.snake}_kinds {each.snake}_again" for each in every]
    yield None, f"all_again : AllByRecursion (λ q. AllByRecursion (IsAgain message_body) q.kinds) protocols\nall_again = {nested(again, 'tt')}"
    own = [f"own_under m.Core (pos {each.number}) core_own core_kinds" if each.name == "Core" else
           f"behind_own m.{each.name} (pos {each.number}) refl (λ x. refl) {each.snake}_kinds" for each in every]
    yield None, f"all_own : AllByRecursion (λ q. AllByRecursion (IsOwn (pos q.number)) q.kinds) protocols\nall_own = {nested(own, 'tt')}"


def write_protocols(schema, file):
    every = list(schema.protocols.values())
    rust = file("etp_frame/src/message.rt")
    ordered = rust.in_order("enum Message", every)
    rust.put([(None, message_enum(ordered)), (None, message_impl(ordered))])
    rust.put([(None, read_function(each)) for each in ordered])
    for each in every:
        file(f"etp_frame/proofs/message/read_{each.snake}/Answers.antt").put_whole(read_answers(each))
    for name, paragraphs in ("specs/Message", message_specs), ("proofs/FoundLemmas", protocol_lemmas):
        written = file(f"etp_frame/{name}.antt")
        written.put(list(paragraphs(schema, written)))
    for name, paragraph in ("specs/Splitting", part_specs), ("specs/Whole", joined_specs), ("proofs/PartLemmas", parts_whole):
        written = file(f"etp_frame/{name}.antt")
        written.put([(None, paragraph(schema, written))])
