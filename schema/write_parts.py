"""Writes what the crates above the messages have for each message: the parts of long messages (etp_frame), how a client joins them
(client_parts), and the lemmas about all messages of a protocol (etp_frame, session_core, client_laws)."""
from write_messages import form, rust_type

PARTS_FILES = {"Core": "exceptions"}
COPIES = {"IndexInterval": "copied_interval"}


def grown(message):
    """The type of an item, its form, and what counts it."""
    type = message.grows.type
    count = "entry_amount" if type.kind == "map" else "item_amount"
    return rust_type(type.parts[0]), f"({count} {form(type.parts[0])})"


def is_map(message):
    return message.grows.type.kind == "map"


def with_field(alias, message, value, variable="x"):
    """The message with another value of the field that grows."""
    return f"{alias}{message.name} (record {variable} {{ {message.grows.rust} = {value} }})"


def regrown(protocol, alias, message):
    """From items to the message with them."""
    return f"(λ g. m.{protocol.name} ({with_field(alias, message, 'g')}))"


def cut(protocol):
    """The messages whose parts are generated: those that are not followed by chunks."""
    return [each for each in protocol.growing if not each.chunks]


def parts_word(protocol):
    """The name under which the parts of these messages are defined: Store has those of its results apart."""
    return "result" if any(each.chunks for each in protocol.growing) else protocol.snake


# ---- etp_frame: each part


def copy_of(field):
    """A copy of a field that each part repeats."""
    own = f"self.{field.rust}"
    match field.type.kind, field.type.name:
        case "leaf", "string":
            return f"Text::copy(alloc, {own}.as_str())?"
        case "leaf", _:
            return own
        case "list", _:
            return f"{own}.copy(alloc)?"
        case "optional", _:
            return f"copied_error(alloc, &{own})?"
    return f"{COPIES[field.type.name]}(alloc, &{own})?"


def with_items(protocol, alias, message):
    """How a message is made with some items, for each part."""
    item = rust_type(message.grows.type.parts[0])
    trait, method, word, holder = ("WithEntries", "with_entries", "entries", "Named")
    if not is_map(message):
        trait, method, word, holder = ("WithElements", "with_elements", "elements", "List")
    fields = ", ".join(f"{each.rust}: {word if each is message.grows else copy_of(each)}" for each in message.fields)
    file, enum = protocol.file, protocol.enum
    made = f"m.{protocol.name} ({with_field(alias, message, word, 'self.now')})"
    return f"""impl {trait}<{item}> for {message.name} {{
    ghost use Rattle.{file.crate}.specs.declared.{file.name}.{enum}.TheVariants as {alias[:-1]};
    ghost use Rattle.etp_frame.specs.declared.message.Message.TheVariants as m;

    ghost whole = {{ λ x g. m.{protocol.name} ({with_field(alias, message, 'g')}) }};

    fn {method}(&self, alloc: Global, {word}: {holder}<{item}>) -> Result<Message, NoMemory>
        ensures {{ IfOk result (λ x. x ≡ {made}) }}
    {{
        Ok(Message::{protocol.name}(Boxed::new(alloc, {enum}::{message.name}({message.name} {{ {fields} }}))?))
    }}
}}"""


def parts_function(protocol, alias, message):
    """The function that makes one message's parts. If it has other fields besides a list, the list is taken out of it."""
    own, holder, parts = message.grows.rust, "Named", "parts_of_entries"
    if not is_map(message):
        holder, parts = "List", "parts_of_elements"
    names = [each.rust for each in message.fields]
    taken = not is_map(message) and len(names) > 1
    if taken:
        body = (f"    let {own} = mem::replace(&mut message.{own}, List::new(alloc));\n"
                f"    {parts}(alloc, &message, {own}, limit)\n")
    else:
        rest = ", ".join(f"{each}: {holder}::new(alloc)" if each == own else each for each in names)
        body = (f"    let {message.name} {{ {', '.join(names)} }} = message;\n"
                f"    let rest = {message.name} {{ {rest} }};\n    {parts}(alloc, &rest, {own}, limit)\n")
    return (f"fn {protocol.snake}_{message.snake}(alloc: Global, {'mut ' if taken else ''}message: {message.name}, limit: u64)"
            f" -> Result<List<Message>, NoMemory>\n"
            f"    ensures {{ IfOk result (λ l. l ≡ {parts_word(protocol)}_parts limit ({alias}{message.name} message)) }}\n"
            f"{{\n{body}}}")


def parts_match(protocol, written):
    word = parts_word(protocol)
    messages = written.in_order(f"fn {word}_parts", cut(protocol))
    arms = "".join(f"{protocol.enum}::{each.name}(message) => {protocol.snake}_{each.snake}(alloc, message, limit),\n"
                   for each in messages)
    seen = "" if word == "result" else "pub(crate) "
    return (f"{seen}fn {word}_parts(alloc: Global, message: {protocol.enum}, limit: u64) -> Result<List<Message>, NoMemory>\n"
            f"    ensures {{ IfOk result (λ l. l ≡ {word}_parts limit message) }}\n{{\nmatch message {{\n{arms}"
            f"other => one_part(alloc, Message::{protocol.name}(Boxed::new(alloc, other)?)),\n}}\n}}")


def names_of(schema, message):
    """The types of a message and of its items, if both are of one crate."""
    item = schema.named.get(message.grows.type.parts[0].name)
    same = item is not None and item.file.crate == message.file.crate
    return [message.name, item.name] if same else [message.name]


def write_part_functions(schema, protocol, file):
    written = file(f"etp_frame/src/parts/{PARTS_FILES.get(protocol.name, protocol.snake)}.rt")
    alias = written.alias(f"{protocol.enum}.TheVariants")
    written.import_names(f"use {protocol.file.crate}::", [each for message in cut(protocol) for each in names_of(schema, message)])
    items = []
    for each in cut(protocol):
        items.append((None, with_items(protocol, alias, each)))
        items.append(("?/// The parts of this message.\n", parts_function(protocol, alias, each)))
    written.put(items)
    written.put([(None, parts_match(protocol, written))])


# ---- etp_frame: what the parts are, and that they are the message


def one_each(written, name, messages, line, end):
    """The cases of a definition by messages, in their existing order."""
    return "\n".join([*(line(each) for each in written.in_order(name, messages)), end])


def splitting(protocol, written):
    alias, name = written.alias(f"{protocol.enum}.TheVariants"), f"{parts_word(protocol)}_parts"

    def line(each):
        return (f"{name} limit ({alias}{each.name} x) = map {regrown(protocol, alias, each)} "
                f"(groups {grown(each)[1]} limit x.{each.grows.rust})")

    cases = one_each(written, name, cut(protocol), line, f"{name} limit x = m.{protocol.name} x ∷ []")
    return f"abbrev pub {name} : ℕ → {protocol.enum} → List Message\n{cases}"


def joining(protocol, written):
    alias, name = written.alias(f"{protocol.enum}.TheVariants"), f"{protocol.snake}_joined"

    def line(each):
        if each.chunks:
            value = with_field(alias, each, f"objects_joined x.{each.grows.rust} y")
            return f"{name} ({alias}{each.name} x) y = {value}"
        value = with_field(alias, each, f"x.{each.grows.rust} ++ y.{each.grows.rust}")
        return f"{name} ({alias}{each.name} x) ({alias}{each.name} y) = {value}"

    cases = one_each(written, name, protocol.growing, line, f"{name} x y = x")
    return f"abbrev pub {name} : {protocol.enum} → {protocol.enum} → {protocol.enum}\n{cases}"


def whole_lemma(protocol, written):
    alias, word = written.alias(f"{protocol.enum}.TheVariants"), parts_word(protocol)
    name = f"{word}_whole"

    def line(each):
        return (f"{name} limit ({alias}{each.name} x) = all_parts {grown(each)[1]} limit {regrown(protocol, alias, each)} "
                f"(λ a b. refl) x.{each.grows.rust}")

    cases = one_each(written, name, cut(protocol), line, f"{name} limit x = refl")
    return (f"{name} : (limit : ℕ) (x : {protocol.enum}) → whole ({word}_parts limit x) ≡ Some (m.{protocol.name} x)\n{cases}")


def found_lemmas(schema, written):
    """That no message has a number of those of every protocol; and the cases of Core, which has these."""
    common = {each.name: word for each, word in zip(schema.common, ["exception_at", "acknowledge_at"])}
    for protocol in schema.protocols.values():
        alias = written.alias(f"{protocol.enum}.TheVariants")
        if protocol.name != "Core":
            name = f"own_{protocol.snake}"
            cases = "\n".join(f"{name} ({alias}{each.name} x) = refl" for each in protocol.messages)
            yield None, (f"{name} : (x : {protocol.enum}) → is_some (kind_in common_kinds (pos ({protocol.snake}_body x).number))"
                         f" ≡ false\n{cases}")
            continue
        lines = []
        for each in protocol.messages:
            x = f"({alias}{each.name} x)"
            proof = (f"{common[each.name]} x p h" if each.name in common else
                     f"subst (λ (q : ℤ). Reads (core_body {x}) (m.Core {x}) (typed_kind q (pos {each.number}))) (sym h) (core_at {x})")
            lines.append(f"core_of {x} p h = {proof}")
        yield None, ("core_of : (x : CoreMessage) (p : ℤ) → IsOfCore x p → Reads (core_body x) (m.Core x) "
                     "(typed_kind p (pos (core_body x).number))\n" + "\n".join(lines))
        cases = "\n".join(f"core_own ({alias}{each.name} x) = refl" for each in protocol.messages)
        yield None, f"core_own : (x : CoreMessage) → IsOf (m.Core x) (pos 0)\n{cases}"


def of_core(schema, written):
    """Which protocols have a message of Core's enum."""
    core = schema.protocols["Core"]
    alias = written.alias(f"{core.enum}.TheVariants")
    cases = "\n".join(
        f"IsOfCore ({alias}{each.name} x) protocol = "
        + ("is_protocol protocol ≡ true" if each.of_every_protocol else "protocol ≡ pos core_number") for each in core.messages)
    return f"abbrev pub IsOfCore : {core.enum} → ℤ → Type 0\n{cases}"


def import_items(schema, written, protocol):
    """The forms of the items that grow."""
    for each in cut(protocol):
        type = each.grows.type.parts[0]
        if type.kind == "named":
            what = schema.named[type.name]
            written.import_names(f"use Rattle.{what.file.crate}.specs.{what.file.forms}.", [what.snake + "_form"])


def write_cases(schema, written, protocols, paragraph):
    """Writes a paragraph for each protocol, with the forms that it names."""
    for each in protocols:
        import_items(schema, written, each)
    written.put([(None, paragraph(each, written)) for each in protocols])


def write_etp_frame(schema, file):
    growing = [each for each in schema.protocols.values() if each.growing]
    for protocol in growing:
        write_part_functions(schema, protocol, file)
    write_cases(schema, file("etp_frame/specs/Splitting.antt"), growing, splitting)
    write_cases(schema, file("etp_frame/proofs/PartLemmas.antt"), growing, whole_lemma)
    whole = file("etp_frame/specs/Whole.antt")
    whole.put([(None, joining(each, whole)) for each in growing])
    objects, store = file("etp_frame/src/parts/objects.rt"), schema.protocols["Store"]
    alias = objects.alias(f"{store.enum}.TheVariants")
    objects.put([(None, with_items(store, alias, each)) for each in store.growing[::-1] if each.chunks])
    found = file("etp_frame/proofs/FoundLemmas.antt")
    found.put(found_lemmas(schema, found))
    messages = file("etp_frame/specs/Message.antt")
    messages.put([(None, of_core(schema, messages))])


# ---- client_parts: the parts that a client puts together


def joined_of(protocol):
    return [each for each in protocol.growing if each.joined]


def join_function(protocol, alias, message):
    enum, own = protocol.enum, message.grows.rust
    call = f"merged(alloc, first.{own}, more.{own})" if is_map(message) else f"appended(first.{own}, more.{own})"
    arguments = "alloc: Global, " if is_map(message) else ""
    return (f"fn {message.snake}({arguments}first: {enum}, more: {message.name}) -> Result<{enum}, NoMemory>\n"
            f"    ensures {{ IfOk result (λ m. m ≡ {alias[:-1]}_joined first ({alias}{message.name} more)) }}\n{{\n"
            f"match first {{\n{enum}::{message.name}(first) => {{\nlet {own} = {call}?;\n"
            f"Ok({enum}::{message.name}({message.name} {{ {own}, ..first }}))\n}}\n"
            f"other => Ok(later(other, {enum}::{message.name}(more))),\n}}\n}}")


def join_match(protocol, alias, written):
    name, enum = f"{alias[:-1]}_joined", protocol.enum
    arms = "".join(f"{enum}::{each.name}(more) => {each.snake}({'alloc, ' if is_map(each) else ''}first, more),\n"
                   for each in written.in_order(f"fn {name}", joined_of(protocol)))
    return (f"pub fn {name}(alloc: Global, first: {enum}, more: {enum}) -> Result<{enum}, NoMemory>\n"
            f"    ensures {{ IfOk result (λ m. m ≡ {name} first more) }}\n{{\nmatch more {{\n{arms}"
            f"other => Ok(later(first, other)),\n}}\n}}")


def client_joining(protocol, written):
    alias = written.alias(f"{protocol.enum}.TheVariants")
    name, enum = f"{alias[:-1]}_joined", protocol.enum

    def line(each):
        own = each.grows.rust
        items = f"merged x.{own} y.{own}" if is_map(each) else f"x.{own} ++ y.{own}"
        return f"{name} ({alias}{each.name} x) ({alias}{each.name} y) = {with_field(alias, each, items)}"

    cases = one_each(written, name, joined_of(protocol), line, f"{name} x y = y")
    return f"abbrev pub {name} : {enum} → {enum} → {enum}\n{cases}"


def write_client_parts(schema, file):
    rust, specs = file("client_parts/src/joining.rt"), file("client_parts/specs/Joining.antt")
    for protocol in schema.protocols.values():
        messages = joined_of(protocol)
        if not messages:
            continue
        alias = rust.alias(f"{protocol.enum}.TheVariants")
        rust.import_names(f"use {protocol.file.crate}::", [each.name for each in messages])
        rust.put([(None, join_function(protocol, alias, each)) for each in messages])
        rust.put([(None, join_match(protocol, alias, rust))])
        specs.put([(None, client_joining(protocol, specs))])


# ---- Lemmas of session_core and client_laws over all messages of a protocol


def each_lemma(protocol, written):
    """What holds for all messages of a protocol holds for a message's parts."""
    alias = written.alias(f"{protocol.enum}.TheVariants")
    name, lines = f"{alias[:-1]}_each", []
    for each in protocol.messages:
        one = f"(h ({alias}{each.name} x), tt)"
        parts = each.grows and f"all_map P _ (λ g. h ({with_field(alias, each, 'g')})) _"
        lines.append(f"{name} P h limit ({alias}{each.name} x) = {parts or one}")
    return (f"pub {name} : (P : Message → Type 0) → ((x : {protocol.enum}) → P (message.{protocol.name} x)) → (limit : ℕ) "
            f"(x : {protocol.enum}) → AllByRecursion P ({protocol.snake}_parts limit x)\n" + "\n".join(lines))


def ends_word(protocol, alias):
    return "result" if parts_word(protocol) == "result" else alias[:-1]


def rises_word(protocol):
    """The name of what is asked of a message's names: SubscribeRises, LoadRises, CoreRises, .."""
    return protocol.name.removeprefix("Channel").removeprefix("Data") + "Rises" if protocol.name.startswith("Channel") else protocol.name + "Rises"


def ends_lemma(protocol, written):
    """That a client has the whole after the last of its parts, or refuses each alike."""
    alias, five = written.alias(f"{protocol.enum}.TheVariants"), "refl, refl, refl, refl, refl"
    name, rise = ends_word(protocol, alias) + "_ends", " rise" if joined_of(protocol) else ""
    last = {"names_end": " rise", "items_end": "", "unread_end": f" (λ a h t. refl)\n    (λ a. ({five}, {five}, refl, λ channel. refl, refl, refl))"}

    def line(each):
        ends = "unread_end" if not each.joined else "names_end" if is_map(each) else "items_end"
        wrap = f"(λ g. message.{protocol.name} ({with_field(alias, each, 'g')}))"
        flag = "true" if each.of_every_protocol else "false"
        return (f"{name} limit ({alias}{each.name} x){rise} =\n    {ends} {flag} {wrap} (λ g. ({five})) {grown(each)[1]} limit "
                f"x.{each.grows.rust} (λ a b. refl){last[ends]}")

    cases = one_each(written, name, cut(protocol), line, f"{name} limit x{rise} = alone (message.{protocol.name} x)")
    given = f" → {rises_word(protocol)} x" if rise else ""
    return (f"{name} : (limit : ℕ) (x : {protocol.enum}){given} → Parted ({parts_word(protocol)}_parts limit x) "
            f"(message.{protocol.name} x)\n{cases}")


def shape_lemma(protocol, written):
    """That a message is its only part, or that its parts are like it."""
    alias = written.alias(f"{protocol.enum}.TheVariants")
    name = ends_word(protocol, alias) + "_shape"

    def line(each):
        wrap = f"(λ g. message.{protocol.name} ({with_field(alias, each, 'g')}))"
        return (f"{name} limit ({alias}{each.name} x) = in_groups {wrap} {grown(each)[1]} limit x.{each.grows.rust} "
                "(λ g. (refl, refl, refl, refl))")

    cases = one_each(written, name, cut(protocol), line, f"{name} limit x = inl refl")
    return (f"{name} : (limit : ℕ) (x : {protocol.enum}) → Shape (message.{protocol.name} x) ({parts_word(protocol)}_parts limit x)\n{cases}")


def rises(protocol, written):
    """What is asked of the names of a message that a client puts together by names."""
    alias, name = written.alias(f"{protocol.enum}.TheVariants"), rises_word(protocol)
    messages = [each for each in joined_of(protocol) if is_map(each)]
    cases = one_each(written, name, messages, lambda each: f"{name} ({alias}{each.name} x) = Rise x.{each.grows.rust}", f"{name} _ = Unit {{0}}")
    return f"abbrev pub {name} : {protocol.enum} → Type 0\n{cases}"


def write_part_lemmas(schema, file):
    growing = [each for each in schema.protocols.values() if each.growing]
    session = file("session_core/proofs/MessagePartLemmas.antt")
    # ChannelSubscribe has no such lemma, and that of Store, with its chunks, is by hand.
    whole = [each for each in growing if parts_word(each) != "result" and each.name != "ChannelSubscribe"]
    session.put([(None, each_lemma(each, session)) for each in whole])
    write_cases(schema, file("client_laws/proofs/PartsLemmas.antt"), growing, ends_lemma)
    write_cases(schema, file("client_laws/proofs/RefusedLemmas.antt"), growing, shape_lemma)
    parts = file("client_laws/specs/Parts.antt")
    parts.put([(None, rises(each, parts)) for each in growing if joined_of(each)])
