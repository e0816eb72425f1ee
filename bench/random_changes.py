"""Random changes of dumps, certificates, modules and command lines, for `bench/faults`. Each takes a source of random numbers, so a seed draws the same again."""
import re

NUMBERS = (b"0", b"1", b"7", b"007", b"+3", b"-1", b"4096", b"4097", b"16384", b"16385", b"4294967295", b"4294967296", b"1e3", b"0x10", b"", b" 1", b"9" * 400)
JOBS = (b"check", b"explain", b"exec", b"eval", b"compile", b"export", b"call", b"cert", b"verify", b"run", b"bench")
PIECES = (*JOBS, b"walk", b"--turns", b"--pages", b"--steps", b"--size", b"--turn", b"--help", b"-h", b"-V", b"--version", b"help", b"--", b"-", b"",
          b"\xff\xfe", "é".encode(), b"--turns=", b"x" * 100_000, *NUMBERS)


def random_line(draw):
    """The words of a command line: mostly a job, options with numbers, and pieces that belong nowhere."""
    words = [draw.choice(JOBS)] if draw.randrange(4) else []
    for _ in range(draw.choice((0, 1, 1, 2, 3, 8))):
        option = draw.choice((b"--turns", b"--pages", b"--steps", b"--size"))
        kind = draw.randrange(4)
        words += [[option, draw.choice(NUMBERS)], [option + b"=" + draw.choice(NUMBERS)], [draw.choice(PIECES)], [bytes(draw.choices(range(1, 256), k=draw.randrange(1, 9)))]][kind]
    if draw.randrange(8) == 0:
        words += [draw.choice(PIECES[:24])] * draw.choice((2, 100, 5000))
    return [word for word in words if len(word) < 100_000][:50] + [b"x" * 100_000] * (draw.randrange(50) == 0) + words[50:] * (sum(map(len, words)) < 1_000_000)


TOKEN = re.compile(rb"[()]|[^()\s]+")
COMMENT = re.compile(rb";[^\n]*")


def balanced(tokens, at):
    """The end of the piece of a text that begins at a token."""
    depth = 0
    for place in range(at, len(tokens)):
        depth += {b"(": 1, b")": -1}.get(tokens[place], 0)
        if depth <= 0:
            return place + 1
    return len(tokens)


def change_tokens(draw, tokens, others):
    """One change to the tokens of a text: a piece goes, comes twice, is changed for one of another text, or a token is another one."""
    at = draw.randrange(len(tokens))
    end = balanced(tokens, at)
    kind = draw.randrange(6)
    if kind == 0:
        return tokens[:at] + tokens[end:]
    if kind == 1:
        return tokens[:end] + tokens[at:end] + tokens[end:]
    if kind == 2:
        start = draw.randrange(len(others))
        return tokens[:at] + others[start:balanced(others, start)] + tokens[end:]
    if kind == 3:
        start = draw.randrange(len(tokens))
        return tokens[:at] + tokens[start:balanced(tokens, start)] + tokens[end:]
    if kind == 4:
        return tokens[:at] + [draw.choice(tokens)] + tokens[at + 1:]
    return tokens[:at] + [str(draw.choice((0, 1, 2, 3, 7, 255, 65536, 4294967294, 4294967295, 4294967296))).encode()] + tokens[at + 1:]


def change_bytes(draw, text, others):
    """One change to bytes: one is another one, some go, some come twice, some come from another input, or the end is cut off."""
    if not text:
        return bytes([draw.randrange(256)])
    at = draw.randrange(len(text))
    some = draw.choice((1, 1, 2, 4, 8, 32))
    kind = draw.randrange(7)
    if kind == 0:
        return text[:at] + bytes([text[at] ^ 1 << draw.randrange(8)]) + text[at + 1:]
    if kind == 1:
        return text[:at] + bytes([draw.randrange(256)]) + text[at + 1:]
    if kind == 2:
        return text[:at] + text[at + some:]
    if kind == 3:
        return text[:at + some] + text[at:]
    if kind == 4:
        start = draw.randrange(len(others))
        return text[:at] + others[start:start + some] + text[at + some:]
    if kind == 5:
        start = draw.randrange(len(others))
        return text[:at] + others[start:start + some] + text[at:]
    return text[:at] if draw.randrange(8) == 0 else text[:at] + bytes([draw.choice((0, 1, 2, 127, 128, 255))]) + text[at + 1:]


def starts(tokens, of_terms):
    """The places of a text where a term begins, or else an atom stands."""
    if of_terms:
        return [at for at in range(len(tokens) - 1) if tokens[at] == b"(" and tokens[at + 1].startswith(b"t")]
    return [at for at, token in enumerate(tokens) if token not in b"()"]


def change_kept(draw, tokens, others):
    """One change that mostly leaves a text a text: a term is changed for one of the text or of another, or an atom for one of the text, or a number for another."""
    of_terms = draw.randrange(3) > 0
    places = starts(tokens, of_terms)
    if not places:
        return tokens
    at = draw.choice(places)
    if of_terms:
        source = draw.choice((tokens, others))
        start = draw.choice(starts(source, True) or [0])
        return tokens[:at] + source[start:balanced(source, start)] + tokens[balanced(tokens, at):]
    if tokens[at].isdigit():
        return tokens[:at] + [str(draw.choice((0, 0, 1, 1, 2, 3, 7, 1000, 4294967295))).encode()] + tokens[at + 1:]
    return tokens[:at] + [tokens[draw.choice(places)]] + tokens[at + 1:]


def changed_dump(draw, dumps):
    text, others = draw.choice(dumps), draw.choice(dumps)
    kind = draw.randrange(6)
    if kind == 0:
        for _ in range(draw.randrange(1, 4)):
            text = change_bytes(draw, text, others)
        return text
    tokens, other_tokens = (TOKEN.findall(COMMENT.sub(b"", one)) for one in (text, others))
    change = change_tokens if kind == 1 else change_kept
    for _ in range(draw.choice((1, 1, 1, 2, 3))):
        tokens = change(draw, tokens, other_tokens) or [b"("]
    return b" ".join(tokens)


ITEMS = (b"0", b"0", b"1", b"2", b"s", b"c", b"k", b"l", b"r", b"4294967295", b"4294967296", b"007", b"x", b"(", b")")


def change_items(draw, items):
    """One change to the tokens of a certificate: some go, come twice, change places, come between, or are other ones."""
    at = draw.randrange(len(items) + 1)
    some = draw.choice((1, 1, 1, 2, 3))
    kind = draw.randrange(5)
    if kind == 0:
        return items[:at] + items[at + some:]
    if kind == 1:
        return items[:at + some] + items[at:]
    if kind == 2:
        return items[:at] + items[at:at + 2][::-1] + items[at + 2:]
    more = draw.choices(ITEMS, k=some)
    return items[:at] + more + items[at if kind == 3 else at + some:]


def changed_certified(draw, texts):
    """An environment and a certificate of it, one of which is changed: its two parts."""
    (text, cert), (others, _) = draw.choice(texts), draw.choice(texts)
    if draw.randrange(3) == 0:
        return b" ".join(change_kept(draw, TOKEN.findall(text), TOKEN.findall(others))), cert
    items = TOKEN.findall(cert)[3:-1]
    for _ in range(draw.choice((1, 1, 1, 2, 3))):
        items = change_items(draw, items)
    return text, b" ".join([b"(cert 1", *items, b")"])


def leb(value):
    out = bytearray()
    while True:
        low, value = value & 127, value >> 7
        out.append(low | (128 if value else 0))
        if not value:
            return bytes(out)


def read_leb(text, at):
    value = shift = 0
    while True:
        byte = text[at]
        at += 1
        value |= (byte & 127) << shift
        shift += 7
        if byte < 128:
            return value, at


def sections_of(module):
    """The sections of a module as pairs of id and contents."""
    at, sections = 8, []
    while at < len(module):
        kind = module[at]
        size, at = read_leb(module, at + 1)
        sections.append((kind, module[at:at + size]))
        at += size
    return sections


def bodies_of(code):
    """The bodies of a code section, without their sizes."""
    count, at = read_leb(code, 0)
    bodies = []
    for _ in range(count):
        size, at = read_leb(code, at)
        bodies.append(code[at:at + size])
        at += size
    return bodies


NUMBERS_BEHIND = {**dict.fromkeys((0x0C, 0x0D, 0x10, 0x20, 0x21, 0x22, 0x23, 0x24, 0x41, 0x42), 1), **dict.fromkeys((0x11, 0x28, 0x2D, 0x36, 0x3A), 2)}


def instructions_of(body):
    """The locals of a body, and its instructions one by one."""
    groups, at = read_leb(body, 0)
    for _ in range(groups):
        at = read_leb(body, at)[1] + 1
    front, instructions = body[:at], []
    while at < len(body):
        start, at = at, at + 1
        kind = body[start]
        numbers = NUMBERS_BEHIND.get(kind, 0)
        if kind == 0x0E:
            labels, at = read_leb(body, at)
            numbers = labels + 1
        at += kind in (2, 3, 4, 0x3F, 0x40)
        for _ in range(numbers):
            at = read_leb(body, at)[1]
        instructions.append(body[start:at])
    return front, instructions


def change_instruction(draw, body, other):
    """One change to the instructions of a body: one goes, comes twice, is one of another body, changes places with the next, or has another number."""
    (front, instructions), (_, others) = instructions_of(body), instructions_of(other)
    at = draw.randrange(len(instructions))
    kind = draw.randrange(6)
    if kind == 0:
        instructions[at:at + 1] = []
    elif kind == 1:
        instructions.insert(at, instructions[at])
    elif kind == 2:
        instructions[at] = draw.choice(others)
    elif kind == 3:
        instructions.insert(at, draw.choice(others))
    elif kind == 4:
        instructions[at:at + 2] = reversed(instructions[at:at + 2])
    else:
        numbered = [place for place, one in enumerate(instructions) if one[0] in NUMBERS_BEHIND]
        at = draw.choice(numbered or [at])
        instructions[at] = instructions[at][:1] + b"".join(draw.choice((b"\0", b"\1", b"\2", b"\3", b"\4", b"\x7f", b"\xff\xff\3", b"\x80\x80\x80\x80\x78")) for _ in range(NUMBERS_BEHIND.get(instructions[at][0], 0)))
    return front + b"".join(instructions)


def changed_module(draw, modules):
    """A module with changes: of bytes anywhere, or in the contents of sections or in bodies, whose sizes are then made right, or of instructions."""
    text, others = draw.choice(modules), draw.choice(modules)
    kind = draw.randrange(8)
    times = draw.choice((1, 1, 1, 2, 3))
    if kind == 0:
        for _ in range(times):
            text = change_bytes(draw, text, others)
        return text
    sections = sections_of(text)
    if kind == 1:
        at = draw.randrange(len(sections))
        for _ in range(times):
            sections[at] = (sections[at][0], change_bytes(draw, sections[at][1], others))
    else:
        bodies, other_bodies = bodies_of(sections[-1][1]), bodies_of(sections_of(others)[-1][1])
        for place in draw.sample(range(len(bodies)), min(times, len(bodies))):
            bodies[place] = change_bytes(draw, bodies[place], others) if kind == 2 else change_instruction(draw, bodies[place], draw.choice(other_bodies))
        sections[-1] = (sections[-1][0], leb(len(bodies)) + b"".join(leb(len(body)) + body for body in bodies))
    return b"\0asm\1\0\0\0" + b"".join(bytes([kind]) + leb(len(body)) + body for kind, body in sections)
