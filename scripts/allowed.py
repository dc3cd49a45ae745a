"""Which differences between the built program and a second one are none, because the rules allow both answers.

There are two. A word that is no UTF-8 is refused by the system's own call for the words, with status 17 and no text, where the
second program reads its bytes. And a step of a path that names no field may be named (`image 46`) where the second program names
a fault of a word on the way (`image 42` to `44`). What stands before that step is found here by the file's types, by the leaves
that `layout` prints, and by the image's bits: an integer, or a constructor without such a field.
"""
import re
import subprocess

KINDS = ("values", "peek")


def reason(kind, folder, program):
    """Why both answers of the case that is kept in a folder are right, or None where no rule here says so."""
    with open(f"{folder}/case.txt", "rb") as it:
        case = it.read()
    due, _, found = case.decode(errors="replace").partition("# due:")[2].partition("# found:")
    words = words_of(case)
    if kind == "values" and re.fullmatch(r"\s*status 17\s*out:\s*err:\s*", found):
        return next((f"word {at} is no UTF-8" for at, word in enumerate(words, 1) if not is_utf8(word)), None)
    step = re.search(r"ribbit: image 46: step (\d+)", found)
    if kind == "peek" and words[0] == b"peek" and step and re.search(r"ribbit: image 4[234]: ", due):
        return before(folder, program, words[3].decode(), int(step[1]))
    return None


def words_of(case):
    """The words of a case's command line, which is spelled for a shell."""
    line = next(it for it in case.split(b"\n") if it.startswith(b"ribbit "))
    ran = subprocess.run(["bash", "-c", b"printf '%s\\0' " + line.removeprefix(b"ribbit ")], capture_output=True, check=True)
    return ran.stdout.split(b"\0")[:-1]


def is_utf8(word):
    try:
        word.decode()
    except UnicodeDecodeError:
        return False
    return True


def before(folder, program, path, step):
    """What stands before a step that names no field, or None where the step names one or that is not known."""
    with open(f"{folder}/F", encoding="utf-8") as it:
        file = it.read()
    with open(f"{folder}/I", encoding="utf-8") as it:
        image = Image(it.read())
    types = types_of(file)
    leaves = leaves_of(subprocess.run([program, "layout", f"{folder}/F"], capture_output=True, text=True, check=True).stdout)
    ty = re.search(r"\bfun\s+main\s*\([^)]*\)\s*:\s*(\w+)", file)[1]
    words, leaf, inside, position = image.root, None, None, ""
    for at, field in enumerate(map(int, re.findall(r"\d+", path))):
        if ty not in types:
            return f"an integer stands before step {step}" if at == step else None
        if inside is None:
            leaf, position = chosen(image, words, leaves[ty]), ""
            inside = leaf and leaf["prov"]
        if inside is None:
            return None
        name, parts = inside
        if field >= len(types[ty][name]):
            return f"{name} before step {step} has no such field" if at == step else None
        ty, inside, position = types[ty][name][field], parts[field], f"{position}.{field}"
        if inside is None and ty in types:
            words = held(image, words, leaf, position, len(leaves[ty][0]["root"]))
    return None


def types_of(file):
    """The constructors of each type, and the types of their fields."""
    forms = re.findall(r"\btype\s+(\w+)\s*=\s*([^;]*);", file)
    cons = {name: re.findall(r"(\w+)\s*(?:\(([^()]*)\))?", form) for name, form in forms}
    return {name: {con: re.findall(r"\w+", fields) for con, fields in some} for name, some in cons.items()}


def provenance(text):
    """A pattern of constructors: None for a wildcard, else a name and the patterns in it."""
    tokens = re.findall(r"\w+|[(),]", text)

    def pattern():
        name, parts = tokens.pop(0), []
        if tokens and tokens[0] == "(":
            while tokens.pop(0) != ")":
                parts.append(pattern())
        return None if name == "_" else (name, parts)

    return pattern()


def leaves_of(text):
    """The leaves of each type, read from the text of its layout: provenance, conditions, root words and blocks."""
    leaves, some, leaf, word = {}, None, None, None
    for line in text.split("\n"):
        if found := re.fullmatch(r"type (\w+)", line):
            some = leaves[found[1]] = []
        elif found := re.fullmatch(r"leaf (.*)", line):
            leaf = {"prov": provenance(found[1]), "when": [], "root": [], "blocks": []}
            some.append(leaf)
        elif found := re.fullmatch(r"when (.*)", line):
            leaf["when"].append(found[1])
        elif found := re.fullmatch(r"block \d+: (\d+) bytes, align (\d+)", line):
            leaf["blocks"].append((int(found[1]), int(found[2]), []))
        elif found := re.fullmatch(r"word \d+(?: at byte (\d+))?: (\d+) bits", line):
            word = (int(found[1] or 0), int(found[2]), [])
            (leaf["root"] if found[1] is None else leaf["blocks"][-1][2]).append(word)
        elif found := re.fullmatch(r"  (\d+):(\d+) (.*)", line):
            word[2].append((int(found[1]), int(found[2]), found[3]))
    return leaves


class Image:
    """The root words of an image, and the bytes of its blocks by their addresses."""

    def __init__(self, text):
        head, *lines = text.rstrip("\n").split("\n")
        self.root = [int(it, 16) for it in head.split()[1:]]
        self.blocks = {int(it[1]): bytes.fromhex(it[3]) for it in map(str.split, lines)}

    def word(self, base, byte, width):
        """A word of a block, or None where there is none."""
        read = self.blocks.get(base, b"")[byte : byte + width // 8]
        return int.from_bytes(read, "little") if len(read) == width // 8 else None


def bits(word, at, length):
    """A range of a word, or None where the word is not known."""
    return None if word is None else word >> at & (1 << length) - 1


def located(image, words, loc):
    """The bits of a location, or None where a pointer on the way leads to no lower block with such a word."""
    first, steps = re.match(r"(\d+)\[(\d+):(\d+)\]", loc), re.findall(r"-> (\d+) @(\d+):(\d+)\[(\d+):(\d+)\]", loc)
    number, holder = bits(words[int(first[1])], int(first[2]), int(first[3])), None
    for align, byte, width, at, length in [map(int, it) for it in steps]:
        base = None if number is None else number * align
        if base is None or (holder is not None and base >= holder):
            return None
        number, holder = bits(image.word(base, byte, width), at, length), base
    return number


def chosen(image, words, leaves):
    """The leaf to which the splits lead, or None where a location on the way is not known."""
    for leaf in leaves:
        for condition in leaf["when"]:
            loc, sign, numbers = re.fullmatch(r"(.*\]) (=|not|any) ?(.*)", condition).groups()
            number = located(image, words, loc)
            if number is None:
                return None
            if sign != "any" and (number in [int(it) for it in numbers.split(", ")]) != (sign == "="):
                break
        else:
            return leaf
    return None


def held(image, words, leaf, position, count):
    """The words of a field that is a data type, each None where a pointer on the way to it leads to no such lower block."""
    found = [None] * count
    rest = [(part, word, None) for flat, word in zip(leaf["root"], words) for part in flat[2]]
    while rest:
        (at, length, kind), word, holder = rest.pop()
        if pointer := re.fullmatch(r"pointer to block (\d+)", kind):
            size, align, flats = leaf["blocks"][int(pointer[1])]
            base = None if word is None else bits(word, at, length) * align
            is_block = base is not None and len(image.blocks.get(base, b"")) == size and (holder is None or base < holder)
            for byte, width, parts in flats:
                inner = image.word(base, byte, width) if is_block else None
                rest += [(part, inner, base) for part in parts]
        elif (field := re.fullmatch(r"field (\S+) word (\d+)", kind)) and field[1] == position:
            found[int(field[2])] = bits(word, at, length)
    return found
