"""Compares c_library/ibisbookcase.h with the exports of the static libraries: their names and types, the fields of the structs, and
the numbers of the enums. A part of dev/check/c_library. Each comparison that fails is a line; the last one counts."""
import glob
import os
import re
import sys

TOP = os.path.dirname(os.path.dirname(os.path.dirname(os.path.abspath(__file__))))
# a struct of the crates, and its name in the header
STRUCTS = {"Handle": "handle", "Answer": "answer", "Look": "look", "PlainRecord": "record", "PlainBase": "base", "BaseRow": "base_row", "Found": "found", "Verdict": "verdict", "Written": "written"}
NUMBERS = {"u64": "uint64_t", "usize": "size_t", "u8": "uint8_t", "bool": "bool"}


def read(path):
    with open(f"{TOP}/{path}", encoding="utf-8") as it:
        return it.read()


def sources():
    return "\n".join(read(it) for it in sorted(glob.glob("crates/meet_c*/src/*.rt", root_dir=TOP)))


def c_types(name, type_):
    """The types of C's parameters that stand for one of Rattle's."""
    if type_ == "Global":
        return []
    is_lent, is_mut, of = re.fullmatch(r"(&?)(mut )?(.*)", type_).groups()
    if slice_ := re.fullmatch(r"\[(.*)\]", of):
        return [("" if is_mut else "const ") + plain(slice_[1]) + " *", "size_t"]
    return [("" if is_mut else "const ") + plain(of) + " *"] if is_lent else [plain(of)]


def plain(of):
    return NUMBERS.get(of) or f"ibis_{STRUCTS[of]}"


def exports(code):
    found = {}
    for name, given, result in re.findall(r'pub extern "C" fn (\w+)\(([^)]*)\)(?: -> (\w+))?', code):
        words = [it.split(":", 1) for it in re.split(r",\s*", given.strip().rstrip(",")) if it]
        found[name] = ([c for of, it in words for c in c_types(of.strip(), it.strip())], plain(result) if result else "void")
    return found


def declared(header):
    found = {}
    for result, name, given in re.findall(r"^(\w+) (ibis_\w+)\(([^)]*)\);", header, re.M):
        found[name] = ([re.sub(r"\w+$", "", it.strip()).strip() for it in given.split(",")], result)
    return {name: ([re.sub(r"\s*\*$", " *", it) for it in types], result) for name, (types, result) in found.items()}


def fields_of(code):
    return {STRUCTS[name]: re.findall(r"^\s+pub (\w+): u64", body, re.M) for name, body in re.findall(r"#\[repr\(C\)\]\n#\[derive[^\n]*\]\npub struct (\w+) \{(.*?)\n\}", code, re.S) if name in STRUCTS and name != "Handle"}


def fields_declared(header):
    return {name: re.findall(r"\w+", re.sub(r"uint64_t", "", body)) for name, body in re.findall(r"typedef struct ibis_(\w+) \{(.*?)\} ibis_\w+;", header, re.S) if name != "handle"}


def upper(word):
    return re.sub(r"(?<=[a-z])(?=[A-Z])", "_", word).upper()


def constants(code):
    """The numbers that the sources give: refusals, statuses, orders, verbs, outcomes, deeds, sides, causes and reasons."""
    found = {}
    for word, number in re.findall(r"Why::(\w+) => (\d+)", read("crates/meet_history/src/checker.rt")):
        found[f"WHY_{upper(word)}"] = int(number)
    for word, number in re.findall(r"Refusal::(\w+) => (\d+)", read("crates/meet_tickets/src/refusals.rt")):
        found[upper(word)] = int(number)
    for number, word in re.findall(r"(?:order|verb) == (\d+) \{\s*(?:let \w+ = \w+\(value\)\?;\s*)?Some\((?:Kind \{\s*order: Order|QueueCall)::(\w+)", code):
        found[upper(word)] = int(number)
    for word, number in re.findall(r"\w+::(\w+)(?:\([^=]*\))? => \{?\s*(?:with_item\()?done\((\d+),", code):
        found[upper(word)] = int(number)
    for kind in ("Deed", "Side", "Cause"):
        for word, number in re.findall(rf"\b{kind}::(\w+)(?:\([^=)]*\))? => (\d+),", code):
            if int(number) > 0 or kind != "Deed":
                found[f"{kind.upper()}_{upper(word)}"] = int(number)
    return found


def main():
    header, code = re.sub(r"/\*.*?\*/", "", read("c_library/ibisbookcase.h"), flags=re.S), sources()
    wrong, right = [], 0
    given = {name: int(number) for name, number in re.findall(r"IBIS_(\w+) = (\d+)", header)}
    made = constants(code)
    # what only the exports' texts name
    named = {"OK": 0, "BAD_RECORD": 30, "ILLEGAL": 31, "NOT_HELD": 40, "BAD_NUMBERS": 41, "APART": 42}
    named |= {f"ROW_{word}": at for at, word in enumerate(("WAITS", "KEPT", "MATCHED", "INTERRUPTED", "FLAGGED"), 1)}
    for what, ours, theirs in (
        ("call", exports(code), declared(header)),
        ("struct", fields_of(code), fields_declared(header)),
        ("number", {it: {**made, **named}.get(it) for it in given}, given),
    ):
        for name in sorted({*ours, *theirs}):
            if ours.get(name) == theirs.get(name):
                right += 1
            else:
                wrong.append(f"{what} {name}: the sources have {ours.get(name)}, the header has {theirs.get(name)}")
    for word, number in named.items():
        if number and not re.search(rf"\b{number}\b", code):
            wrong.append(f"number {word}: no source has {number}")
    missing = {it for it in made if it.split("_")[0] in ("DEED", "SIDE", "CAUSE", "WHY")} - {*given}
    wrong += [f"number {it}: the header has none" for it in sorted(missing)]
    for line in wrong:
        print(line)
    print(f"{right} passed, {len(wrong)} failed")
    return 1 if wrong else 0


if __name__ == "__main__":
    sys.exit(main())
