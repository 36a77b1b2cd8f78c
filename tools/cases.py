#!/usr/bin/env python3
"""Makes the cases of `replay`, from lists of an independent program and from the definitions, and makes JSON of them.

    tools/cases.py json [FOLDER]
    tools/cases.py check [PROGRAM]
    tools/cases.py replay [LISTS]

`json` makes FOLDER/NAME.json for each list of crates/replay/stdin and crates/replay/stdout, for other implementations of the formats, with
their schema; FOLDER is dist/conformance if none is named. It wants Python alone. What each list asks, its columns and their kinds, and
what rows and labels mean stands in conformance/lists.json: a line whose list is not there, that has another number of columns, or a text
that is not of the column's kind, is an error, and nothing is made.

`check` makes no file. It sees that each file that would be made meets conformance/schema.json and gives back the lines that it was made
of, that the samples in conformance/ are what would be made, that docs/CONFORMANCE.md names the lists, that `replay` would change no
worked row, and that PROGRAM, where one is named, as crates/replay/out/replay, answers the lines as the cases say. A list that is described
and has no line is told, and is no fault. The last line is 'N passed, M failed', of lists and of faults.

`replay` makes crates/replay/stdin and crates/replay/stdout: the worked rows alone without LISTS. LISTS is a folder of lists, one case a
line, columns with blanks between them, the first line their names, made by an independent program that computes the definitions over
whole lists. A line of stdin is the name of a list and the columns that are given, a line of stdout the columns that are asked for. The
cases over SHA-512 come last, with that word before the list's name. Lines of stdin that begin with the name of a worked row and a colon are
kept with their answers, before the lists; but those over SHA-512 of LISTS of tools/definitions.py are made anew, after the others of their
rows, and so are those of the row that tools/forgeries.py makes. Lists that conformance/lists.json does not have are left out.
"""
import collections
import functools
import itertools
import json
import pathlib
import re
import shutil
import subprocess
import sys

import definitions
import forgeries
from definitions import KEY, MAX_LEAVES, MMB, MMR, Check, Digests, Tree, be8, told
from forgeries import operation, snapshot

ROOT = pathlib.Path(__file__).resolve().parent.parent
FOLDER = ROOT / "conformance"
REPLAY = ROOT / "crates/replay"
PAGE = ROOT / "docs/CONFORMANCE.md"
MADE = ROOT / "dist/conformance"

# The texts of a kind, in a list and in a case alike.
TEXTS = {"number": r"0|[1-9]\d{0,19}", "bytes": r"(?:[0-9a-f]{2})*", "digest": r"(?:[0-9a-f]{64}){1,2}", "bits": r"[01]*", "text": r".+"}
# The digest function of the cases that tell theirs; of all others it is SHA-256.
OTHER_HASH = "sha512"
REFUSAL = re.compile(r"[CEQ]\d+(?:\(.*\))?")
OR_REFUSAL = " or refusal"
# The kinds that are arrays: the kind of a part, what stands between two parts, what stands for no part.
ARRAYS = {
    "numbers": ("number", ",", "none"),
    "digests": ("digest", ",", "none"),
    "byte strings": ("bytes", ",", "none"),
    "texts": ("text", ",", "none"),
    "words": ("text", ",", "-"),
    "slashed": ("text", "/", "-"),
}


class Wrong(Exception):
    """What is wrong with a line, a case or a file."""


def described():
    """The lists as conformance/lists.json describes them, and what rows and labels mean. A column that has a name alone is one of those
    that several lists have."""
    told = json.loads((FOLDER / "lists.json").read_text())
    named = lambda it: (it, *told["columns"][it]) if isinstance(it, str) else it
    columns = lambda them: [dict(zip(("name", "kind", "about"), named(it))) for it in them]
    for entry in told["lists"].values():
        forms = {"columns": columns(entry["answers"])} | ({"or": columns(entry["or"])} if "or" in entry else {})
        entry["columns"], entry["answer"] = columns(entry["columns"]), {"about": entry["answer"], **forms}
    return told


def value_of(kind, text):
    """The value in JSON of a column's text."""
    if kind.endswith(OR_REFUSAL):
        return text if REFUSAL.fullmatch(text) else value_of(kind.removesuffix(OR_REFUSAL), text)
    if kind.endswith("?"):
        return None if text == "-" else value_of(kind[:-1], text)
    if kind in ARRAYS:
        part, between, none = ARRAYS[kind]
        return [] if text == none else [value_of(part, it) for it in text.split(between)]
    value = "" if kind in ("bytes", "bits") and text == "-" else text
    if not re.fullmatch(TEXTS[kind], value) or kind == "number" and int(value) >= 2**64:
        raise Wrong(f"{text[:60]!r} is no {kind}")
    return value


def text_of(kind, value):
    """The text of a column's value."""
    if kind.endswith(OR_REFUSAL):
        return value if isinstance(value, str) and REFUSAL.fullmatch(value) else text_of(kind.removesuffix(OR_REFUSAL), value)
    if kind.endswith("?"):
        return "-" if value is None else text_of(kind[:-1], value)
    if kind in ARRAYS:
        part, between, none = ARRAYS[kind]
        return between.join(text_of(part, it) for it in value) if value else none
    return "-" if kind in ("bytes", "bits") and value == "" else value


def values_of(columns, texts):
    """The values of columns by their names."""
    if len(texts) != len(columns):
        raise Wrong(f"{len(texts)} columns, where conformance/lists.json has {len(columns)}: {', '.join(it['name'] for it in columns)}")
    values = {it["name"]: value_of(it["kind"], text) for it, text in zip(columns, texts)}
    for column, text in zip(columns, texts):
        if text_of(column["kind"], values[column["name"]]) != text:
            raise Wrong(f"{text[:60]!r} is not how a {column['kind']} is spelled")
    return values


def form_of(answer, count):
    """The columns of an answer: those of so many, of the two forms that it may have."""
    return answer["or"] if "or" in answer and len(answer["or"]) == count else answer["columns"]


def out_of(answer, text):
    """The answer in JSON: the value of its one column, or its columns by their names."""
    texts = text.split(" ")
    values = values_of(form_of(answer, len(texts)), texts)
    return values if len(values) > 1 else [*values.values()][0]


def comment_of(lists, row, label):
    """How a case was made, and what it shows: the row, if there is one, and each part of the label in words."""
    said = [lists["labels"].get(it, it.replace("-", " ")) for it in label.split("+")]
    told = "" if label == "row" else " and ".join(said)
    if row is None:
        return f"{label}: {told}" if told else "made by an independent program from the definitions"
    name, note = row.replace("_", " "), lists["rows"].get(row)
    return (f"{name}: {note}" if note else name) + (f" ({told})" if told else "")


def parts_of(line):
    """The row and the digest function of a line, where they are told, its list and its columns."""
    row, colon, rest = line.partition(": ")
    name, *texts = (rest if colon else line).split(" ")
    heads = {"row": row} if colon else {}
    if name == OTHER_HASH and texts:
        heads["hash"], (name, *texts) = name, texts
    return heads, name, texts


def replayed():
    """The lines of `replay` and their answers."""
    asked, answers = ((REPLAY / it).read_text().splitlines() for it in ("stdin", "stdout"))
    if len(asked) != len(answers):
        raise Wrong(f"crates/replay has {len(asked)} lines and {len(answers)} answers")
    return [*zip(asked, answers)]


@functools.cache
def cases_by_list():
    """The cases of each list in JSON."""
    lists = described()
    cases = {name: [] for name in lists["lists"]}
    for number, (line, answer) in enumerate(replayed(), 1):
        heads, name, texts = parts_of(line)
        try:
            if name not in cases:
                raise Wrong(f"conformance/lists.json does not describe the list {name!r}")
            entry = lists["lists"][name]
            given = values_of(entry["columns"], texts)
            comment = comment_of(lists, heads.get("row"), given.get("label", "row"))
            cases[name].append({**heads, "comment": comment, "in": given, "out": out_of(entry["answer"], answer)})
        except Wrong as wrong:
            raise Wrong(f"crates/replay/stdin:{number}: {name}: {wrong}") from None
    return cases


def cases_of(name):
    """The cases of a list in JSON, for who asks them of another program."""
    return cases_by_list()[name]


def lines_of(content, case):
    """The line that a case stands for, and that of its answer."""
    heads = [f"{case['row']}:"] if "row" in case else []
    heads += [case["hash"]] if "hash" in case else []
    out = case["out"] if isinstance(case["out"], dict) else None
    form = form_of(content["answer"], len(out) if out else 1)
    given = [text_of(it["kind"], case["in"][it["name"]]) for it in content["columns"]]
    asked = [text_of(it["kind"], out[it["name"]] if out else case["out"]) for it in form]
    return " ".join([*heads, content["list"], *given]), " ".join(asked)


def rows_of(values, margin):
    """An array with a line for each value."""
    return "[\n" + ",\n".join(f"{margin}  {json.dumps(it)}" for it in values) + f"\n{margin}]"


def file_of(name, entry, cases):
    """The text of a list's file: each column and each case on one line."""
    forms = "".join(f',\n    "{it}": {rows_of(entry["answer"][it], "    ")}' for it in ("columns", "or") if it in entry["answer"])
    answer = f'{{\n    "about": {json.dumps(entry["answer"]["about"])}{forms}\n  }}'
    head = f'  "list": {json.dumps(name)},\n  "about": {json.dumps(entry["about"])},\n  "columns": {rows_of(entry["columns"], "  ")}'
    return f'{{\n{head},\n  "answer": {answer},\n  "cases": {rows_of(cases, "  ")}\n}}\n'


def files():
    """The names of all files, and their texts."""
    lists = described()["lists"]
    return {f"{name}.json": file_of(name, lists[name], cases) for name, cases in cases_by_list().items() if cases}


def make_json(folder=MADE):
    """Makes the files and their schema."""
    made = files()
    if folder == MADE:
        shutil.rmtree(folder, ignore_errors=True)
    folder.mkdir(parents=True, exist_ok=True)
    for name, text in made.items():
        (folder / name).write_text(text)
    shutil.copy(FOLDER / "schema.json", folder)
    print(f"cases: {len(replayed())} cases in {len(made)} files of {folder}")


TYPES = {"object": dict, "array": list, "string": str, "null": type(None)}


def breaks(schema, value, place, whole):
    """Where a value does not meet a schema, of the keywords that conformance/schema.json has."""
    for keyword, wanted in schema.items():
        inner = []
        if keyword == "$ref":
            inner = [(whole["$defs"][wanted.removeprefix("#/$defs/")], value, place)]
        elif keyword == "type":
            if not isinstance(value, TYPES[wanted]):
                yield f"{place}: no {wanted}"
                return
        elif keyword == "pattern":
            yield from [] if re.search(wanted, value) else [f"{place}: {value[:60]!r} does not match {wanted}"]
        elif keyword in ("minItems", "minProperties"):
            yield from [] if len(value) >= wanted else [f"{place}: fewer than {wanted}"]
        elif keyword == "items":
            inner = [(wanted, item, f"{place}/{index}") for index, item in enumerate(value)]
        elif keyword == "required":
            yield from (f"{place}: no {name!r}" for name in wanted if name not in value)
        elif keyword == "properties":
            inner = [(wanted[name], value[name], f"{place}/{name}") for name in value if name in wanted]
        elif keyword == "additionalProperties":
            inner = [(wanted, value[name], f"{place}/{name}") for name in value if name not in schema.get("properties", {})]
        elif keyword == "anyOf":
            fits = any(not [*breaks(it, value, place, whole)] for it in wanted)
            yield from [] if fits else [f"{place}: none of the {len(wanted)} forms"]
        elif keyword not in ("$schema", "$defs", "title", "description"):
            raise Wrong(f"conformance/schema.json: the keyword {keyword} is not known here")
        for item in inner:
            yield from [f"{item[2]}: is too much"] if item[0] is False else breaks(*item, whole)


def wrong_answers(program, pairs):
    """The answers of a program that differ from those of the cases."""
    if not program.is_file():
        yield f"{program} is not there"
        return
    run = subprocess.run([program], input="".join(f"{it}\n" for it, _ in pairs), capture_output=True, text=True)
    if run.returncode:
        yield f"{program} ends with status {run.returncode}: {run.stderr[:300]}"
    for (line, out), answer in itertools.zip_longest(pairs, run.stdout.splitlines(), fillvalue=("", "")):
        if answer != out:
            yield f"{line[:100]}: the answer is {answer[:100]!r}"


def wrong_files(made):
    """What is wrong with the files that would be made, the samples, and the lists that the page names."""
    schema, pairs = json.loads((FOLDER / "schema.json").read_text()), []
    for name, text in made.items():
        content = json.loads(text)
        yield from breaks(schema, content, name, schema)
        pairs += [lines_of(content, it) for it in content["cases"]]
    if sorted(pairs) != sorted(replayed()):
        yield "the files do not give back the lines of crates/replay"
    for path in FOLDER.glob("*.json"):
        if path.name not in ("lists.json", "schema.json") and path.read_text() != made.get(path.name):
            yield f"{path.relative_to(ROOT)} is not what tools/cases.py makes"
    for name in sorted({path.removesuffix(".json") for path in made} - named_lists()):
        yield f"docs/CONFORMANCE.md does not name the list {name}"
    worked, listed = worked_and_listed()
    for line, _ in sorted({*worked} ^ {*with_made(worked, listed)})[:3]:
        yield f"tools/cases.py replay would change a worked row: {line[:100]}"


def named_lists():
    """The lists in the table of docs/CONFORMANCE.md."""
    cells = re.findall(r"^\| [^|]+ \| (`[a-z_]+`[^|]*) \|$", PAGE.read_text(), re.M)
    return set(re.findall(r"`(\w+)`", "".join(cells)))


def check(program=None):
    made = files()
    wrong = [*wrong_files(made), *(wrong_answers(program, replayed()) if program else ())]
    for name in sorted({*described()["lists"], *named_lists()} - {path.removesuffix(".json") for path in made}):
        print(f"note: {name} is described or named, and no line is of it")
    print("".join(f"{it}\n" for it in wrong), end="")
    print(f"{len(made)} passed, {len(wrong)} failed")
    return int(bool(wrong))


# The worked rows whose cases over SHA-256 are cases over SHA-512 too, since no digest is given in them; of the sweeps, these lengths.
AS_THEY_ARE = ("combined_views", "combined_ranges", "each_operation", "each_range", "bitmaps", "bitmaps_read", "bitmaps_served")
SWEPT = {"each_operation": (1, 7, 8, 9, 11, 16, 17, 18, 32, 33), "each_range": (1, 7, 8, 9, 11, 17)}


def filled_proofs(digests):
    """One location of the greatest trees: each digest has bytes of one kind."""
    for row, family, direction, past in (
        ("all_peaks_of_the_greatest_mmb", MMB, "forward", range(100, 161)),
        ("one_location_of_the_greatest_mmb", MMB, "backward", range(100, 101)),
        ("one_location_of_the_greatest_mmr", MMR, "backward", range(0)),
    ):
        proof = [digests.filled(it) for it in [*past, *range(family.heights(MAX_LEAVES)[0])]]
        root = Check(Tree(digests, family, [bytes([7, 8, 9])]), direction, MAX_LEAVES, 0, proof, 0).root.hex()
        for element in ("070809", "0809")[: 1 if direction == "forward" else 2]:
            yield row, "element_checks", family.name, direction, MAX_LEAVES, 0, told(proof), 0, element, root, "row"


def of_fourteen(digests):
    """The proof of one leaf of fourteen."""
    row, tree = "one_element_of_fourteen", Tree(digests, MMB, [be8(it) for it in range(14)])
    proof, root, element = tree.range_proof("backward", 0, 12, 13), tree.root("backward", 0), be8(12).hex()
    nodes = "/".join(f"{position}={it.hex()}" for position, it in zip((18, 22, 23), proof))
    for inactive, given in ((4, nodes), (0, "-"), (0, nodes)):
        yield row, "built", "mmb", "backward", 14, 12, inactive, given
    for location, given in ((12, proof), (11, proof), (12, [*proof, root])):
        yield row, "element_checks", "mmb", "backward", 14, 0, told(given), location, element, root.hex(), "row"


def of_operations(digests):
    """Plain proofs of operations: of none, and of the last three of eight."""
    empty = Tree(digests, MMR, []).root("backward", 0).hex()
    for start in (0, 1):
        yield "no_operations", "plain_operations", "mmr", 0, 0, "none", start, "none", empty, "row"
    tree = Tree(digests, MMR, [be8(it) for it in (0, 1, 2, 3, 4, 10, 11, 12)])
    proof, claimed, root = tree.range_proof("backward", 0, 5, 8), told(tree.elements[5:]), tree.root("backward", 0)
    for start, root in ((5, root), (0, root), (5, digests.filled(0))):
        yield "plain_proof_of_the_tail", "plain_operations", "mmr", 8, 0, told(proof), start, claimed, root.hex(), "row"


def over_chunks(digests):
    """Nodes over chunks: grafted, all zero, not graftable, not supplied, below and above."""
    left, right = (digests.of(it).hex() for it in (b"left", b"right"))
    for family, nodes in ((MMR, (14, 45, 60, 6, 30)), (MMB, (18, 49, 64, 7, 41))):
        first, sixth, seventh, below, above = nodes
        for height, start, chunks, graftable, position in (
            (3, 0, "81", 1, first), (3, 0, "00", 1, first), (3, 0, "81", 0, first), (3, 1, "81,06", 3, sixth), (3, 1, "81,06", 3, first),
            (3, 1, "81,06", 4, seventh), (3, 0, "81", 1, below), (3, 0, "81,06", 2, above), (4, 0, "8106", 1, above),
        ):
            yield "nodes_over_chunks", "verifiers", family.name, height, start, chunks, graftable, position, left, right


def of_operation_proofs(digests):
    """Operation proofs that are altered or cut, and chunk sizes that no chunk has."""
    eight, eighteen, twenty = (snapshot(digests, *it) for it in ((MMR, 8, 3), (MMB, 18, 9), (MMR, 20, 17, 16)))

    def case(row, whole, location, label, proof, size=1, leaves="-"):
        family, claimed = whole.family.name, operation(location).hex()
        return row, "operation_checks", family, size, leaves, claimed, proof.hex() or "-", whole.root.hex(), label

    def of_eight(row, label, proof, **others):
        return case(row, eight, 3, label, proof, **others)

    own, other, size = eight.operation_proof(3), eighteen.operation_proof(9), digests.size
    heads, digests_end = own[:4], 5 + 3 * size
    yield of_eight("altered_and_truncated", "own", own)
    yield of_eight("altered_and_truncated", "digest-more", heads + b"\4" + own[5:digests_end] + bytes(size) + own[digests_end:])
    yield of_eight("altered_and_truncated", "digest-less", heads + b"\2" + own[5 : digests_end - size] + own[digests_end:])
    yield of_eight("altered_and_truncated", "cut", own[:-1])
    yield of_eight("altered_and_truncated", "more", own + b"\0")
    yield of_eight("eight_operations", "own", own)
    yield case("eighteen_operations_other_chunk", eighteen, 9, "other-chunk", other[:1] + b"\3" + other[2:])
    yield case("eighteen_operations_other_chunk", eighteen, 9, "own-chunk", other)
    pending = 5 + 4 * size
    yield case("eighteen_operations_without_pending", eighteen, 9, "no-pending", other[:pending] + b"\0" + other[pending + 1 + size :])
    inactive = twenty.operation_proof(17)
    yield case("floor_sixteen_wrong_inactive", twenty, 17, "inactive", inactive[:3] + b"\0" + inactive[4:])
    for whole, location, proof in ((eight, 3, own), (eighteen, 9, other)):
        yield case("impossible_sizes", whole, location, "too-many-leaves", proof, leaves=MAX_LEAVES + 1)
    yield of_eight("partial_slot_added", "partial-slot", own[:digests_end] + b"\1" + bytes(size) + own[digests_end + 1 :])
    yield of_eight("shared_chunk_bytes", "own", own)
    for size, label in ((0, "no-chunk-size"), (3, "no-chunk-size"), (2**60, "no-chunk-size"), (2**59, "greatest-chunk-size")):
        for proof in (own, b""):
            yield of_eight("shared_chunk_bytes", label, proof, size=size)


def of_keys(digests, proofs):
    """Proofs about keys: as they are, cut short, with bytes more, and with other tags, counts and chunk sizes."""
    row = "key_proofs_as_bytes"
    for size in (0, 3, 2**60):
        yield "impossible_sizes", "key_proofs", "mmr", "value", size, 128, "-"
    next_key = operation(10)[1 : 1 + KEY]
    pending = ("mmb", "value", snapshot(digests, MMB, 18, 9).operation_proof(9) + next_key)
    for family, claim, proof in [*(("mmr", *it) for it in proofs), pending]:
        for reader in ("array", 1):
            yield row, "key_proofs", family, claim, reader, 128, proof.hex()
    # the first proof of a value, and those of absence by a span and by a commit
    shown = {(claim, claim == "absence" and proof[0]): proof for claim, proof in reversed(proofs)}
    for (claim, _), proof in shown.items():
        for reader in ("array", 1):
            yield row, "key_proofs", "mmr", claim, reader, 128, (proof + bytes(2)).hex()
            yield row, "key_proofs", "mmr", claim, reader, 128, proof[:-1].hex()
    value, span = shown["value", 0], shown["absence", 0]
    for reader in ("array", 1):
        yield row, "key_proofs", "mmr", "value", reader, 2, value.hex()
        yield row, "key_proofs", "mmr", "absence", reader, 2, span.hex()
        yield row, "key_proofs", "mmr", "absence", reader, 128, (b"\2" + span[1:]).hex()
        yield row, "key_proofs", "mmr", "absence", reader, 128, "-"
    for claim, size, proof in (("value", 3, value), ("value", 0, value), ("absence", 3, span), ("absence", 3, b"\2" + span[1:])):
        yield row, "key_proofs", "mmr", claim, size, 128, proof.hex()
    shorter = snapshot(Digests("sha256"), MMR, 8, 3).operation_proof(3) + operation(4)[1 : 1 + KEY]
    yield "sha256_bytes_refused", "key_proofs", "mmr", "value", 1, 128, shorter.hex()


def of_slots(digests):
    """The slot of a pending chunk, written and read."""
    for family in ("mmr", "mmb"):
        for digest in ("-", digests.filled(7).hex()):
            yield "pending_slots", "slots", family, digest
    for family in ("mmr", "mmb"):
        yield "pending_slots", "slots_read", family, "01" + digests.filled(7).hex()
    yield "pending_slots", "slots_read", "mmb", digests.filled(7).hex()
    yield "pending_slots", "slots_read", "mmb", "01" + digests.filled(7).hex()[: digests.size]


def of_peaks(digests):
    """Trees in memory that begin with the digests of their peaks."""
    for family, direction in ((MMR, "forward"), (MMB, "backward")):
        for boundary, count in ((0, 0), (0, 2), (7, 3), (7, 2), (7, 4), (MAX_LEAVES, 62), (MAX_LEAVES, 0), (MAX_LEAVES + 1, 62)):
            pinned = told([digests.filled(it) for it in range(count)])
            yield "trees_of_peaks_alone", "mem_init", family.name, direction, boundary, pinned


def of_bytes(digests):
    """Digests whose bytes all are one."""
    for byte in (0, 1, 255):
        yield "filled_digests", "filled", byte


def made(digests, kept, proofs):
    """The cases of worked rows over a digest function: row, list and columns. Kept are the cases over SHA-256, of which those of the
    lists without digests among their columns are asked again; the proofs are proofs about keys, with what they claim."""
    for row, name, *columns in kept:
        length = len(columns[3]) if row == "sweep_of_lengths" else None
        if name in AS_THEY_ARE and length in (None, *SWEPT.get(name, ())):
            yield row, name, *columns
    for cases in (filled_proofs, of_fourteen, of_operations, over_chunks, of_operation_proofs, of_slots, of_peaks, of_bytes):
        yield from cases(digests)
    yield from of_keys(digests, proofs)


def case_of(line):
    """The row of a worked case, its digest function, its list and its columns."""
    heads, name, columns = parts_of(line.rstrip("\n"))
    return (heads["row"], heads.get("hash", "sha256"), name, *columns)


def is_made(line):
    """Whether a worked case is one of those made here: over SHA-512, those of digests of one byte, and forged proofs."""
    row, hash, name, *_ = case_of(line)
    return row == forgeries.ROW or name in definitions.LISTS and (hash == OTHER_HASH or row == "filled_digests")


def lines_made(kept, proofs, names):
    """The lines of the cases made here of lists of these names, and their answers, by row."""
    kept = [(row, name, *columns) for row, hash, name, *columns in map(case_of, kept) if hash == "sha256"]
    sha256, sha512 = Digests("sha256"), Digests(OTHER_HASH)
    forged = lambda digests: [(forgeries.ROW, *it) for it in forgeries.forgeries(digests)]
    asked = [("", sha256, it) for it in [*of_bytes(sha256), *forged(sha256)]]
    asked += [(f"{OTHER_HASH} ", sha512, it) for it in [*made(sha512, kept, proofs), *forged(sha512)]]
    rows = collections.defaultdict(list)
    for hash, digests, (row, name, *columns) in asked:
        if name in names:
            columns = [str(it) for it in columns]
            answer = definitions.answer(digests, name, columns)
            rows[row].append((f"{row}: {hash}{' '.join([name, *columns])}\n", f"{answer}\n"))
    return rows


def wrong_worked(pairs):
    """The first worked case over SHA-256 whose answer is not that of the definitions, if there is one."""
    for line, asked in pairs:
        _, hash, name, *columns = case_of(line)
        if name in definitions.ANSWERED and definitions.answer(Digests(hash), name, columns) != asked.rstrip("\n"):
            return line
    return None


class Lists:
    """The lists of a folder, with the cases over one hash."""

    def __init__(self, folder, name):
        self.folder, self.hash = folder, name

    def rows(self, name):
        """The cases of a list as lists of columns; of those with a hash the ones over this one, without that column. Lists without a
        hash count as ones over SHA-256."""
        lines = (self.folder / f"{name}.txt").read_text().splitlines()
        columns = lines[0].split()[1:]
        if "hash" not in columns[:2]:
            return [line.split(" ") for line in lines[1:] if self.hash == "sha256"]
        place = columns.index("hash")
        cases = [line.split(" ") for line in lines[1:]]
        return [it[:place] + it[place + 1 :] for it in cases if it[place] == self.hash]

    def cut(self, name, count):
        """Cases whose first columns are given and whose other columns are asked for."""
        return [(it[:count], it[count:]) for it in self.rows(name)]


def told_apart(calls):
    """Calls without what they answer, and the places and refusals of the refused ones, which a `=` parts from the call."""
    given = []
    refusals = []
    for place, call in enumerate(calls.split(",")):
        call, _, refusal = call.partition("=E")
        given.append(call)
        if refusal:
            refusals.append(f"{place}:E{refusal}")
    return ",".join(given), ",".join(refusals) or "none"


def firsts(column):
    """What stands before the first colon of each part of a column; `none` for no part."""
    return "none" if column == "-" else ",".join(part.split(":")[0] for part in column.split(","))


def runs(family, chunk, floor, location, operations, root, ops_root, grafted_root, witness, proof, answer):
    """The runs of `root` and of `prove`, and of `check` on what `prove` wrote: words, input, status and outputs."""
    parts = [it.split(":") for it in operations.split(",")]
    lines = "".join(f"{bit} {operation}\n" for bit, operation in parts)
    yield ["root", family, chunk, floor], lines, "0", root, "-"
    yield ["prove", family, chunk, floor, location], lines, "0", f"{root}_{proof}", "-"
    claim = f"{parts[int(location)][1]}\n{proof}\n"
    yield ["check", family, chunk, root, location], claim, "01"[answer == "no"], answer, "-"


def cases(lists):
    """All cases: the name of the list, the columns that are given, the columns that are asked for."""
    for given, asked in lists.cut("varints", 1):
        yield "varints", given, asked
    for given, asked in lists.cut("golden_hash", 1):
        yield "golden_hash", given, asked
    for given, asked in lists.cut("families", 2):
        # the positions of the peaks are also those to pin
        yield "families", given, asked + asked[-1:]
    for given, asked in lists.cut("sizes", 2):
        yield "sizes", given, asked
    for given, asked in lists.cut("nodes", 3):
        yield "nodes", given, asked
    for given, asked in lists.cut("graftable", 3):
        yield "graftable", given, asked
    for given, asked in lists.cut("maps", 3):
        # the position is mapped up, and down again
        yield "maps", given, asked + given[-1:]
    for given, asked in lists.cut("operations", 2):
        yield "operations", given, asked
    for given, asked in lists.cut("written", 2):
        yield "written", given, asked
    for given, asked in lists.cut("elements", 3):
        yield "elements", given, asked
    for given, asked in lists.cut("plans", 4):
        yield "plans", given, asked
    for family, direction, leaves, inactive, start, _, elements, digests, root in lists.rows("plain"):
        # an honest proof is accepted, and gives the root
        given = [family, direction, leaves, inactive, digests, start, elements, root, "honest"]
        yield "plain_checks", given, ["yes", root]
    for given, asked in lists.cut("plain_checks", 9):
        yield "plain_checks", given, asked
    for columns in lists.rows("golden"):
        # the first column is a label
        yield "golden", columns[1:8], columns[8:]
    for columns in lists.rows("program"):
        for words, lines, *asked in runs(*columns):
            yield "runs", [",".join(words), lines.encode().hex()], asked
    for given, asked in lists.cut("program_checks", 7):
        yield "program_checks", given, asked
    for given, asked in lists.cut("db", 3):
        yield "db", given, asked
    for given, asked in lists.cut("ranges", 7):
        yield "ranges", given, asked
    for given, asked in lists.cut("ranges_checks", 9):
        yield "ranges_checks", given, asked
    for given, asked in lists.cut("key_values", 8):
        yield "key_values", given, asked
    for given, asked in lists.cut("exclusions", 7):
        yield "exclusions", given, asked
    for _, *given in lists.rows("golden_keys"):
        # the first column is a label; each proof is accepted
        yield "golden_keys", given, ["yes"]
    for given, asked in lists.cut("bitmaps_checks", 9):
        yield "bitmaps_checks", given, asked
    for given, asked in lists.cut("bitmaps_init", 4):
        yield "bitmaps_init", given, asked
    for given, asked in lists.cut("mem_init", 4):
        yield "mem_init", given, asked
    for family, direction, calls, *asked in lists.rows("mems"):
        given, refusals = told_apart(calls)
        yield "mems", [family, direction, given], [refusals, *asked]
    for direction, chunk, calls, *asked in lists.rows("bitmaps"):
        # proofs are asked of the bits that the list proves
        yield "bitmaps", [direction, chunk, calls, firsts(asked[7])], asked
    for given, asked in lists.cut("required", 6):
        yield "required", given, asked
    for given, asked in lists.cut("witnesses", 5):
        yield "witnesses", given, asked
    for given, asked in lists.cut("multi_checks", 8):
        yield "multi_checks", given, asked
    for given, asked in lists.cut("extracted", 8):
        yield "extracted", given, asked
    for family, chunk, _, bits, floor, operations, location, pruned, grafted, absent, answer in lists.rows("combined"):
        # the stage says how the tree over chunks was made, which the answer does not depend on
        yield "combined", [family, chunk, floor, bits, operations, location, pruned, grafted, absent], [answer]
    for given, asked in lists.cut("pinned_checks", 10):
        yield "pinned_checks", given, asked
    for columns in lists.rows("stores"):
        suffix, call, answer = columns[8:]
        yield "stores", [*columns[:8], call], [suffix, answer]
    for given, asked in lists.cut("ranges_extracted", 7):
        yield "ranges_extracted", given, asked


def worked_and_listed():
    """The lines of stdin that begin with the name of a row, which ends with a colon, and the others, with their answers."""
    parts = [], []
    for line, answer in replayed():
        parts["row" not in parts_of(line)[0]].append((f"{line}\n", f"{answer}\n"))
    return parts


def key_proofs(listed):
    """The proofs about keys of the MMR with chunks of one byte over SHA-512, and what they claim."""
    heads = f"{OTHER_HASH} golden_keys mmr 1 "
    rows = [line.removeprefix(heads).split() for line, _ in listed if line.startswith(heads)]
    claims = {proof: value for _, _, value, proof in rows}
    return [("absence" if value == "absent" else "value", bytes.fromhex(proof)) for proof, value in claims.items()]


def with_made(pairs, listed):
    """The worked cases and their answers, with those that are made from the definitions."""
    kept = [it for it in pairs if not is_made(it[0])]
    if wrong := wrong_worked(kept):
        raise Wrong(f"not the answer of the definitions: {wrong[:100]}")
    made = lines_made([it[0] for it in kept], key_proofs(listed), described()["lists"].keys())
    rows = {row: [*cases] for row, cases in itertools.groupby(kept, lambda it: it[0].partition(":")[0])}
    order = [*rows]
    for row in made.keys() - rows.keys():
        # a new row stands at its place by the alphabet
        order.insert(next((place for place, it in enumerate(order) if it > row), len(order)), row)
    return [it for row in order for it in [*rows.get(row, []), *made.get(row, [])]]


def listed_in(folder):
    """The lines of a folder's lists, and their answers."""
    names = described()["lists"].keys()
    for hash, before in (("sha256", []), (OTHER_HASH, [OTHER_HASH])):
        for name, columns, answers in cases(Lists(folder, hash)):
            if name in names:
                yield " ".join([*before, name, *columns]) + "\n", " ".join(answers) + "\n"


def make_replay(folder=None):
    """Makes the lines of `replay` and their answers."""
    worked, listed = worked_and_listed()
    listed = [*listed_in(folder)] if folder else listed
    pairs = [*with_made(worked, listed), *listed]
    (REPLAY / "stdin").write_text("".join(line for line, _ in pairs))
    (REPLAY / "stdout").write_text("".join(answer for _, answer in pairs))


COMMANDS = {"json": (make_json, 0, 1), "check": (check, 0, 1), "replay": (make_replay, 0, 1)}


def main():
    command, *words = sys.argv[1:] or [""]
    call, least, most = COMMANDS.get(command, (None, 0, 0))
    if call is None or not least <= len(words) <= most:
        sys.exit("usage: tools/cases.py json [FOLDER] | check [PROGRAM] | replay [LISTS]")
    try:
        return call(*(pathlib.Path(it).resolve() for it in words))
    except Wrong as wrong:
        sys.exit(str(wrong))


if __name__ == "__main__":
    sys.exit(main())
