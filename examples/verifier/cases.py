"""Answers cases by the verifier: `cases.py CASES.json ..`, files that `tools/cases.py json` makes, or folders of them.

The cases are those on the checks of operations, ranges and keys. Each that the verifier answers otherwise is printed; the last line is
'N passed, M failed', of cases.
"""
import json
import sys
from pathlib import Path

from verifier import Database, Reader, be8, check_absence, check_operation, check_range, check_value, varint

# Lists of cases: the kind of proof, and the columns of what is claimed
LISTS = {"program_checks": ("operation", "operation", "location"), "operation_checks": ("operation", "operation"),
         "ranges_checks": ("range", "start", "operations", "chunks", "most"), "key_values": ("value", "key", "value"),
         "exclusions": ("absence", "key"), "golden_keys": ("value", "key", "value"), "both_chunks": ()}

def data(text):
    return bytes.fromhex(text.strip("-"))

def strings(texts):
    return [data(text) for text in (texts.split(",") if isinstance(texts, str) else texts) if text != "none"]

def with_leaves(db, proof, leaves):
    """An operation proof with another number of leaves."""
    reader = Reader(db, proof)
    _, _, start, _ = reader.varint(), reader.take(db.chunk_size), reader.at, reader.varint()
    return proof[:start] + varint(leaves) + proof[reader.at:]

def answer(name, case):
    """Whether the verifier accepts the proof of a case."""
    given = case["in"]
    kind, *columns = LISTS[name] or [given["kind"]]
    claim = [given[column] for column in columns] or given["claim"]
    db = Database(given["family"], case.get("hash", "sha256"), int(given["chunk"]),
                  *given.get("type", "ordered-fixed/fixed4/u64").split("/"))
    root, proof = data(given["root"]), data(given["proof"])
    if kind == "range":
        start, operations, chunks, *most = claim
        return check_range(db, root, proof, int(start), strings(operations), strings(chunks), *map(int, most))
    if kind == "operation":
        proof = with_leaves(db, proof, int(given["leaves"])) if given.get("leaves") else proof
        return check_operation(db, root, proof, data(claim[0]), *map(int, claim[1:]))
    if kind == "absence" or claim[1] == "absent":
        return check_absence(db, root, proof, data(claim[0]))
    return check_value(db, root, proof, data(claim[0]), data(claim[1]) if "type" in given else be8(int(claim[1])))

def main(paths):
    """Answer the cases of files and folders, and print those that are answered otherwise."""
    files = [file for path in map(Path, paths) for file in (sorted(path.glob("*.json")) if path.is_dir() else [path])]
    lists = [head for head in map(json.loads, map(Path.read_text, files)) if head.get("list") in LISTS]
    cases = [(head["list"], case) for head in lists for case in head["cases"]]
    differ = [(name, case) for name, case in cases if answer(name, case) != (case["out"] == "yes")]
    for name, case in differ:
        print(name, case["out"], case["comment"], json.dumps(case["in"])[:100])
    print(f"{len(cases) - len(differ)} passed, {len(differ)} failed")
    return int(not cases or bool(differ))

if __name__ == "__main__":
    sys.exit(main(sys.argv[1:]))
