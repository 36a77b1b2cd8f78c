"""The strings that `gawerunoa inspect` says a check hashes, hashed here: the last one's digest must be the root. And the picture of their path."""
import json
import xml.etree.ElementTree

import definitions

SVG = "{http://www.w3.org/2000/svg}"


def path(program, snapshot, shows, proof, operation, behind=b""):
    """What is said of the own proof of an operation, or of one that shows more of it by what stands behind."""
    words = ["--family", snapshot.family.name, "--hash", snapshot.digests.name, "--chunk", str(snapshot.size), "--shows", shows]
    status, output, errors = program.ended(["inspect", *words, "--json", "--svg", "/dev/stdout", "-"], proof.hex())
    picture, end, lines = output.rpartition("</svg>\n")
    told = [json.loads(it) for it in lines.splitlines()]
    known = {"operation": operation, **pieces(it for it in told if "field" in it)}
    gives = {}
    for it in told:
        if "hashed" in it:
            parts = [value(part, known) for part in it["hashed"].split(" || ")]
            gives[it["gives"]] = known[f"string {it['string']}"] = snapshot.digests.of(*parts)
    slot = next((it for it in gives if it.endswith(", in its slot")), None)
    wanted = None if slot is None else known[slot.removesuffix(", in its slot")]
    given = [it for name, it in known.items() if name.startswith("digest ") or name.endswith(" chunk") or name == "operations root"]
    right = (0, "", snapshot.root.hex(), wanted, {shortened(it) for it in [*given, *filter(None, [behind])]})
    program.see(f"strings {words}", (status, errors, gives.get("root", b"").hex(), gives.get(slot), drawn(picture + end)), right)


def pieces(fields):
    """What a proof has, by the names that strings have for it."""
    known, digests = {}, 0
    for it in fields:
        digests += it["field"] == "digest"
        content = bytes.fromhex(it["bytes"])
        # a byte that says whether there is a digest stands before it, and one that says that there is none alone
        if it["field"].endswith(" chunk") and content in (b"\0", b"\1"):
            continue
        known[f"digest {digests}" if it["field"] == "digest" else it["field"]] = content
    return known


def value(part, known):
    if part.startswith("be8("):
        return definitions.be8(int(part[4:-1]))
    return known[part] if part in known else bytes.fromhex(part)


def shortened(content):
    return content.hex() if len(content) <= 8 else f"{content[:8].hex()}.."


def drawn(picture):
    """What of the proof is in the picture, which has one root and one claim."""
    tree = xml.etree.ElementTree.fromstring(picture)
    kinds = [it.get("class") for it in tree.iter(f"{SVG}rect")]
    if (kinds.count("trusted"), kinds.count("claimed")) != (1, 1):
        return f"{kinds} are drawn"
    texts = [it.text for it in tree.iter(f"{SVG}text") if it.get("class") == "digest"]
    return {it for it in texts if not it.startswith(("location", "inactive peaks", "bit "))}
