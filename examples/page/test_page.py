#!/usr/bin/env python3
"""Tests the page that checks proofs, in a browser, with the module that the script `wasm` beside it makes.

    examples/page/test_page.py [--built TREE] [--kept FOLDER] [--module FILE] [--checks N] [--screenshot FILE]

The module is made over the libraries of this tree, or of TREE, or of what crates/light_c/tests/interface.py kept in FOLDER, unless a FILE is given.
Each of these is a part:

1. The module imports nothing, and has the functions of include/gawerunoa.h, its memory and those that hand it out.
2. A person fills in the example, which is that of examples/data, and is told yes, with the path drawn as docs/FORMAT.md has it; the same
   of the value of a key and of an absence.
3. A person is told no for another byte of the proof; what is no hexadecimal text, no number or no root is not asked, and named.
4. Files fill in the fields: JSON, a proof as bytes, and a proof in hexadecimal.
5. Each byte of a proof stands in one field, and a box that is pointed at lights the fields that it is from, as docs/FORMAT.md has them.
6. A link carries the question: who follows it is told the same.
7. The cases of the lists `program_checks`, `key_values` and `exclusions` of `replay` are answered in the page as they say, and a path is
   drawn of each proof that is answered yes. With any bit of the example's proof turned the answer is no.
8. N checks in one page, by default 100,000, leave nothing in the module's memory, which does not grow, nor does that of the page.
9. A check that asks for more memory than there is, or that is cut off, has no answer, and the next one has.
10. With no network, and then with no server either, the page that is there goes on.
11. The page told of no error.
12. A browser without wasm64 is told so in plain words.

With --screenshot FILE the page is left as a picture, with a yes. A part that fails says why. The last line is 'N passed, M failed'; the
status is 0 where none failed, and 77 where there is no Chromium. Chromium is asked over the DevTools protocol, through pipes.
"""
import argparse
import base64
import contextlib
import functools
import http.server
import json
import os
import pathlib
import re
import shutil
import subprocess
import sys
import tempfile
import threading

HERE = pathlib.Path(__file__).resolve().parent
ROOT = HERE.parent.parent
sys.path += [str(ROOT / "tools"), str(ROOT / "crates/light_c/tests")]

from cases import cases_of
from interface import FAMILIES, hash_of, is_whole, strings_of

HEADER = ROOT / "include/gawerunoa.h"
DATA = ROOT / "examples/data"
NOT_RUN = 77
BROWSERS = ["chromium", "chromium-browser", "google-chrome"]
ENCODINGS = {"ordered-fixed": "fixed", "ordered-variable": "sized"}
# what the page's files are, and where its package is
FILES = ["index.html", "page.css", "page.js", "path.js"]
PACKAGE = ROOT / "packages/javascript/gawerunoa.js"
SLACK = 1 << 20

# Keeps the exports of each module that the page loads.
WATCH = """
window.modules = [];
const instantiate = WebAssembly.instantiate;
WebAssembly.instantiate = async (...given) => {
  const made = await instantiate(...given);
  window.modules.push(made.exports);
  return made;
};
"""
# A browser without wasm64 takes no module with such a memory.
WITHOUT = "WebAssembly.validate = () => false;"

# What a person does: fills in fields, presses a button, and reads.
HELPERS = """
const field = (name) => document.querySelector(`[name=${name}]`);
const until = async (isSo) => { while (!isSo()) await new Promise((done) => setTimeout(done, 5)); };
const fill = (named) => Object.entries(named).forEach(([name, value]) => {
  field(name).value = value;
  field(name).dispatchEvent(new Event("input", { bubbles: true }));
});
const values = () => Object.fromEntries(new FormData(document.querySelector("form")));
const press = async () => {
  document.querySelector("button[type=submit]").click();
  await until(() => !document.getElementById("answer").hidden);
};
const said = () => ({
  title: document.querySelector("#answer h2").textContent,
  text: document.querySelector("#answer p").textContent,
  wrong: [...document.querySelectorAll("[aria-invalid=true]")].map((it) => it.name),
  boxes: [...document.querySelectorAll("#drawing g")].map((it) => {
    const side = Object.keys(COLUMNS).find((column) => it.querySelector("text").getAttribute("x") === String(COLUMNS[column]));
    return [side, ...[...it.querySelectorAll("text")].map((line) => line.textContent)];
  }),
});
const bytes = (text) => Uint8Array.from(text.match(/../g) ?? [], (it) => parseInt(it, 16));
const exampleOf = (claim) => {
  fill({ claim });
  document.getElementById("example").click();
};
const lit = (selector) => [...document.querySelectorAll(`#path ${selector}.lit`)].map((it) => it.textContent);
"""


class Browser:
    """A browser with one page, asked by messages."""

    def __init__(self, program, folder):
        down, self.into = os.pipe()
        self.out, up = os.pipe()
        flags = ["--headless=new", "--no-sandbox", "--disable-gpu", "--remote-debugging-pipe", f"--user-data-dir={folder}"]
        # the browser reads from 3 and writes to 4
        command = ["bash", "-c", f'exec "$@" 3<&{down} 4>&{up}', "bash", program, *flags, "about:blank"]
        quiet = {"stdin": subprocess.DEVNULL, "stdout": subprocess.DEVNULL, "stderr": subprocess.DEVNULL}
        self.process = subprocess.Popen(command, pass_fds=(down, up), **quiet)
        os.close(down)
        os.close(up)
        self.rest, self.number, self.errors, self.session = b"", 0, [], None
        pages = [it for it in self.ask("Target.getTargets")["targetInfos"] if it["type"] == "page"]
        self.session = self.ask("Target.attachToTarget", targetId=pages[0]["targetId"], flatten=True)["sessionId"]
        for it in ("Runtime", "Log", "Page"):
            self.ask(f"{it}.enable")

    def read(self):
        while b"\0" not in self.rest:
            got = os.read(self.out, 1 << 20)
            if not got:
                raise SystemExit("page: the browser ended")
            self.rest += got
        message, _, self.rest = self.rest.partition(b"\0")
        return json.loads(message)

    def ask(self, method, **params):
        """What the browser answers; errors that it tells of meanwhile are kept."""
        self.number += 1
        message = {"id": self.number, "method": method, "params": params}
        message |= {"sessionId": self.session} if self.session else {}
        text = json.dumps(message).encode() + b"\0"
        while text:
            text = text[os.write(self.into, text):]
        while (it := self.read()).get("id") != self.number:
            is_error = it.get("method") == "Log.entryAdded" and it["params"]["entry"]["level"] == "error"
            if is_error or it.get("method") == "Runtime.exceptionThrown":
                self.errors.append(json.dumps(it["params"])[:500])
        if "error" in it:
            raise AssertionError(f"{method}: {it['error']}")
        return it["result"]

    def run(self, code, *given):
        """What an asynchronous function answers in the page."""
        words = ", ".join(map(json.dumps, given))
        expression = f"(async (...given) => {{ {HELPERS}\n{code} }})({words})"
        said = self.ask("Runtime.evaluate", expression=expression, awaitPromise=True, returnByValue=True)
        if "exceptionDetails" in said:
            raise AssertionError(f"in the page: {json.dumps(said['exceptionDetails'])[:1000]}")
        return said["result"].get("value")

    def open(self, address):
        self.ask("Page.navigate", url=address)
        self.run('await until(() => document.readyState === "complete"); return 0;')

    def close(self):
        with contextlib.suppress(SystemExit):
            self.ask("Browser.close")
        self.process.wait(30)


class Quiet(http.server.SimpleHTTPRequestHandler):
    def log_message(self, *words):
        pass


@contextlib.contextmanager
def served(folder):
    """The address of a folder."""
    server = http.server.ThreadingHTTPServer(("127.0.0.1", 0), functools.partial(Quiet, directory=folder))
    threading.Thread(target=server.serve_forever, daemon=True).start()
    try:
        yield f"http://127.0.0.1:{server.server_port}/"
    finally:
        server.shutdown()
        server.server_close()


def same(what, first, second):
    if first != second:
        raise AssertionError(f"{what}: {first} and {second}")


def pressed(page, **named):
    """What a person is told who fills in these fields over the example."""
    claim = named.pop("claim", "operation")
    return page.run("exampleOf(given[0]); fill(given[1]); await press(); return said();", claim, named)


def names(page):
    code = """
    const module = await WebAssembly.compile(await (await fetch("gawerunoa.wasm")).arrayBuffer());
    return [WebAssembly.Module.imports(module), WebAssembly.Module.exports(module).map((it) => it.name).sort()];
    """
    declared = re.findall(r"^(?:u?int32_t |const char \*)(gawerunoa_\w+)\(", HEADER.read_text(), re.M)
    rooms = ["gawerunoa_blocks", "gawerunoa_give_back", "gawerunoa_room", "memory"]
    same("imports and exports", page.run(code), [[], sorted([*declared, *rooms])])


def yes(page):
    said = pressed(page)
    same("the answer", said["title"], "Yes")
    fields = page.run("return values();")
    for name in ("root", "operation", "proof"):
        same(f"the example's {name}", bytes.fromhex(fields[name]), (DATA / f"{name}.bin").read_bytes())
    # docs/FORMAT.md takes this proof apart: from the root down, each made box and then what stands beside it
    wanted = [
        ["middle", "root", "157b0c513ca1eb20…"], ["left", "operations root", "e1df8e614a251250…"],
        ["middle", "grafted root"], ["left", "leaves: 8", "inactive peaks: 0"],
        ["middle", "node with its chunk", "locations 0 to 7"], ["left", "chunk 0", "bit 3 is set"],
        ["middle", "node of height 3", "locations 0 to 7"], ["right", "locations 4 to 7", "11f04e94983e1a14…"],
        ["middle", "node of height 2", "locations 0 to 3"], ["left", "locations 0 to 1", "1418e156d167cd87…"],
        ["middle", "node of height 1", "locations 2 to 3"], ["left", "location 2", "8c3e97d7af8150dd…"],
        ["middle", "leaf", "location 3"], ["middle", "operation", "d200000006000000…"],
    ]
    same("the drawing", said["boxes"], wanted)
    value = pressed(page, claim="value")
    beside = ["right", "next key", "00000008"]
    of_key = ["middle", "key 00000006", "0000000000000003"]
    same("the drawing of a value", (value["title"], value["boxes"]), ("Yes", [*wanted[:12], wanted[12], beside, of_key]))
    absence = pressed(page, claim="absence")
    update = ["middle", "update that spans the key", "0000000600000000…"]
    same("the drawing of an absence", (absence["title"], absence["boxes"]), ("Yes", [*wanted[:13], update, ["middle", "key", "00000007"]]))
    for claim, name, other in (("value", "value", "0000000000000004"), ("value", "key", "00000005"), ("absence", "key", "00000006")):
        same(f"another {name}", pressed(page, claim=claim, **{name: other})["title"], "No")


def no(page):
    proof = (DATA / "proof.bin").read_bytes()
    altered = proof[:-1] + bytes([proof[-1] ^ 1])
    said = pressed(page, proof=altered.hex())
    same("another byte of the proof", (said["title"], len(said["boxes"])), ("No", 14))
    same("another location", pressed(page, location="4")["title"], "No")
    same("a proof of no bytes", pressed(page, proof="")["boxes"], [])
    texts = [("proof", "03 0g"), ("proof", "030"), ("operation", "d2 zz"), ("root", "no root")]
    for name, text in [*texts, ("location", "-1"), ("location", str(2**64)), ("chunk", "")]:
        said = pressed(page, **{name: text})
        same(f"{name}: {text!r}", (said["title"], said["wrong"], said["boxes"]), ("Not asked", [name], []))
    said = pressed(page, root="00" * 31)
    same("a root of 31 bytes", (said["title"], "another length than a digest" in said["text"]), ("No answer", True))
    said = pressed(page, claim="value", key="000006")
    same("a key of 3 bytes", (said["title"], "4, 8, 20 or 32" in said["text"]), ("No answer", True))
    said = pressed(page, claim="absence", keys="strings")
    same("fixed values and strings", (said["title"], said["wrong"]), ("Not asked", ["values"]))
    said = pressed(page, claim="absence", size="x")
    same("no size", (said["title"], said["wrong"]), ("Not asked", ["size"]))
    pressed(page)
    is_hidden = page.run('fill({ location: "5" }); return document.getElementById("answer").hidden;')
    same("an answer to other fields is hidden", is_hidden, True)


DROP = """
const data = new DataTransfer();
data.items.add(new File([bytes(given[0])], "dropped"));
document.body.dispatchEvent(new DragEvent("drop", { dataTransfer: data, bubbles: true, cancelable: true }));
await until(() => field("proof").value === given[1]);
await press();
return said().title;
"""


def files(page, folder):
    case = next(it["in"] for it in cases_of("program_checks") if it["out"] == "yes" and it["in"]["family"] == "mmb")
    same("JSON", page.run(DROP, json.dumps(case).encode().hex(), case["proof"]), "Yes")
    proof = (DATA / "proof.bin").read_bytes()
    page.run('document.getElementById("example").click(); return 0;')
    for name, content in [("bytes", proof), ("hexadecimal", proof.hex().encode() + b"\n")]:
        page.run('field("proof").value = ""; return 0;')
        same(f"a proof, {name}", page.run(DROP, content.hex(), proof.hex()), "Yes")
    chosen = folder / "chosen"
    chosen.write_bytes(proof)
    file = page.ask("Runtime.evaluate", expression='document.getElementById("file")')["result"]["objectId"]
    page.run('field("proof").value = ""; return 0;')
    page.ask("DOM.setFileInputFiles", files=[str(chosen)], objectId=file)
    same("a chosen file", page.run('await until(() => field("proof").value !== ""); await press(); return said().title;'), "Yes")


ASKED = """
const [library, checks] = await Promise.all([packaged, loading]);
return given[0].map((it) => {
  const question = { ...it, chunk: BigInt(it.chunk), location: BigInt(it.location ?? 0) };
  if ("size" in it) question.size = BigInt(it.size);
  for (const name of ["proof", "operation", "key", "value", "root"]) if (name in it) question[name] = bytes(it[name]);
  const isYes = answerTo(checks, library, question);
  return [isYes, isYes ? stepsOf(question).length : 0];
});
"""

TURNED = """
const [library, checks] = await Promise.all([packaged, loading]);
const question = questionIn(document.querySelector("form").elements);
return Array.from({ length: 8 * question.proof.length }, (_, bit) => {
  const proof = question.proof.slice();
  proof[bit >> 3] ^= 1 << (bit & 7);
  return answerTo(checks, library, { ...question, proof });
});
"""


def asked(claim, it):
    """What the page is asked of a case. Of keys and values of any length the page has no bounds."""
    case = it["in"]
    given = {**case, "claim": claim, "family": FAMILIES[case["family"]], "hash": hash_of(it)}
    if claim != "operation":
        shape, key, value = case["type"].split("/")
        given |= {"keys": "strings" if key.startswith("vec:") else "one size"} | strings_of(case)
        given |= {"values": "variable"} if value.startswith("vec:") else {"values": ENCODINGS[shape], "size": 8}
    return given


def answers(page):
    for claim, name in {"operation": "program_checks", "value": "key_values", "absence": "exclusions"}.items():
        cases = [it for it in cases_of(name) if claim == "operation" or is_whole(it["in"])]
        # a no may be for a bound alone
        cases = [it for it in cases if it["out"] == "yes" or "vec:" not in it["in"].get("type", "")]
        for case, (answer, steps) in zip(cases, page.run(ASKED, [asked(claim, it) for it in cases]), strict=True):
            same(case["comment"], answer, case["out"] == "yes")
            same(f"{case['comment']}: a path", steps > 0, answer)
        print(f"page: {name}: {len(cases)} cases answered in the page", flush=True)
    for claim in ("operation", "value", "absence"):
        pressed(page, claim=claim)
        same(f"each bit of the example's proof turned, {claim}", set(page.run(TURNED)), {False})


def fields(page):
    """The bytes field by field, and what a box lights."""
    pressed(page, claim="absence")
    told = page.run('return [...document.querySelectorAll(".field")].map((it) => [it.dataset.name, it.textContent]);')
    same("the bytes of all fields", "".join(it[1] for it in told), page.run("return values().proof;"))
    names = [it[0].partition(":")[0] for it in told]
    digests = [f"digest {number} of 3" for number in (1, 2, 3)]
    counted = ["tag", "location", "chunk", "leaves", "inactive peaks", "number of digests", *digests]
    same("the fields", names, [*counted, "whether there is a partial chunk's digest", "operations root", "update"])
    point = """
    const box = [...document.querySelectorAll("#drawing g")].find((it) => it.textContent.startsWith(given[0]));
    box.dispatchEvent(new PointerEvent("pointerover", { bubbles: true }));
    return [lit("g").length, lit(".field").join(" "), document.getElementById("named").textContent];
    """
    leaves = "leaves: byte 3 of 216; inactive peaks: byte 4 of 216"
    pointed = page.run(point, "leaves")
    same("the box of the counts", (pointed[0], pointed[1], pointed[2].count(": byte")), (1, "08 00", leaves.count(": byte")))
    same("the box of the update", page.run(point, "update that spans")[1], told[-1][1])
    same("the box of a digest", page.run(point, "location 2")[2].partition(":")[0], "digest 2 of 3")
    back = """
    document.querySelectorAll(".field")[given[0]].dispatchEvent(new FocusEvent("focusin", { bubbles: true }));
    return lit("g");
    """
    same("the bytes of the operations root", page.run(back, 10), ["operations roote1df8e614a251250…"])
    same("bytes of no box", page.run(back, 5), [])


def link(page):
    for claim in ("operation", "value", "absence"):
        pressed(page, claim=claim)
        address = page.run('return document.getElementById("link").href;')
        page.open("about:blank")
        page.open(address)
        asked = page.run('await until(() => !document.getElementById("answer").hidden); return [said().title, values().claim];')
        same(f"a link, {claim}", asked, ["Yes", claim])
    other = address.replace("key=00000007", "key=00000006")
    page.run('location.href = given[0]; await until(() => field("key").value === "00000006"); return 0;', other)
    same("another link", page.run('await until(() => !document.getElementById("answer").hidden); return said().title;'), "No")


MANY = """
const [library, checks] = await Promise.all([packaged, loading]);
const question = questionIn(document.querySelector("form").elements);
const other = { ...question, proof: question.proof.map((it, place) => (place === question.proof.length - 1 ? it ^ 1 : it)) };
const counts = {};
for (let number = 0; number < given[0]; number += 1) {
  const answer = answerTo(checks, library, number % 2 ? other : question);
  counts[answer] = (counts[answer] ?? 0) + 1;
  if (number % 1000 === 0) await new Promise((done) => setTimeout(done));
}
const exports = modules.at(-1);
return [counts, exports.memory.buffer.byteLength, String(exports.gawerunoa_blocks())];
"""


def used(page):
    """The bytes that the page's script holds, and how many nodes the document has."""
    page.ask("HeapProfiler.collectGarbage")
    return page.ask("Runtime.getHeapUsage")["usedSize"], page.ask("Memory.getDOMCounters")["nodes"]


def many(page, checks):
    press = "for (let number = 0; number < given[0]; number += 1) await press(); return said().title;"
    pressed(page)
    page.run(press, 20)
    _, size, _ = page.run(MANY, 1000)
    held, nodes = used(page)
    counts, after, blocks = page.run(MANY, checks)
    same("the answers", counts, {"false": checks // 2, "true": checks - checks // 2})
    same("the module's memory", after, size)
    same("blocks that are not given back", blocks, "0")
    same("pressed many times", page.run(press, 200), "Yes")
    held_after, nodes_after = used(page)
    print(f"page: {checks} checks: the module has {after} bytes as before, the page's script {held} and then {held_after}", flush=True)
    if held_after > held + SLACK or nodes_after > nodes + 100:
        raise AssertionError(f"the page grew: {held} bytes and {nodes} nodes, then {held_after} and {nodes_after}")


LACK = """
const [library, checks] = await Promise.all([packaged, loading]);
const question = questionIn(document.querySelector("form").elements);
const ask = (proof) => {
  try {
    return answerTo(checks, library, { ...question, proof });
  } catch (error) {
    return error.name;
  }
};
const answers = [new Uint8Array(given[0]), question.proof].map(ask);
const exports = modules.at(-1);
const rooms = [2n ** 64n - 1n, 2n ** 63n, 64n << 20n].map((size) => String(exports.gawerunoa_room(size)));
return [...answers, ...rooms, String(exports.gawerunoa_blocks())];
"""


CUT_OFF = """
const checks = await loading;
checks.checkOperation = () => { throw new WebAssembly.RuntimeError("unreachable"); };
await press();
const { title } = said();
await press();
return [title, said().title, (await loading) === checks];
"""


def lack(page):
    pressed(page)
    same("without memory, and then with it", page.run(LACK, 70 << 20), ["OutOfMemory", True, "0", "0", "0", "0"])
    same("cut off, and then not", page.run(CUT_OFF), ["No answer", "Yes", False])


def offline(page, stop):
    """With no network, and then with no server either."""
    page.ask("Network.enable")
    page.ask("Network.emulateNetworkConditions", offline=True, latency=0, downloadThroughput=-1, uploadThroughput=-1)
    for claim in ("operation", "value", "absence"):
        same(f"{claim}, with no network", pressed(page, claim=claim)["title"], "Yes")
    stop()
    pressed(page)
    same("cut off with no server, and then not", page.run(CUT_OFF), ["No answer", "Yes", False])
    page.ask("Network.emulateNetworkConditions", offline=False, latency=0, downloadThroughput=-1, uploadThroughput=-1)


def old_browser(page, address):
    page.ask("Page.addScriptToEvaluateOnNewDocument", source=WITHOUT)
    page.open(address)
    notice = page.run('const it = document.getElementById("lack"); return [it.hidden, it.textContent];')
    same("a browser without wasm64 is told so", (notice[0], "cannot run the check" in notice[1]), (False, True))
    said = pressed(page)
    same("and on pressing the button", (said["title"], "64-bit memory" in said["text"], said["boxes"]), ("No answer", True, []))


def quiet(page):
    same("errors", page.errors, [])


def picture(page, file):
    pressed(page, claim="value")
    page.run('document.querySelectorAll(".field")[7].focus(); return 0;')
    page.ask("Emulation.setDeviceMetricsOverride", width=1000, height=1000, deviceScaleFactor=1, mobile=False)
    data = page.ask("Page.captureScreenshot", captureBeyondViewport=True)["data"]
    file.write_bytes(base64.b64decode(data))


def main():
    words = argparse.ArgumentParser(usage="test_page.py [--built TREE] [--kept FOLDER] [--module FILE] [--checks N] [--screenshot FILE]")
    words.add_argument("--built", type=pathlib.Path, default=ROOT)
    words.add_argument("--kept", type=pathlib.Path)
    words.add_argument("--module", type=pathlib.Path)
    words.add_argument("--checks", type=int, default=100_000)
    words.add_argument("--screenshot", type=pathlib.Path)
    given = words.parse_args()
    program = next(filter(None, map(shutil.which, BROWSERS)), None)
    if program is None:
        print("page: there is no Chromium: not run")
        return NOT_RUN
    failed = 0
    with tempfile.TemporaryDirectory() as work:
        folder = pathlib.Path(work)
        site = folder / "page"
        site.mkdir()
        for it in [*(HERE / it for it in FILES), PACKAGE]:
            shutil.copy(it, site)
        if given.module:
            shutil.copy(given.module, site / "gawerunoa.wasm")
        else:
            kept = ["--kept", given.kept] if given.kept else []
            subprocess.run([HERE / "wasm", site, "--built", given.built, *kept], check=True)
        with contextlib.ExitStack() as server, contextlib.closing(Browser(program, folder / "profile")) as page:
            address = server.enter_context(served(site))
            again = contextlib.ExitStack()
            parts = [
                ("the module", names),
                ("a yes", yes),
                ("a no, and what is not asked", no),
                ("files", lambda page: files(page, folder)),
                ("the bytes field by field", fields),
                ("a link", link),
                ("the cases of three lists", answers),
                ("many checks", lambda page: many(page, given.checks)),
                ("no memory, and a check that is cut off", lack),
                ("no network", lambda page: offline(page, server.close)),
                ("no errors", quiet),
                ("no wasm64", lambda page: old_browser(page, again.enter_context(served(site)))),
            ]
            if given.screenshot:
                parts.insert(2, ("a picture", lambda page: picture(page, given.screenshot)))
            page.ask("Page.addScriptToEvaluateOnNewDocument", source=WATCH)
            page.open(address)
            for name, part in parts:
                try:
                    part(page)
                    print(f"page: {name}: passed", flush=True)
                except AssertionError as error:
                    failed += 1
                    print(f"page: {name}: failed: {error}", flush=True)
            again.close()
    print(f"{len(parts) - failed} passed, {failed} failed")
    return int(failed > 0)


if __name__ == "__main__":
    sys.exit(main())
