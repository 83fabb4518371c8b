"""A provider: it keeps the inputs of each thing as a file in a folder, under an id of its own.

The engine starts it by its words, the last of which is the folder, and talks with it over standard input and output.
"""

import json
import pathlib
import sys
import uuid

FOLDER = pathlib.Path(sys.argv[-1])


def save(id, inputs):
    new = FOLDER / (id + ".new")
    new.write_text(json.dumps(inputs))
    new.rename(FOLDER / id)


def reply(call, ask):
    inputs, id = ask.get("inputs"), ask.get("id")
    if call in ("check_config", "check"):
        return {"ok": {"inputs": inputs}}
    if call == "diff":
        return {"ok": {"changes": "none" if inputs == ask["old_inputs"] else "some"}}
    if call == "create":
        id = uuid.uuid4().hex
        save(id, inputs)
        return {"ok": {"id": id, "outputs": inputs}}
    if call == "update":
        save(id, inputs)
        return {"ok": {"outputs": inputs}}
    if call == "delete":
        (FOLDER / id).unlink(missing_ok=True)
    if call == "read":
        if not id or not (FOLDER / id).exists():
            return {"gone": True}
        inputs = json.loads((FOLDER / id).read_text())
        return {"ok": {"id": id, "inputs": inputs, "outputs": inputs}}
    return {"error": "no such function"} if call == "invoke" else {"ok": {}}


if __name__ == "__main__":
    FOLDER.mkdir(exist_ok=True)
    while length := sys.stdin.buffer.read(4):
        ask = json.loads(sys.stdin.buffer.read(int.from_bytes(length, "big")))
        body = json.dumps({"n": ask["n"], **reply(ask["call"], ask)}).encode()
        sys.stdout.buffer.write(len(body).to_bytes(4, "big") + body)
        sys.stdout.buffer.flush()
