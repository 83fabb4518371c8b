"""A language host: it registers a stack and a component below it, and shows each answer on standard error.

The engine starts it with `--stack STACK --project PROJECT` behind its own words.
"""

import json
import sys


def send(message):
    body = json.dumps(message).encode()
    sys.stdout.buffer.write(len(body).to_bytes(4, "big") + body)
    sys.stdout.buffer.flush()


def answer():
    length = int.from_bytes(sys.stdin.buffer.read(4), "big")
    body = sys.stdin.buffer.read(length).decode()
    print(body, file=sys.stderr)
    return json.loads(body)


def register(n, kind, name, parent=None):
    send({"call": "register", "n": n, "type": kind, "name": name, "parent": parent})
    told = answer()
    if "ok" not in told:
        sys.exit(told["error"])
    return told["ok"]["urn"]


def register_stack():
    stack, project = sys.argv[-3], sys.argv[-1]
    return register(1, "pulumi:pulumi:Stack", f"{project}-{stack}")


def finish():
    send({"call": "done"})
    sys.stdin.buffer.read()


if __name__ == "__main__":
    root = register_stack()
    register(2, "my:index:Site", "s", root)
    finish()
