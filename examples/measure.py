"""Time and memory of runs over a file, beside a plain loop that replaces a file by texts of the same lengths:
`measure.py PROGRAM COUNT [COUNT ...]`.
"""

import json
import os
import subprocess
import sys
import tempfile
import time

HOST = ["sh", "-c", "cat many.frames & cat >/dev/null; wait"]


def frames(count):
    """The messages of a host that registers a stack and so many components less one below it."""
    root = "urn:pulumi:dev::web::pulumi:pulumi:Stack::web-dev"
    messages = [{"call": "register", "n": 1, "type": "pulumi:pulumi:Stack", "name": "web-dev"}]
    for n in range(2, count + 1):
        messages.append({"call": "register", "n": n, "type": "my:index:Page", "name": f"p{n}", "parent": root})
    bodies = [json.dumps(message).encode() for message in [*messages, {"call": "done"}]]
    return b"".join(len(body).to_bytes(4, "big") + body for body in bodies)


def run(program):
    """The seconds and the MiB that a run takes."""
    words = [program, "up", "--stack", "dev", "--project", "web", "--", *HOST]
    began = time.monotonic()
    started = subprocess.Popen(words, stderr=subprocess.DEVNULL)
    _, status, used = os.wait4(started.pid, 0)
    assert status == 0
    return time.monotonic() - began, used.ru_maxrss / 1024


def loop(content, count):
    """The seconds of a loop that replaces a file by longer and longer beginnings of the content."""
    began = time.monotonic()
    for n in range(1, count + 1):
        with open("plain.new", "wb") as file:
            file.write(content[: len(content) * n // count])
            file.flush()
            os.fsync(file.fileno())
        os.rename("plain.new", "plain")
        folder = os.open(".", os.O_RDONLY)
        os.fsync(folder)
        os.close(folder)
    return time.monotonic() - began


def main():
    program = os.path.abspath(sys.argv[1])
    for count in map(int, sys.argv[2:]):
        with tempfile.TemporaryDirectory(dir=".") as folder:
            os.chdir(folder)
            with open("many.frames", "wb") as file:
                file.write(frames(count))
            seconds, memory = run(program)
            with open("checkpoint.json", "rb") as file:
                content = file.read()
            plain = loop(content, count)
            os.chdir("..")
        print(f"{count}: {seconds:.2f} s, {memory:.0f} MiB, {len(content)} bytes; the loop {plain:.2f} s")


main()
