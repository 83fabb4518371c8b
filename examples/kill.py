"""Kills the program at random moments and looks at what is left: `kill.py PROGRAM [TIMES]`.

Each time a run of 200 components begins with no checkpoint. Of what it leaves, `state check` has to say that it is
sound, with as many resources as the file has and nothing pending.
"""

import json
import os
import random
import subprocess
import sys
import tempfile
import time

COMPONENTS = 200
MANY = os.path.join(os.path.dirname(os.path.abspath(__file__)), "many.py")


def start(program, folder):
    host = [sys.executable, "-B", MANY, str(COMPONENTS)]
    words = [program, "up", "--stack", "dev", "--project", "web", "--", *host]
    return subprocess.Popen(words, cwd=folder, stderr=subprocess.DEVNULL)


def resources(program, folder):
    """How many resources the checkpoint has, which has to be sound; none where there is no file."""
    path = os.path.join(folder, "checkpoint.json")
    if not os.path.exists(path):
        return None
    checked = subprocess.run([program, "state", "check"], cwd=folder, capture_output=True, text=True)
    with open(path, encoding="utf-8") as file:
        number = len(json.load(file)["checkpoint"]["latest"]["resources"])
    assert (checked.returncode, checked.stdout) == (0, f"sound: {number} resources, 0 pending\n"), checked
    return number


def killed(program, folder, moment):
    path = os.path.join(folder, "checkpoint.json")
    if os.path.exists(path):
        os.remove(path)
    run = start(program, folder)
    try:
        run.wait(moment)
    except subprocess.TimeoutExpired:
        run.kill()
    return run.wait(), resources(program, folder)


def main():
    program = os.path.abspath(sys.argv[1])
    times = int(sys.argv[2]) if len(sys.argv) > 2 else 100
    with tempfile.TemporaryDirectory() as folder:
        began = time.monotonic()
        status, whole = killed(program, folder, None)
        longest = time.monotonic() - began
        assert (status, whole) == (0, COMPONENTS + 1)
        left = [killed(program, folder, random.uniform(0, longest)) for _ in range(times)]
    found = [number for status, number in left if status != 0 and number is not None]
    ended = sum(status == 0 for status, _ in left)
    print(
        f"{times} runs: {ended} had ended; {times - ended - len(found)} killed before a checkpoint was there;"
        f" {len(found)} killed with a whole checkpoint of {min(found, default=0)} to {max(found, default=0)} resources"
    )


main()
