"""What is seen from outside: JSON that another program parses, colours and the progress line on a terminal.

    outside.py PROGRAM CAPTURES FOLDER

Runs PROGRAM over the recorded sessions of CAPTURES, and over a cut one and a long one that it makes below FOLDER.
"""
import json
import os
import pty
import select
import subprocess
import sys
from pathlib import Path

program, captures, folder = sys.argv[1], Path(sys.argv[2]), Path(sys.argv[3])
LAST = 0x616C7473


def numbers(*values):
    return b"".join(value.to_bytes(8, "little") for value in values)


def on_terminal(arguments, environment=None, stdout=None):
    """What the program writes to a terminal; where stdout is given, its standard output goes there."""
    ours, theirs = pty.openpty()
    variables = {key: value for key, value in os.environ.items() if key != "NO_COLOR"}
    variables.update({"TERM": "xterm"}, **(environment or {}))
    run = subprocess.Popen([program, *arguments], env=variables, stdin=theirs, stdout=stdout or theirs, stderr=theirs)
    os.close(theirs)
    written = b""
    while True:
        select.select([ours], [], [])
        try:
            part = os.read(ours, 65536)
        except OSError:  # the other side is closed
            break
        if not part:
            break
        written += part
    os.close(ours)
    return run.wait(), written


def recording(name, client, daemon):
    """A recording of these bytes."""
    session = folder / name
    session.mkdir(parents=True, exist_ok=True)
    (session / "client.bin").write_bytes(client)
    (session / "daemon.bin").write_bytes(daemon)
    return session


def cut_recording():
    """A recording whose daemon says nothing after the handshake."""
    whole = captures / "n28-build-0"
    return recording("cut", (whole / "client.bin").read_bytes(), (whole / "daemon.bin").read_bytes()[:40])


def sessions_as_json():
    """Each recorded session, and a cut one, with its options, its exit status and its objects."""
    recorded = sorted(path for path in captures.iterdir() if path.is_dir())
    for session in [*recorded, cut_recording()]:
        for options in (["--json"], ["--json", "--summary"], ["--json", "--ported"]):
            run = subprocess.run([program, *options, str(session)], capture_output=True, check=False)
            yield session, options, run.returncode, [json.loads(line) for line in run.stdout.splitlines()]


def json_parses():
    count, ends = 0, set()
    for session, options, status, events in sessions_as_json():
        last = events[-1]["event"]
        assert {"end": 0, "refusal": 1, "unfollowed": 3, "unended": 4}[last] == status, (session, last, status)
        ends.add(last)
        kinds = [event["event"] for event in events[:-1]]
        if "--summary" in options:
            assert kinds == ["summary"], (session, kinds)
        elif kinds:
            assert kinds == ["handshake"] + ["call"] * (len(kinds) - 1), (session, kinds)
        count += len(events)
    assert len(ends) == 4, ends
    return f"{count} lines of JSON parse"


def colours_on_a_terminal_only():
    session = str(captures / "n28-fail-0")
    _, coloured = on_terminal([session])
    assert b"\x1b[1mcall 1" in coloured and b"\x1b[1;31m" in coloured
    for environment in ({"NO_COLOR": "1"}, {"TERM": "dumb"}):
        _, plain = on_terminal([session], environment)
        assert b"\x1b" not in plain and b"call 1" in plain
    piped = subprocess.run([program, session], capture_output=True, check=False)
    assert b"\x1b" not in piped.stdout + piped.stderr
    return "colours on a terminal only, and not with NO_COLOR"


def long_recording(calls):
    """A recording of calls of SyncWithGC, which has no arguments and a number for reply."""
    handshake = captures / "n28-build-0"
    client, daemon = (handshake / "client.bin").read_bytes()[:32], (handshake / "daemon.bin").read_bytes()[:40]
    return recording("long", client + numbers(13) * calls, daemon + numbers(LAST, 1) * calls)


def progress_on_a_terminal_only():
    calls = 100_000
    while True:
        session = long_recording(calls)
        status, line = on_terminal(["--json", str(session)], stdout=subprocess.DEVNULL)
        assert status == 0
        if line or calls > 10_000_000:
            break
        calls *= 2  # too quick for a line
    assert b"% of " in line and line.endswith(b"\r\x1b[K"), line[-100:]
    piped = subprocess.run([program, "--summary", str(session)], capture_output=True, check=True)
    assert not piped.stderr
    for file in session.iterdir():
        file.unlink()
    session.rmdir()
    return f"a progress line over {calls} calls, on a terminal only"


def names_in(value):
    if isinstance(value, dict):
        for name, part in value.items():
            yield name
            yield from names_in(part)
    if isinstance(value, list):
        for part in value:
            yield from names_in(part)


def names_are_documented():
    document = (Path(__file__).parents[3] / "docs/SHOW.md").read_text(encoding="utf-8")
    names = {name for *_, events in sessions_as_json() for name in names_in(events)}
    missing = sorted(name for name in names if f"`{name}`" not in document)
    assert not missing, missing
    return f"docs/SHOW.md has all of {len(names)} names"


for test in (json_parses, names_are_documented, colours_on_a_terminal_only, progress_on_a_terminal_only):
    print(test())
