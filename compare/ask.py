"""Asks the oracle: for the requests of a seed, and for nix-wire's answer to each."""
import os
import resource
import subprocess

import build
import hold

# Above what any request inside the domain needs (a string of 256 MiB, twice), and small enough that a count outside it fails at once.
MEMORY = 1 << 30


def requests(oracle, seed, count, word="generate"):
    """Of ported mode; the same in published mode by the word `published`."""
    done = subprocess.run([oracle, word, str(seed), str(count)], stdout=subprocess.PIPE, check=True)
    return list(hold.requests(done.stdout))


def answers(oracle, asked):
    """A line for each. Where memory runs out, the count was outside the domain: that request is `out`, and the oracle starts again behind it."""
    limit = lambda: resource.setrlimit(resource.RLIMIT_AS, (MEMORY, MEMORY))
    quiet = {**os.environ, "RUST_BACKTRACE": "0"}
    lines = []
    while len(lines) < len(asked):
        rest = b"".join(q.raw for q in asked[len(lines):])
        done = subprocess.run([oracle, "answer"], input=rest, stdout=subprocess.PIPE, stderr=subprocess.PIPE, preexec_fn=limit, env=quiet)
        lines += done.stdout.decode().splitlines()
        if done.returncode != 0 and len(lines) < len(asked):
            if b"memory allocation of" not in done.stderr:
                raise build.Failed(f"the oracle ended with status {done.returncode} at request {len(lines)}: {done.stderr.decode()}")
            lines.append("out")
    return lines
