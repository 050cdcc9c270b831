"""Asking the original: `tools/oracle/build`, then `target/oracle/oracle`."""

import pathlib
import resource
import subprocess
import sys

TOP = pathlib.Path(__file__).resolve().parents[2]
PROGRAM = TOP / "target" / "oracle" / "oracle"
MEMORY = 4 << 30  # a request that the original cannot hold must not take the machine


def build(source=None):
    """Builds the oracle, or ends this program with status 3 if it cannot be."""
    command = [str(TOP / "tools" / "oracle" / "build")] + ([source] if source else [])
    done = subprocess.run(command, check=False)
    if done.returncode:
        sys.exit(3 if done.returncode == 3 else 1)


def ask(mode, lines):
    """One answer for each of `lines`."""
    limit = lambda: resource.setrlimit(resource.RLIMIT_AS, (MEMORY, MEMORY))
    done = subprocess.run([str(PROGRAM), mode], input=b"\n".join(lines) + b"\n",
                          stdout=subprocess.PIPE, check=True, preexec_fn=limit)
    return done.stdout.split(b"\n")[:-1]


def ask_tokens(tokens):
    return ask("tokens", tokens) if tokens else []


def ask_rows(header, rows):
    return ask("requests", [header] + rows) if rows else []
