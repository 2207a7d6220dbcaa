"""Runs the oracle and the program `replay` on lines."""
import os
import subprocess
import sys

ROOT = os.path.dirname(os.path.dirname(os.path.abspath(__file__)))
ORACLE = os.environ.get("ORACLE", os.path.join(ROOT, "target/oracle/target/release/oracle"))
REPLAY = os.environ.get("REPLAY", os.path.join(ROOT, "crates/replay/out/replay"))


def run(program, words, lines=()):
    """The lines that a program writes, given lines to read."""
    text = "".join(line + "\n" for line in lines)
    done = subprocess.run([program] + words, input=text.encode(), capture_output=True, check=False)
    if done.returncode != 0:
        sys.exit("%s ended with status %d\n%s" % (program, done.returncode, done.stderr.decode()))
    return done.stdout.decode().split("\n")[:-1]


def oracle(words, lines=()):
    if not os.path.exists(ORACLE):
        sys.exit(
            "no oracle at %s: build it from the top of the repository by\n"
            "    sh oracle/build.sh PLOTTERS\n"
            "where PLOTTERS is a folder with the sources of plotters 0.3.7 (oracle/README.md),\n"
            "or name the program in ORACLE" % ORACLE
        )
    return run(ORACLE, words, lines)


def replay(lines):
    if not os.path.exists(REPLAY):
        sys.exit("no replay at %s: `rt run` in crates/replay makes it" % REPLAY)
    return run(REPLAY, [], lines)
