"""One run of the built program."""

import pathlib
import subprocess

ROOT = pathlib.Path(__file__).resolve().parent.parent
DATA = ROOT / "crates" / "pp_sessions" / "data"
# A run that takes longer has not ended, on a machine that does much else too.
SECONDS = 600
# The most that is shown of a text that differs.
SHOWN = 2000


def run(command, words, place, given=b"", **how):
    """Both outputs and the status, or what stands for them where the run does not end."""
    streams = {"stdout": subprocess.PIPE, "stderr": subprocess.PIPE, **how}
    if "stdin" not in streams:
        streams["input"] = given
    try:
        ended = subprocess.run(command + words, cwd=place, timeout=SECONDS, **streams)
    except subprocess.TimeoutExpired:
        return b"", b"", f"no end after {SECONDS} seconds"
    return ended.stdout, ended.stderr, ended.returncode
