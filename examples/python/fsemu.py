"""Scripts of requests, and their replies. Copy this file beside your tests; nothing else is needed.

`replay` is for a script that is known beforehand. `Emulator` is for code that needs a reply before it knows its next request."""
import base64
import json
import os
import pathlib
import subprocess

HERE = pathlib.Path(__file__).resolve().parent
PROGRAM = os.environ.get("FSEMU", HERE.parents[1] / "fsemu")
FAILED = pathlib.Path(os.environ.get("FSEMU_FAILED", HERE / "failed"))

DATABASE = "projects/demo/databases/(default)"
DOCUMENTS = f"{DATABASE}/documents"


def transaction(number):
    """The id of a transaction by its number, which is 8 bytes in base64: `AAAAAAAAAAE=` is 1."""
    return base64.b64encode(number.to_bytes(8, "big")).decode()


def script_of(lines):
    return "".join(json.dumps(line, separators=(",", ":")) + "\n" for line in lines)


def replay(lines, *options):
    """The replies to the lines of a script, as dictionaries."""
    ran = subprocess.run([PROGRAM, "replay", *options], input=script_of(lines), capture_output=True, text=True, check=True)
    return [json.loads(line) for line in ran.stdout.splitlines()]


def keep(name, lines, options=()):
    """Keeps a script as a file, and says how it is run again."""
    FAILED.mkdir(exist_ok=True)
    path = FAILED / f"{name}.jsonl"
    path.write_text(script_of(lines))
    return " ".join([f"{PROGRAM} replay", *options, f"< {path}"])


class Emulator:
    """A script that grows by a line at a time. All of it is replayed each time: the earlier lines have the same replies as before, so what is
    new is what the new line prints."""

    def __init__(self, *options):
        self.options, self.lines, self.replies = options, [], []

    def send(self, line):
        """What one more line prints: its reply, and those to requests that were blocked until then. Nothing if it is blocked itself."""
        self.lines.append(line)
        # A request that is still blocked at the end of a script is printed without an outcome.
        outcomes = {"result", "error", "listen", "write"}
        replies = [reply for reply in replay(self.lines, *self.options) if outcomes & reply.keys()]
        new, self.replies = replies[len(self.replies):], replies
        return new
