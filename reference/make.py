"""Writes the input and the expected output of the programs that are compared with the reference; with --check it writes nothing and says what differs."""

import sys

# the repository is left as it is, but for the files that are made
sys.dont_write_bytecode = True

from pathlib import Path

import coding_vectors
import headers
import receive
import receiver_check
import receiver_vectors
import self_check
import send
import trial

CRATES = Path(__file__).resolve().parent.parent / "crates"

# The crates whose files are made here, and what makes them.
MAKERS = {
    "headers": headers.files,
    "send": send.files,
    "receive": receive.files,
    "trial": trial.files,
    "coding_vectors": coding_vectors.files,
    "receiver_vectors": receiver_vectors.files,
}


def main() -> int:
    if sys.argv[1:] not in ([], ["--check"]):
        print("usage: make.py [--check]", file=sys.stderr)
        return 2
    checking = sys.argv[1:] == ["--check"]
    self_check.run()
    receiver_check.run()
    print("self-checks passed")
    differing = 0
    for crate, files in MAKERS.items():
        for name, wanted in files().items():
            path = CRATES / crate / name
            found = path.read_bytes() if path.exists() else None
            word = "same" if found == wanted else "differs"
            if found != wanted and not checking:
                path.parent.mkdir(exist_ok=True)
                path.write_bytes(wanted)
                word = "written"
            differing += word == "differs"
            print(f"crates/{crate}/{name}: {word}")
    return 1 if differing else 0


if __name__ == "__main__":
    sys.exit(main())
