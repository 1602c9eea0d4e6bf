"""python -m quic_wire MODE [OPTION..] [FILE..]: runs the program quic-wire, which the wheel for Linux on x86-64 has.

Exit status: that of quic-wire; 3 if it isn't there or can't be run.
"""

from __future__ import annotations

import os
import pathlib
import shutil
import subprocess
import sys
import sysconfig
from typing import Optional

FAILED = 3
NAME = "quic-wire.exe" if sys.platform == "win32" else "quic-wire"
MISSING = (
    "this installation lacks the program quic-wire. The wheel for Linux on x86-64 has it, and in the repository "
    "`cargo install --path rust/program` installs it"
)


def folders() -> list[str]:
    """Where pip installs programs beside this package: for all users, for one, and with --target."""
    return [
        sysconfig.get_path("scripts"),
        sysconfig.get_path("scripts", sysconfig.get_preferred_scheme("user")),
        str(pathlib.Path(__file__).resolve().parents[1] / "bin"),
    ]


def program() -> Optional[str]:
    """The path of quic-wire, from folders() or else from PATH; None if it is in neither."""
    return shutil.which(NAME, path=os.pathsep.join(folders())) or shutil.which(NAME)


def _fail(why: str) -> int:
    print(f"quic-wire: {why}", file=sys.stderr)
    return FAILED


def main() -> int:
    """Becomes quic-wire, with the arguments of this process. On Windows, runs it and returns its exit status."""
    found = program()
    if found is None:
        return _fail(MISSING)
    call = [found, *sys.argv[1:]]
    try:
        if sys.platform == "win32":
            return subprocess.run(call).returncode
        os.execv(found, call)
    except OSError as fault:
        return _fail(f"{found}: {fault.strerror}")


if __name__ == "__main__":
    sys.exit(main())
