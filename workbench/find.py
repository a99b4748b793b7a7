"""Which program the doors start: RODIN, else what was built beside them, else `rodin` on the path."""
from __future__ import annotations

import os
import shutil
import subprocess
import sys
from typing import Optional

BUILT = ('crates/rodin/out/rodin', 'out/rodin')
"""Where `rt ci` and the script `rodin` leave the program, below the top of the repository."""


def built(top: str) -> Optional[str]:
    """The program that RODIN names or that was built below a folder, else one on the path; None where there is none."""
    named = os.environ.get('RODIN')
    if named:
        return shutil.which(named)
    found = [path for path in (os.path.join(top, place) for place in BUILT) if os.access(path, os.X_OK)]
    return found[0] if found else shutil.which('rodin')


def program(top: str) -> None:
    """Sets RODIN for the engine. Where nothing is built the script `rodin` builds first, and says how far it is; ends with 3 where it can't."""
    if os.environ.get('RODIN') or {'-h', '--help'} & set(sys.argv[1:]):
        return
    found, script = built(top), os.path.join(top, 'rodin')
    if found and os.path.realpath(found) == os.path.realpath(script):
        found = None
    if found is None:
        try:
            subprocess.run([script, 'check'], stdin=subprocess.DEVNULL, check=True)
        except (OSError, subprocess.CalledProcessError, KeyboardInterrupt) as fault:
            print(f'{os.path.basename(sys.argv[0])}: no program is built ({fault or "interrupted"}); RODIN=PATH names another one', file=sys.stderr)
            sys.exit(3)
        found = os.path.join(top, 'out', 'rodin')
    os.environ['RODIN'] = found
