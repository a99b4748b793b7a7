"""Which program is started."""
from __future__ import annotations

import os
import subprocess
import sys
import unittest

from rooms import TOP, Room
from workbench import texts

WORDS = 'import sys; sys.path.insert(0, sys.argv[2]); from workbench import find; find.program(sys.argv[1]); import os; print(os.environ["RODIN"])'


class Found(Room):
    """Below a folder of its own, with a script `rodin` that builds, or fails."""

    def found(self, **environment: str) -> tuple[int, str]:
        """The status of a door, and the program that it would start."""
        kept = {key: value for key, value in os.environ.items() if key != 'RODIN'}
        done = subprocess.run([sys.executable, '-c', WORDS, self.room, TOP], capture_output=True, text=True, check=False,
                              env={**kept, 'PATH': '/usr/bin:/bin', **environment})
        return done.returncode, done.stdout.strip() or done.stderr.strip()

    def program(self, name: str, text: str) -> str:
        """A script below the folder."""
        path = os.path.join(self.room, name)
        os.makedirs(os.path.dirname(path), exist_ok=True)
        texts.write(path, f'#!/bin/sh\n{text}\n')
        os.chmod(path, 0o755)
        return path

    def test_which_program(self) -> None:
        status, said = self.found()
        self.assertEqual(status, 3)
        self.assertIn('no program is built', said)
        self.program('rodin', 'exit 1')
        self.assertEqual(self.found()[0], 3)
        self.program('rodin', 'mkdir -p "$(dirname "$0")/out"; cp "$0" "$(dirname "$0")/out/rodin"')
        self.assertEqual(self.found(), (0, os.path.join(self.room, 'out', 'rodin')))
        self.assertEqual(self.found(), (0, os.path.join(self.room, 'out', 'rodin')))
        newer = self.program('crates/rodin/out/rodin', '')
        self.assertEqual(self.found(), (0, newer))
        self.assertEqual(self.found(RODIN='/elsewhere/rodin'), (0, '/elsewhere/rodin'))


if __name__ == '__main__':
    unittest.main()
