"""What the tests share: the program, folders with texts, and a project that is closed behind each test."""
from __future__ import annotations

import os
import shutil
import sys
import tempfile
import time
import unittest
from typing import Callable

TOP = os.path.dirname(os.path.dirname(os.path.dirname(os.path.realpath(__file__))))
sys.path.insert(0, TOP)

from workbench.project import Listener, Project  # noqa: E402  pylint: disable=wrong-import-position

PROGRAM = os.environ.get('RODIN', 'rodin')
EXAMPLES = os.path.join(TOP, 'examples')
needs_program = unittest.skipUnless(shutil.which(PROGRAM), 'RODIN names no program')

BOOM = 'context boom constants up axioms @axm1 10 ≤ up theorem @thm1 ∃k·0 < k ∧ k ∗ k < up theorem @thm2 0 < up end\n'
SETS = '''context rel
sets S
constants r s a
axioms
  @axm1 s ⊆ S
  @axm2 r ⊆ s
  @axm3 a ∈ s
  theorem @thm1 r ∪ {a} ⊆ s
end
'''


class Room(unittest.TestCase):
    """Each test has a folder of its own; `put` writes files into it."""

    def setUp(self) -> None:
        self.room = tempfile.mkdtemp()
        self.addCleanup(shutil.rmtree, self.room, True)

    def put(self, **texts: str) -> None:
        """Writes NAME.eventb for each."""
        for name, text in texts.items():
            with open(os.path.join(self.room, f'{name}.eventb'), 'w', encoding='utf-8') as file:
                file.write(text)

    def project(self, workers: int = 0, listener: 'Listener | None' = None, **texts: str) -> Project:
        """A project in the room, synced; it is closed behind the test."""
        self.put(**texts)
        project = Project(self.room, workers, PROGRAM, listener)
        self.addCleanup(project.close)
        project.sync()
        return project

    def until(self, wanted: Callable[[], object], seconds: float = 10.0) -> None:
        """Waits until something holds."""
        end = time.monotonic() + seconds
        while not wanted():
            if time.monotonic() > end:
                self.fail('it did not come about in time')
            time.sleep(0.02)
