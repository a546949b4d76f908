"""What the tries of both tools share: the tools' commands, and a folder with files for them."""

import subprocess
import sys
import tempfile
import unittest
from pathlib import Path

ROOT = Path(__file__).resolve().parents[2]
TOOLS = ROOT / "tools"
# so that who imports this can import the tools
sys.path.insert(0, str(TOOLS))


def command(tool, *arguments, given=b""):
    """What a tool's command comes to: its exit status and what it writes."""
    words = [sys.executable, TOOLS / tool, *arguments]
    done = subprocess.run(words, input=given, capture_output=True, check=False)
    return done.returncode, done.stdout, done.stderr.decode()


class InFolder(unittest.TestCase):
    def setUp(self):
        folder = tempfile.TemporaryDirectory()
        self.addCleanup(folder.cleanup)
        self.folder = Path(folder.name)

    def file(self, name, data):
        path = self.folder / name
        path.write_bytes(data)
        return path
