"""Calls of the built program, in a folder of their own."""
import os
import subprocess
import tempfile


class Asked:
    """The program. Names among the words that are given contents stand for files with them."""

    def __init__(self, path):
        self.path, self.calls = os.path.abspath(path), 0

    def __enter__(self):
        self.folder = tempfile.TemporaryDirectory()
        return self

    def __exit__(self, *_):
        self.folder.cleanup()

    def call(self, *words, given=b"", **contents):
        """The status, the output and the notes."""
        for name, content in contents.items():
            with open(os.path.join(self.folder.name, name), "wb") as file:
                file.write(content)
        self.calls += 1
        done = subprocess.run([self.path, *words], input=given, capture_output=True, check=False, cwd=self.folder.name,
                              timeout=60)
        return done.returncode, done.stdout, done.stderr

    def kept(self, name):
        """The content of a file that a call kept, None where there is none; it is removed."""
        path = os.path.join(self.folder.name, name)
        if not os.path.exists(path):
            return None
        with open(path, "rb") as file:
            content = file.read()
        os.remove(path)
        return content
