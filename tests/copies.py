"""A copy of the crates in which an edit can be tried: `with copies.Copy() as copy: said = copy.checked(crate, pairs)`.

In the copy the crates below are proved first, from what was kept of them.
"""
import os
import shutil
import subprocess
import tempfile

ROOT = os.path.dirname(os.path.dirname(os.path.abspath(__file__)))


def read(path):
    with open(path, encoding='utf-8', errors='replace') as file:
        return file.read()


def write(path, text):
    with open(path, 'w', encoding='utf-8') as file:
        file.write(text)


class Misfit(Exception):
    """An edit whose old text does not stand once in its file."""


class Copy:
    """The crates without their edits and what was made of them, and their list."""

    def __enter__(self):
        self.room = tempfile.TemporaryDirectory()
        self.folder = self.room.name
        shutil.copytree(os.path.join(ROOT, 'crates'), os.path.join(self.folder, 'crates'), ignore=shutil.ignore_patterns('must-fail', 'out'))
        shutil.copy2(os.path.join(ROOT, 'crates.txt'), self.folder)
        return self

    def __exit__(self, *_):
        self.room.cleanup()

    def checked(self, crate, pairs):
        """What a check of the crate says where each (file, old text, new text) is put in; then the files are as they were."""
        texts = {}
        try:
            for path, old, new in pairs:
                file = os.path.join(self.folder, 'crates', crate, path)
                text = read(file)
                texts.setdefault(file, text)
                if text.count(old) != 1:
                    raise Misfit(f'the old text is in {path} {text.count(old)} times')
                write(file, text.replace(old, new))
            run = subprocess.run(['rt', 'check'], cwd=os.path.join(self.folder, 'crates', crate), capture_output=True, text=True)
            return run.stdout + run.stderr
        finally:
            for file, text in texts.items():
                write(file, text)
