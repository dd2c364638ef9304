"""What a session works on: real files and streams, or the same in memory."""

import os
import sys

from model.patterns import expression
from model.session import Fault


class Memory:
    """Files, input and both outputs as bytes. Paths in `locked` can't be written; those in `folders` can't be read."""

    def __init__(self, files, given=b"", locked=(), matcher=expression, folders=()):
        self.files, self.given, self.matcher = dict(files), given, matcher
        self.locked, self.folders = set(locked), set(folders)
        self.outputs = {"out": [], "err": []}

    def read(self, path, limit):
        content = self.files.get(path)
        if path in self.folders:
            raise Fault("file")
        return "too long" if content is not None and len(content) > limit else content

    def write(self, path, content):
        if path in self.locked:
            return False
        self.files[path] = content
        return True

    def input(self):
        return self.given

    def out(self, text):
        self.outputs["out"].append(text)

    def err(self, text):
        self.outputs["err"].append(text)

    def left(self):
        """Both outputs, whole."""
        return b"".join(self.outputs["out"]), b"".join(self.outputs["err"])


class Real:
    """The files and streams of this process."""

    matcher = staticmethod(expression)

    def read(self, path, limit):
        """The file's bytes. What can't be opened isn't there; a folder is opened, and then reading fails."""
        try:
            path.decode("utf-8")
            number = os.open(path, os.O_RDONLY)
        except (OSError, ValueError):
            return None
        try:
            return self.content(number, limit)
        except OSError as fault:
            raise Fault("file") from fault
        finally:
            os.close(number)

    def content(self, number, limit):
        parts, size = [], 0
        while True:
            part = os.read(number, 1 << 20)
            size += len(part)
            if size > limit:
                return "too long"
            if not part:
                return b"".join(parts)
            parts.append(part)

    def write(self, path, content):
        try:
            path.decode("utf-8")
            file = open(path, "wb", buffering=0)
        except (OSError, ValueError):
            return False
        with file:
            self.put(file.fileno(), content, "file")
        return True

    def put(self, number, text, object):
        try:
            while text:
                text = text[os.write(number, text) :]
        except OSError as fault:
            raise Fault(object) from fault

    def input(self):
        try:
            return sys.stdin.buffer.read()
        except OSError as fault:
            raise Fault("input") from fault

    def out(self, text):
        self.put(1, text, "output")

    def err(self, text):
        self.put(2, text, "error")
