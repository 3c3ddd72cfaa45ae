"""Runs a script of the tree within this process: a start of Python takes longer than all that most of them do."""
import contextlib
import functools
import io
import os
import pathlib
import subprocess
import sys
from typing import Any


@functools.lru_cache(maxsize=None)
def code_of(script: pathlib.Path) -> Any:
    return compile(script.read_bytes(), script, "exec")


def texts() -> io.TextIOWrapper:
    return io.TextIOWrapper(io.BytesIO(), "utf-8", "surrogateescape", write_through=True)


def run_within(script: pathlib.Path, *words: object) -> subprocess.CompletedProcess:
    """How a script ends, and what it writes, as subprocess.run has it; its input is this process's."""
    said, complaints = texts(), texts()
    status, argv, path = 0, sys.argv, sys.path
    sys.argv, sys.path = [str(script), *map(os.fspath, words)], [*path]
    try:
        with contextlib.redirect_stdout(said), contextlib.redirect_stderr(complaints):
            exec(code_of(script), {"__name__": "__main__", "__file__": str(script)})
    except SystemExit as end:
        status = end.code or 0
    finally:
        sys.argv, sys.path = argv, path
    return subprocess.CompletedProcess(words, status, said.buffer.getvalue(), complaints.buffer.getvalue())
