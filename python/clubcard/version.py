"""The version of this package."""

from importlib import metadata
from pathlib import Path

_TREE = Path(__file__).resolve().parents[2]


def version() -> str:
    """The version: of the tree that this file stands in, else of the installed package."""
    if (_TREE / "python" / "pyproject.toml").is_file():
        return (_TREE / "VERSION").read_text(encoding="ascii").strip()
    return metadata.version("clubcard")
