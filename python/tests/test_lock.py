"""The locks: who may hold them, and that they end."""

import os
import tempfile
from pathlib import Path

import pytest

from clubcard.lock import Locked, locked, locked_file


def mode(path: Path) -> int:
    """Who may open a file."""
    return path.stat().st_mode & 0o777


def test_modes(tmp_path: Path) -> None:
    """Its owner alone may open it, also that of an earlier version, and while another run holds it."""
    with locked(tmp_path / "state"):
        assert mode(tmp_path / "state" / "lock") == 0o600
        (tmp_path / "state" / "lock").chmod(0o644)
        with pytest.raises(Locked, match="state/lock: another run holds the lock: let it end"):
            with locked(tmp_path / "state"):
                pass
        assert mode(tmp_path / "state" / "lock") == 0o600
    (tmp_path / "old").write_bytes(b"")
    (tmp_path / "old").chmod(0o644)
    with locked_file(tmp_path / "old"):
        assert mode(tmp_path / "old") == 0o600


@pytest.mark.skipif(os.geteuid() != 0, reason="only root can be another user")
def test_another_user() -> None:
    """Somebody who may look into the folder can't open the lock, and so can't hold it."""
    with tempfile.TemporaryDirectory() as folder:
        Path(folder).chmod(0o755)
        with locked(Path(folder)):
            pass
        child = os.fork()
        if child == 0:
            os.setgid(65534)
            os.setuid(65534)
            try:
                os.open(f"{folder}/lock", os.O_RDONLY)
            except PermissionError:
                os._exit(0)
            os._exit(1)
        assert os.waitstatus_to_exitcode(os.waitpid(child, 0)[1]) == 0


def test_it_ends(tmp_path: Path) -> None:
    """Also behind a fault of the run, which is given on as it is."""
    with pytest.raises(BlockingIOError), locked_file(tmp_path / "lock"):
        raise BlockingIOError("of the run")
    with locked_file(tmp_path / "lock"):
        pass
