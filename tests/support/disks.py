"""Disks in memory: small ones, and one on which syncs cost nothing."""

import contextlib
import os
import subprocess
from collections.abc import Iterator

# where files in memory can be; None where there is no such place, and they are where all temporary files are
IN_MEMORY = "/dev/shm" if os.access("/dev/shm", os.W_OK) else None


@contextlib.contextmanager
def small_disk(folder: str, size: int) -> Iterator[str | None]:
    """Yields the path of a new file system of so many bytes, which is removed at the end; None where it cannot be mounted."""
    point = os.path.join(folder, f"disk{size}")
    os.mkdir(point)
    mount = subprocess.run(["mount", "-t", "tmpfs", "-o", f"size={size}", "tmpfs", point], capture_output=True, check=False)
    try:
        yield None if mount.returncode else point
    finally:
        if not mount.returncode:
            subprocess.run(["umount", "--lazy", point], check=True)
