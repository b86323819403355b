"""What files are in a folder. Only what is a file is read there: a pipe would keep one waiting."""

import os
import stat
from collections.abc import Callable
from pathlib import Path

from .failure import reason_of
from .files import as_text


class Folder:
    """The files in a folder that are wanted by their names, at any depth if that is asked for."""

    def __init__(self, top: Path, wanted: Callable[[str], bool], *, is_deep: bool) -> None:
        self.files: list[Path] = []
        # What there is to say of it, and whether something that may be wanted is not in `files`.
        self.told: list[str] = []
        self.is_whole = True
        self._top, self._wanted, self._is_deep = Path(os.path.realpath(top)), wanted, is_deep
        # Not by `os.walk`, which calls itself for each folder in a folder.
        waiting = [top]
        while waiting:
            waiting += self._looked_into(waiting.pop())
        self.files.sort()
        self.told.sort()

    def _looked_into(self, folder: Path) -> list[Path]:
        """Takes the files of a folder; the folders in it."""
        try:
            with os.scandir(folder) as listed:
                entries = [(folder / it.name, it.is_dir(follow_symlinks=False)) for it in listed]
        except OSError as fault:
            self._lacks(f"cannot read {as_text(folder)}: {reason_of(fault)}")
            return []
        for path, is_folder in entries:
            if not is_folder:
                self._take(path)
        return [path for path, is_folder in entries if is_folder and self._is_deep]

    def _take(self, path: Path) -> None:
        """Takes a file if it is wanted."""
        try:
            mode = path.stat().st_mode
        except OSError:
            # Why it cannot be read is seen when it is opened.
            mode = stat.S_IFREG
        if stat.S_ISDIR(mode):
            if self._is_deep:
                self._pass_over_link(path)
        elif not self._wanted(path.name):
            return
        elif stat.S_ISREG(mode):
            self.files.append(path)
        else:
            self.told.append(f"{as_text(path)} is passed over: it is no regular file")

    def _pass_over_link(self, path: Path) -> None:
        """Says that a link to a folder is not followed. What it leads to may be here all the
        same."""
        told = f"{as_text(path)} is passed over: it is a link to a folder"
        if self._top in (at := Path(os.path.realpath(path))).parents or at == self._top:
            self.told.append(told)
        else:
            self._lacks(f"{told} elsewhere, which you can name too")

    def _lacks(self, told: str) -> None:
        self.told.append(told)
        self.is_whole = False
