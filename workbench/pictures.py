"""Names and pictures of the game.

They are what `factorio --dump-icon-sprites` and `--dump-prototype-locale` leave in its folder script-output.
"""
from __future__ import annotations

import json
import os
import re

# The folders of pictures and the files of names by the kind of a thing, in the game's words for its prototypes.
FOLDERS = {
    "item": ("item",),
    "fluid": ("fluid",),
    "recipe": ("recipe", "item", "fluid"),
    "tech": ("technology",),
    "machine": ("entity", "item"),
    "source": ("entity", "item", "fluid"),
}
LOCALES = {
    "item": "item",
    "fluid": "fluid",
    "recipe": "recipe",
    "tech": "technology",
    "machine": "entity",
    "source": "entity",
}
NAME = re.compile(r"[^/\\\0]{1,200}\Z")
MOST_PICTURE, MOST_NAMES = 1 << 20, 32 << 20


def is_script_output(folder: str) -> bool:
    """Whether the game left names or pictures in a folder."""
    names = os.path.isfile(os.path.join(folder, LOCALES["item"] + "-locale.json"))
    return names or os.path.isdir(os.path.join(folder, "item"))


class Pictures:
    """The pictures and the names of a folder; of none there are none."""

    def __init__(self, folder: str | None) -> None:
        self.folder = folder and os.path.realpath(folder)

    def names(self) -> dict[str, dict[str, str]]:
        """The names that the game shows, by kind and by the name of the prototype."""
        out = {}
        for kind, file in LOCALES.items():
            try:
                with open(os.path.join(self.folder or "", file + "-locale.json"), "rb") as it:
                    names = json.loads(it.read(MOST_NAMES)).get("names")
                out[kind] = {k: v for k, v in names.items() if isinstance(v, str)} if isinstance(names, dict) else {}
            except (OSError, ValueError, AttributeError):
                pass
        return out

    def known(self) -> dict[str, list[str]]:
        """Of which things there is a picture, by kind."""
        return {
            kind: sorted({name[:-4] for folder in folders for name in self.listed(folder) if name.endswith(".png")})
            for kind, folders in FOLDERS.items()
        }

    def listed(self, folder: str) -> list[str]:
        try:
            return os.listdir(os.path.join(self.folder, folder)) if self.folder else []
        except OSError:
            return []

    def picture(self, kind: str, name: str) -> bytes | None:
        """The bytes of a picture, or None. A name is no path."""
        if not self.folder or not NAME.match(name):
            return None
        for folder in FOLDERS.get(kind, ()):
            path = os.path.join(self.folder, folder, name + ".png")
            if os.path.isfile(path) and not os.path.islink(path):
                with open(path, "rb") as file:
                    return file.read(MOST_PICTURE)
        return None
