"""The folders below which files are put, replaced and removed. A list of them stands among them, so that what an older version had is
removed too, and nothing that another one put there."""
import os
import shutil

from .contents import LIBRARY, MANIFEST, READ, Item

FOLDER_MODE = 0o755


class Fault(Exception):
    """What is wrong, so that nothing was changed."""


def made_folders(path):
    """Makes a folder, with those above it that aren't there; gives which were made, the upper ones first."""
    if os.path.isdir(path):
        return []
    made = made_folders(os.path.dirname(path))
    os.mkdir(path)
    os.chmod(path, FOLDER_MODE)
    return [*made, path]


def put(path, item):
    """Writes a file under another name and gives it its own, so that nobody finds a part of it."""
    new = os.path.join(os.path.dirname(path), f".{os.path.basename(path)}.{os.getpid()}")
    try:
        write_new(new, item)
        os.replace(new, path)
    except OSError as fault:
        raise OSError(fault.errno, fault.strerror, path) from fault
    finally:
        if os.path.lexists(new):
            os.unlink(new)


def write_new(path, item):
    """Writes a file that isn't there."""
    if item.link is not None:
        os.symlink(item.link, path)
        return
    with open(path, "xb") as file:
        file.write(item.data)
    os.chmod(path, item.mode)


class Prefix:
    """What is installed below a folder."""

    def __init__(self, folder):
        self.folder = folder
        self.files, self.folders = self.installed()

    def place(self, path):
        return os.path.normpath(os.path.join(self.folder, path))

    def installed(self):
        """The files that were put here before, and the folders that were made for them."""
        if not os.path.exists(self.place(MANIFEST)):
            return set(), []
        with open(self.place(MANIFEST), encoding="utf-8") as file:
            lines = file.read().splitlines()
        if any(line.startswith("/") or ".." in line.split("/") for line in lines):
            raise Fault(f"{self.place(MANIFEST)} has a path that leads out of {self.folder}")
        return {line for line in lines if not line.endswith("/")}, [line for line in lines if line.endswith("/")]

    def write_list(self, files):
        """Writes the list of what is here."""
        text = "".join(f"{line}\n" for line in [*self.folders, *sorted(files)])
        put(self.place(MANIFEST), Item(MANIFEST, READ, text.encode(), None))

    def check(self, items):
        """Tells a file that another one put here."""
        for item in items:
            path = self.place(item.path)
            if os.path.lexists(path) and item.path not in self.files:
                raise Fault(f"{path} is there, and wasn't put there by this; remove it, or choose another PREFIX")

    def install(self, items, kept):
        """Puts the files here, and removes those of an older version that aren't among them, but for some that are kept."""
        self.check(items)
        new = {item.path for item in items} | {MANIFEST} | (self.files & set(kept))
        for item in [Item(MANIFEST, None, None, None), *items]:
            for made in made_folders(os.path.dirname(self.place(item.path))):
                inside = os.path.relpath(made, self.folder)
                if not inside.startswith(".."):
                    self.folders.append(f"{inside}/")
        self.write_list(self.files | new)
        for item in items:
            put(self.place(item.path), item)
        for path in self.files - new:
            self.unlink(path)
        self.write_list(new)

    def unlink(self, path):
        """Removes a file, if it is there."""
        if os.path.lexists(self.place(path)):
            os.unlink(self.place(path))

    def uninstall(self):
        """Removes what was put here, and the folders that were made for it where nothing else is in them."""
        if not self.files:
            raise Fault(f"nothing is installed in {self.folder}, as there is no {self.place(MANIFEST)}")
        for path in sorted(self.files - {MANIFEST}):
            self.unlink(path)
        for folder, names, _ in os.walk(self.place(LIBRARY)):
            if "__pycache__" in names:
                shutil.rmtree(os.path.join(folder, "__pycache__"))
        self.unlink(MANIFEST)
        for folder in reversed(self.folders):
            if os.path.isdir(self.place(folder)) and not os.listdir(self.place(folder)):
                os.rmdir(self.place(folder))
