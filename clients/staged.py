"""Files that appear together: each is written beside its place, and all are moved there after the last one was written."""
import os


class Staged:
    """As a context: if it is left by a fault, what was written is taken away, with the folders that were made."""

    def __init__(self):
        self.ready, self.made = [], []

    def __enter__(self):
        return self

    def __exit__(self, *fault):
        for beside, _ in self.ready:
            beside.unlink(missing_ok=True)
        if fault[0]:
            for folder in reversed(self.made):
                if not any(folder.iterdir()):
                    folder.rmdir()

    def beside(self, place):
        """A path in the place's folder, which is made if it isn't there."""
        if place.is_dir() and not place.is_symlink():
            raise IsADirectoryError(f"{place} is a folder")
        for folder in reversed(place.parents):
            if not folder.exists():
                folder.mkdir()
                folder.chmod(0o755)
                self.made.append(folder)
        path = place.with_name(f".{place.name}.{os.getpid()}")
        self.ready.append((path, place))
        return path

    def file(self, place, content, mode=0o644):
        path = self.beside(place)
        try:
            path.write_bytes(content)
            path.chmod(mode)
        except OSError as fault:
            raise OSError(fault.errno, fault.strerror, str(place)) from None

    def link(self, place, target):
        self.beside(place).symlink_to(target)

    def move(self):
        """Moves all to their places. What stood there is replaced."""
        for path, place in self.ready:
            os.replace(path, place)
        self.ready = []
