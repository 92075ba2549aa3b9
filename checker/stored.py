"""Files that the checker makes for program crates and that are stored in them."""

import pathlib


def write(folder: str, files: dict[str, bytes]) -> None:
    """Writes the files into the folder, making folders where needed."""
    for path, content in files.items():
        target = pathlib.Path(folder, path)
        target.parent.mkdir(parents=True, exist_ok=True)
        target.write_bytes(content)


def agrees(folder: str, path: str, content: bytes) -> bool:
    """Whether the folder holds the file with just this content."""
    target = pathlib.Path(folder, path)
    return target.is_file() and target.read_bytes() == content
