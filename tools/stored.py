"""Stored files of the vectors: what a script would write, `{path: contents}`, is written or compared with what stands there."""


def write(files):
    for path, contents in files.items():
        path.parent.mkdir(parents=True, exist_ok=True)
        path.write_bytes(contents)
    print(f"{len(files)} files, {sum(map(len, files.values()))} bytes")


def unlike(files):
    """A sentence for each file that is not as it would be written."""
    return [f"{path.parent.name}/{path.name} is not what `write` would write" for path, contents in files.items() if not path.exists() or path.read_bytes() != contents]


def told(faults):
    """Prints each fault; whether there is none."""
    faults = list(faults)
    print(*faults, sep="\n", end="\n" if faults else "")
    return not faults
