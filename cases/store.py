"""Stored files: written, or with `--check` held to what is computed."""
import os
import sys


def store(folder, files):
    """Writes the files (name to bytes) of a folder. With `--check`: writes nothing, names each that differs, and exits with 1 if one does."""
    check = sys.argv[1:] == ['--check']
    if sys.argv[1:] and not check:
        sys.exit(f'usage: {sys.argv[0]} [--check]')
    differ = [name for name, content in files.items() if check and stored(folder, name) != content]
    for name in differ:
        print(f'{sys.argv[0]}: {name} differs from what is computed')
    if differ:
        sys.exit(1)
    for name, content in {} if check else files.items():
        with open(os.path.join(folder, name), 'wb') as f:
            f.write(content)


def stored(folder, name):
    path = os.path.join(folder, name)
    if not os.path.exists(path):
        return None
    with open(path, 'rb') as f:
        return f.read()
