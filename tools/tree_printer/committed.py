"""Writes printed files, and compares them with those that are committed, both in the layout of `rt fmt`."""
import os
import shutil
import subprocess
import tempfile


def crates_of(files):
    return sorted({os.path.join(*path.split('/')[:2]) for path in files if path.startswith('crates/')})


def write(root, files):
    for path, text in files.items():
        target = os.path.join(root, path)
        os.makedirs(os.path.dirname(target), exist_ok=True)
        with open(target, 'w', encoding='utf-8') as file:
            file.write(text)
    for crate in crates_of(files):
        subprocess.run(['rt', 'fmt'], cwd=os.path.join(root, crate), check=True, stdout=subprocess.DEVNULL)


def check(root, files):
    """Prints on a copy, and names each committed file that differs. 1 if one does."""
    with tempfile.TemporaryDirectory() as copy:
        shutil.copy(os.path.join(root, 'crates.txt'), copy)
        for crate in os.listdir(os.path.join(root, 'crates')):
            shutil.copytree(os.path.join(root, 'crates', crate), os.path.join(copy, 'crates', crate),
                            ignore=shutil.ignore_patterns('out'))
        write(copy, files)
        stale = [path for path in files if differs(os.path.join(root, path), os.path.join(copy, path))]
    for path in stale:
        print('not what tools/tree.txt says:', path)
    return 1 if stale else 0


def differs(one, other):
    if not os.path.exists(one):
        return True
    with open(one, encoding='utf-8') as a, open(other, encoding='utf-8') as b:
        return a.read() != b.read()
