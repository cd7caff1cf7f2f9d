"""Where Git works, the repository that it uses there, and the files that it reads, as the C library finds them."""
import errno
import os
from collections import namedtuple

from . import _core, _walk
from ._errors import InvalidFile

# what conditions ask about a repository, in the order of a gcv_known: the path of its directory, with links and without,
# and the branch
Repository = namedtuple("Repository", "path real_path branch")
# where Git works: a folder, the repository, why Git uses none although one is there, what Git reads: the scope and the
# name of each file, and the file of each scope, which `git config` changes
Place = namedtuple("Place", "folder repository refusal files of_scopes")

# the numbers of a gcv_outcome and of a gcv_scope
USES, REFUSES, STOPS = 1, 2, 3
SCOPES = {1: "system", 2: "global", 3: "local", 4: "worktree"}


def _join(folder, name):
    """The name of a file in a folder; "" is the current one."""
    if not name or name.startswith("/") or not folder:
        return name
    return folder + name if folder.endswith("/") else f"{folder}/{name}"


def _stop(name, code, reason, file, line):
    """Raises the error of where Git stops. The system says why it does not open a folder or a file."""
    if code == "no_folder":
        os.stat(_join(name, os.curdir))
    elif code == "unreadable" and not line:
        _walk.opened(file)
    elif code == "bad_command":
        _core.command_text()
    else:
        raise InvalidFile(code, reason, file, line)
    raise OSError(errno.EIO, reason, file or name)


def find(name):
    """Where Git works if it is started in the folder of this name, and what it reads there."""
    outcome, folder, path, real_path, branch, code, reason, file, line, *lists = _core.find_here(os.fsencode(name))
    reason = os.fsdecode(reason)
    if outcome == STOPS:
        _stop(name, code, reason, os.fsdecode(file), line)
    folder = os.fsdecode(folder)
    files, of_scopes = ([(SCOPES[scope], _join(folder, os.fsdecode(file))) for scope, file in its] for its in lists)
    repository = Repository(path, real_path, branch) if outcome == USES else None
    return Place(folder, repository, reason if outcome == REFUSES else None, files, dict(of_scopes))


def _sources(files):
    """The texts of these files, as far as they are there, and the settings of the command."""
    for scope, name in files:
        skipped = (*_walk.MISSING, PermissionError) if scope == "global" else _walk.MISSING
        try:
            if name:
                yield _walk.opened(name, scope)
        except skipped:
            pass
    yield from _walk.command()


def entries(place):
    """All entries that Git reads in a place, in its order."""
    return _walk.entries(list(_sources(place.files)), _walk.known_in(place.repository))


def file_of(name, scope):
    """The name of the file of a scope that `git config` changes in the folder of this name."""
    if scope not in SCOPES.values():
        raise ValueError(f"no file has the scope {scope!r}: {', '.join(SCOPES.values())}")
    place = find(name)
    file = place.of_scopes.get(scope)
    if not file:
        raise FileNotFoundError(errno.ENOENT, place.refusal or f"Git has no file of the scope {scope} there", name)
    return file
