"""Places in which the search for a repository has much to ask or to read, for growth.py and files.py."""

# what is asked of a repository, and of the user's file
OF_REPOSITORY, OF_USER = ["--get", "core.bare"], ["--get", "a.b"]


def alone(home, **known):
    """Variables with which Git reads no file of the system, and the user's file in this home."""
    return {"HOME": str(home), "GIT_CONFIG_NOSYSTEM": "1", **known}


def repository(folder, branch="main"):
    """Makes a repository that has a branch, but no file of its own settings."""
    for name in ("objects", "refs"):
        (folder / ".git" / name).mkdir(parents=True)
    (folder / ".git/HEAD").write_text(f"ref: refs/heads/{branch}\n", "ascii")


def configured(home, more=""):
    """Makes a repository below a home, with one setting and then more of them, and returns its folder."""
    folder = home / "repository"
    repository(folder)
    (folder / ".git/config").write_text(f"[core]\n\tbare = false\n{more}", "ascii")
    return folder


def including(folder, count, entries):
    """Makes this many files, each with as many entries, and returns the text of one beside them that includes them."""
    for number in range(count):
        (folder / str(number)).write_text("[a]\n" + "\tb = 1\n" * entries, "ascii")
    return "[include]\n" + "".join(f"\tpath = {number}\n" for number in range(count))


def of_another(home, asked, user="", **known):
    """A repository that counts as that of another user, so that `safe.directory` says whether Git uses it."""
    (home / ".gitconfig").write_text(user, "ascii")
    return asked, configured(home), alone(home, GIT_TEST_ASSUME_DIFFERENT_OWNER="1", **known)


def included(home, count):
    return of_another(home, OF_USER, "[safe]\n\tdirectory = *\n" + including(home, count, 1))


def trusted(home, count):
    texts = [*(f"/{number}" for number in range(count - 1)), "*"]
    return of_another(home, OF_REPOSITORY, "[safe]\n" + "".join(f"\tdirectory = {text}\n" for text in texts))


def counted(home, count):
    known = {"GIT_CONFIG_COUNT": str(count)}
    for number, (key, text) in enumerate([*[("a.b", "1")] * (count - 1), ("safe.directory", "*")]):
        known |= {f"GIT_CONFIG_KEY_{number}": key, f"GIT_CONFIG_VALUE_{number}": text}
    return of_another(home, OF_REPOSITORY, **known)


def below(folder, count):
    """Makes this many folders, each in the one before, and returns the last one."""
    for _ in range(count):
        folder /= "d"
        folder.mkdir()
    return folder


def with_ceilings(home, count):
    """Some folders below a repository, and ceilings beside it."""
    ceilings = [home / f"ceiling{number}" for number in range(count)]
    for folder in ceilings:
        folder.mkdir()
    known = alone(home, GIT_CEILING_DIRECTORIES=":".join(map(str, ceilings)))
    return OF_REPOSITORY, below(configured(home), 20), known


def deep(home, count):
    (home / ".gitconfig").write_text("[a]\n\tb = 1\n", "ascii")
    return OF_USER, below(home, count), alone(home)


def deep_with_ceiling(home, count):
    """The same with a ceiling that is not above the last folder."""
    _, _, known = with_ceilings(home, 1)
    asked, folder, _ = deep(home, count)
    return asked, folder, known


def branches(home, count):
    texts = (f'[branch "b{number}"]\n\tremote = origin\n\tmerge = refs/heads/b\n' for number in range(count))
    return OF_REPOSITORY, configured(home, "".join(texts)), alone(home)


# the name of a place, its size in growth.py, that in files.py, and what makes it in a new home: it returns the words
# of a call, the folder of it, and its variables
PLACES = [
    ("files that the user's file includes, in a repository of another user", 1_000, 1_000, included),
    ("values of `safe.directory`, in a repository of another user", 1_000, 1_000, trusted),
    ("settings of GIT_CONFIG_COUNT, in a repository of another user", 1_000, 1_000, counted),
    ("ceilings, in a folder of a repository", 100, 100, with_ceilings),
    ("folders deep, in no repository", 150, 300, deep),
    ("folders deep, in no repository, with a ceiling elsewhere", 150, 300, deep_with_ceiling),
    ("branches of a repository", 4_000, 4_000, branches),
]
