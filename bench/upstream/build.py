"""Builds the Rust crate's side: python3 build.py. Prints the folder that has the program `upstream` and the static
library `libupstream.a`, or `skipped: ` and why the crate is not there.

Cargo takes the published crate, with all that it depends on. If no network reaches the registry, the environment
variable GIX_CONFIG_VALUE_SOURCE can name a folder with the crate's sources. It can also name one with a folder for each
crate, as Debian's packages fill /usr/share/cargo/registry: then all crates are taken from there. Debian's sid has the
package librust-gix-config-value-dev, and the packages that it depends on have the other crates. Its version 0.21.0 has
the sources of 0.21.1, but for a link in a comment, and is built as 0.21.1. CARGO_TARGET_DIR is used if it is set.
"""
import os
import pathlib
import re
import shutil
import subprocess
import sys

HERE = pathlib.Path(__file__).resolve().parent
SOURCE = "GIX_CONFIG_VALUE_SOURCE"
PACKAGE = "gix-config-value"
# the version of Debian's package, and the version whose sources it has
PACKAGED, PUBLISHED = "0.21.0", "0.21.1"


class Missing(Exception):
    """The crate cannot be had here."""


class Broken(Exception):
    """The crate is there, but what uses it cannot be built."""


def is_the_crate(folder):
    manifest = folder / "Cargo.toml"
    text = manifest.read_text(encoding="utf-8") if manifest.is_file() else ""
    return re.search(rf'^name *= *"{PACKAGE}"', text, re.MULTILINE) is not None


def target():
    """The folder that Cargo builds into."""
    named = os.environ.get("CARGO_TARGET_DIR")
    return HERE / named if named else HERE / "target"


def as_published(place):
    """A folder with the sources that is_the_crate has found, as the published version."""
    told = f'\nversion = "{PACKAGED}"\n'
    manifest = (place / "Cargo.toml").read_text(encoding="utf-8")
    if told not in manifest:
        return place
    copy = target() / PACKAGE
    shutil.rmtree(copy, ignore_errors=True)
    shutil.copytree(place, copy)
    manifest = manifest.replace(told, told.replace(PACKAGED, PUBLISHED))
    (copy / "Cargo.toml").write_text(manifest, encoding="utf-8")
    return copy


def override():
    """The arguments that tell Cargo about the sources that the environment names."""
    named = os.environ.get(SOURCE)
    if not named:
        return []
    folder = pathlib.Path(named).resolve()
    for place in [folder, *sorted(folder.glob("*/"))]:
        if is_the_crate(place):
            settings = [f"patch.crates-io.{PACKAGE}.path='{as_published(place)}'"]
            # Cargo needs this file in each folder that it takes a crate of its registry from
            if len(list(folder.glob("*/.cargo-checksum.json"))) > 1:
                settings += ["source.crates-io.replace-with='named'", f"source.named.directory='{folder}'"]
            return [word for setting in settings for word in ("--config", setting)]
    raise Broken(f"{SOURCE} names a folder without the crate {PACKAGE}: {named}")


def cargo(*arguments):
    """Runs Cargo in this folder. Returns None if it succeeds, and otherwise what it says."""
    try:
        run = subprocess.run(["cargo", *arguments], cwd=HERE, capture_output=True, check=False)
    except OSError as error:
        raise Missing(f"no Cargo: {error}") from None
    said = run.stderr.decode(errors="replace").strip()
    return None if run.returncode == 0 else said


def last_line(said):
    return said.splitlines()[-1].strip() if said else "it says nothing"


def fetch(settings):
    """Gets the dependencies of the project: those that are here already, or otherwise from the registry."""
    if cargo("fetch", "--offline", *settings) is None:
        return
    said = cargo("fetch", "--config", "net.retry=0", *settings)
    if said is not None:
        raise Missing(f"Cargo does not reach the crate ({last_line(said)}), and {SOURCE} names no folder that serves")


def build():
    """Builds the project, and returns the folder of what was built."""
    settings = override()
    fetch(settings)
    said = cargo("build", "--release", "--offline", *settings)
    if said is not None:
        raise Broken(said)
    return target() / "release"


def built():
    """The same. Ends the program with status 0 if the crate cannot be had, and with 1 if the build fails."""
    try:
        return build()
    except Missing as missing:
        print(f"skipped: {missing}")
        sys.exit(0)
    except Broken as broken:
        print(broken)
        sys.exit(1)


if __name__ == "__main__":
    print(built())
