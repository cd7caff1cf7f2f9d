"""Lists a file and what it includes as Git does, by the Python package: listed.py FOLDER FILE

compare/config_file.py calls it. FOLDER has the package. Conditions are about the repository here.
"""
import os
import sys

sys.path.insert(0, sys.argv[1])
from gix_config_value import InvalidFile, read  # noqa: E402

try:
    for entry in read(sys.argv[2], includes=True, repository=".").entries:
        text = entry.key if entry.text is None else f"{entry.key}\n{entry.text}"
        sys.stdout.buffer.write(os.fsencode(f"{entry.origin}\0{text}\0"))
except InvalidFile as error:
    reason = error.code.replace("_", " ")
    sys.stderr.buffer.write(os.fsencode(f"fatal: bad config line {error.line} in file {error.file}: {reason}\n"))
    sys.exit(128)
