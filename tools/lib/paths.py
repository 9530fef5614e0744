"""Where things are, and what is in files."""

import os

# Of the repository, or of a package its share/logix.
TOP = os.path.dirname(os.path.dirname(os.path.dirname(os.path.realpath(__file__))))
TOOLS = f"{TOP}/tools"
EXAMPLES = f"{TOP}/examples"
# A package's programs lie beside its share.
PACKAGED = f"{os.path.dirname(os.path.dirname(TOP))}/libexec/logix"


def built(name):
    """The file of a program that tools/prove or the gate builds."""
    return f"{TOP}/crates/{name}/out/{name}"


def read_bytes(path):
    with open(path, "rb") as file:
        return file.read()


def read_text(path):
    with open(path, encoding="utf-8") as file:
        return file.read()
