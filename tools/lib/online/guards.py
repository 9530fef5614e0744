"""Who may call, and what a call may be. The page can start and change nothing but this one session; even so nobody else's page, and no
other machine, gets to it.

- Another machine: the server listens on 127.0.0.1 alone.
- Another program or user of this machine: a random token in the path, which only whoever reads the address knows.
- Another site's page: the Host that it names (a name of its own that leads here), the Origin of its commands, and their content type,
  which no form has.
- A page of ours that something strange has got into: the policy lets nothing run or load but our own files.
"""

import json
import re
import secrets

MOST_OF_A_COMMAND = 131_072  # bytes
DEEPEST = 8
STRING = re.compile(r'"(?:[^"\\]|\\.)*"', re.S)
PAGE = re.compile(r"[0-9a-f]{16}")
NAME = re.compile(r"[A-Za-z0-9_:.\[\]]+")
HEADERS = {
    "Content-Security-Policy": "default-src 'none'; script-src 'self'; style-src 'self'; connect-src 'self'; img-src 'self' data:; "
                               "base-uri 'none'; form-action 'none'; frame-ancestors 'none'",
    "X-Content-Type-Options": "nosniff", "Referrer-Policy": "no-referrer", "Cache-Control": "no-store",
    "Cross-Origin-Resource-Policy": "same-origin", "Cross-Origin-Opener-Policy": "same-origin",
}


class Refused(Exception):
    """A call that isn't answered, or a command that isn't done; its status, and why."""

    def __init__(self, status, text):
        super().__init__(status, text)
        self.status, self.text = status, text


def ours(port):
    return (f"127.0.0.1:{port}", f"localhost:{port}")


def check_host(host, port):
    if host not in ours(port):
        raise Refused(403, "another host")


def check_token(given, token):
    if not secrets.compare_digest(given.encode(), token.encode()):
        raise Refused(403, "another token")


def check_origin(origin, port):
    if origin not in [f"http://{host}" for host in ours(port)]:
        raise Refused(403, "another origin")


def check_type(kind):
    if kind != "application/json":
        raise Refused(415, "no JSON")


def check_length(length):
    """The length of what a command says."""
    if not re.fullmatch(r"[0-9]{1,9}", length or "") or int(length) > MOST_OF_A_COMMAND:
        raise Refused(413, "too long")
    return int(length)


def check_depth(text):
    depth = 0
    for byte in re.findall(r"[][{}]", STRING.sub("", text)):
        depth += 1 if byte in "[{" else -1
        if depth > DEEPEST:
            raise Refused(400, "too deep")


def command(data):
    """The name, the page and the fields of a command."""
    try:
        said = data.decode()
        check_depth(said)
        fields = json.loads(said)
        return text(fields.pop("do"), 20), page(fields.pop("page")), fields
    except (ValueError, KeyError, TypeError, AttributeError, RecursionError) as fault:
        raise Refused(400, "no command") from fault


# Fields

def whole(value, least, most):
    if not isinstance(value, int) or isinstance(value, bool) or not least <= value <= most:
        raise Refused(400, "a number out of range")
    return value


def text(value, most=65_536):
    if not isinstance(value, str) or len(value) > most:
        raise Refused(400, "no text, or too long a one")
    return value


def page(value):
    if not PAGE.fullmatch(text(value, 16)):
        raise Refused(400, "no page's name")
    return value


def name(value):
    if not NAME.fullmatch(text(value, 200)):
        raise Refused(400, "no name")
    return value


def truth(value):
    if not isinstance(value, bool):
        raise Refused(400, "neither true nor false")
    return value
