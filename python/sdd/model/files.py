"""Files as text, and what is wrong with one."""


class BadInput(Exception):
    """What is wrong with a file, in one line."""


def text_of(path: str) -> str:
    try:
        with open(path, encoding="utf-8", newline="") as f:
            return f.read()
    except OSError as fault:
        raise BadInput("%s: %s" % (path, reason_of(fault))) from None
    except UnicodeDecodeError:
        raise BadInput("%s: not UTF-8" % path) from None


def bytes_of(path: str) -> bytes:
    try:
        with open(path, "rb") as f:
            return f.read()
    except OSError as fault:
        raise BadInput("%s: %s" % (path, reason_of(fault))) from None


def write_text(path: str, text: str) -> None:
    """Writes a text as it is: no system puts CR before its LF."""
    with open(path, "w", encoding="utf-8", newline="\n") as f:
        f.write(text)


def reason_of(fault: OSError) -> str:
    return (fault.strerror or "can't be used").lower()
