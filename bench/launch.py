"""How `./decibel` starts the program, for benchmarks that start the built program themselves."""
import os, re

TOP = os.path.dirname(os.path.dirname(os.path.abspath(__file__)))


def settings(command):
    """The environment, with what `./decibel` asks of the C library for a command in front of the caller's own settings."""
    with open(os.path.join(TOP, "decibel")) as f:
        text = f.read()
    asked = re.search(r"^settings=([\w.=:]+)$", text, re.M).group(1)
    more = re.search(r"^%s\) settings=\$settings([\w.=:]+) ;;$" % re.escape(command), text, re.M)
    own = os.environ.get("GLIBC_TUNABLES")
    return {**os.environ, "GLIBC_TUNABLES": asked + (more.group(1) if more else "") + (":" + own if own else "")}
