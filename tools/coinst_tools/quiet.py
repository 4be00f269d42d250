"""How a script ends at Ctrl-C while it still starts: at once and in silence, as other programs do. Nothing is there yet that would have to go.

A script calls this before it imports what takes time. `run` of command.py ends what it has begun.
"""

import signal


def until_run() -> None:
    """An interrupt ends the script by the signal; one that is ignored, as a shell has it for what runs in the background, stays so."""
    if signal.getsignal(signal.SIGINT) is signal.default_int_handler:
        signal.signal(signal.SIGINT, signal.SIG_DFL)


def from_now() -> None:
    """An interrupt is an exception again."""
    if signal.getsignal(signal.SIGINT) is signal.SIG_DFL:
        signal.signal(signal.SIGINT, signal.default_int_handler)
