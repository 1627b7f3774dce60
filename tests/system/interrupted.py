"""Runs a command on a terminal of its own, presses Ctrl-C once the command has printed `ready`, and prints what it prints, and its
status:

    python3 interrupted.py COMMAND [ARGUMENT..]
"""

import os
import pty
import sys


def main() -> None:
    process, terminal = pty.fork()
    if process == 0:
        os.execvp(sys.argv[1], sys.argv[1:])
    printed, is_pressed = b"", False
    try:
        while piece := os.read(terminal, 4096):
            printed += piece
            if b"ready" in printed and not is_pressed:
                os.write(terminal, b"\x03")
                is_pressed = True
    except OSError:
        # The terminal of a process that is gone has no end of file.
        pass
    print(printed.decode().replace("\r\n", "\n"), end="")
    print("status", os.waitstatus_to_exitcode(os.waitpid(process, 0)[1]))


main()
