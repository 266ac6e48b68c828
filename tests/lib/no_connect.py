"""Forbids a process to connect to anything, by the filter on calls that Linux has (seccomp), on x86-64."""
import ctypes
import struct

SET_NO_NEW_PRIVILEGES, SET_FILTER, BY_FILTER = 38, 22, 2
LOAD_NUMBER, JUMP_IF_EQUAL, RETURN = 0x20, 0x15, 0x06
CONNECT = 42
ALLOW, END_PROCESS = 0x7FFF0000, 0x80000000


def forbid_connect() -> None:
    """From here on the process, and what it starts, is ended by SIGSYS when it calls connect."""
    rows = ((LOAD_NUMBER, 0, 0, 0), (JUMP_IF_EQUAL, 0, 1, CONNECT), (RETURN, 0, 0, END_PROCESS), (RETURN, 0, 0, ALLOW))
    filter_ = ctypes.create_string_buffer(b"".join(struct.pack("HBBI", *row) for row in rows))
    program = struct.pack("HxxxxxxP", len(rows), ctypes.addressof(filter_))
    libc = ctypes.CDLL(None, use_errno=True)
    for words in ((SET_NO_NEW_PRIVILEGES, 1, 0, 0, 0), (SET_FILTER, BY_FILTER, ctypes.c_char_p(program), 0, 0)):
        if libc.prctl(*words):
            raise OSError(ctypes.get_errno(), "the filter isn't taken")
