"""The environment of a script that root may run, and of all that it starts."""
import os
import re
import stat

# What shells, interpreters, make, the C library and the loader read, by which a folder of strangers could have them run
# or load something.
UNWANTED = re.compile(
    "BASH.*|ENV|CDPATH|GLOBIGNORE|EXECIGNORE|FUNCNEST|SHELLOPTS|POSIXLY_CORRECT|TMOUT|IFS|PS4|PROMPT_COMMAND|PYTHON.*|"
    "PERL.*|LD_.*|GLIBC_TUNABLES|GCONV_PATH|LOCPATH|NLSPATH|MALLOC_.*|COMPILER_PATH|GCC_.*|C_INCLUDE_PATH|CPATH|"
    "LIBRARY_PATH|GIT_.*|DPKG_.*|DEB.*|DH_.*|MAKE.*|GNUMAKEFLAGS|MFLAGS|TAR_OPTIONS|GZIP|XZ_.*")


def leave_out() -> None:
    """Leaves out what names folders and files for those. Of PATH, only folders count that have whole paths, aren't the
    current one, and to which nobody but root and the user can write."""
    for name in [*os.environ]:
        if UNWANTED.fullmatch(name):
            del os.environ[name]
    folders = [each for each in os.get_exec_path() if _counts(each)]
    os.environ["PATH"] = os.pathsep.join(folders or ["/nonexistent"])  # (no folder at all would be the current one)


def _counts(folder: str) -> bool:
    try:
        it = os.stat(folder)
    except OSError:
        return False
    others = it.st_mode & (stat.S_IWGRP | stat.S_IWOTH) or it.st_uid not in (0, os.geteuid())
    return os.path.isabs(folder) and not others and not os.path.samestat(it, os.stat(os.curdir))
