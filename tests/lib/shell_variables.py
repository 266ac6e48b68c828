"""The variables that a shell, Python, libc and the loader read, and commands that a hostile function may replace."""
import glob
import gzip
import re
from typing import List, Set

# Those that bash(1), python(1), ld.so(8) and libc name; where their manual pages are there, what these name too.
OF_SHELLS = (
    "PATH BASH_ENV ENV CDPATH GLOBIGNORE EXECIGNORE FIGNORE FUNCNEST BASH_COMPAT BASH_LOADABLES_PATH BASH_XTRACEFD "
    "BASHOPTS SHELLOPTS POSIXLY_CORRECT TMOUT IFS OLDPWD PWD SHELL "
    "SHLVL PS0 PS1 PS2 PS3 PS4 PROMPT_COMMAND PROMPT_DIRTRIM HOME "
    "HISTFILE HISTCONTROL HISTIGNORE HISTTIMEFORMAT HOSTFILE IGNOREEOF INPUTRC INSIDE_EMACS EMACS MAIL MAILCHECK "
    "MAILPATH OPTERR OPTIND OPTARG EDITOR FCEDIT LINES "
    "COLUMNS RANDOM SECONDS REPLY TIMEFORMAT TMPDIR auto_resume histchars "
    "CHILD_MAX UID EUID PPID BASH BASHPID BASH_ARGV0 BASH_CMDS BASH_ALIASES BASH_COMMAND BASH_EXECUTION_STRING").split()
OF_PYTHON = (
    "PYTHONPATH PYTHONHOME PYTHONSTARTUP PYTHONINSPECT PYTHONUSERBASE PYTHONPLATLIBDIR PYTHONBREAKPOINT PYTHONWARNINGS "
    "PYTHONPYCACHEPREFIX PYTHONDEVMODE PYTHONVERBOSE PYTHONDEBUG PYTHONOPTIMIZE PYTHONCASEOK PYTHONIOENCODING "
    "PYTHONMALLOC PYTHONMALLOCSTATS PYTHONASYNCIODEBUG PYTHONFAULTHANDLER PYTHONHASHSEED PYTHONLEGACYWINDOWSSTDIO "
    "PYTHONNOUSERSITE PYTHONPROFILEIMPORTTIME PYTHONTRACEMALLOC PYTHONUNBUFFERED PYTHONUTF8 PYTHONSAFEPATH "
    "PYTHONEXECUTABLE PYTHONTHREADDEBUG PYTHONDUMPREFS PYTHONCOERCECLOCALE PYTHONINTMAXSTRDIGITS "
    "PYTHONWARNDEFAULTENCODING PYTHONNODEBUGRANGES PYTHONPERFSUPPORT").split()
OF_LIBC = "LOCPATH NLSPATH GCONV_PATH GETCONF_DIR HOSTALIASES LOCALDOMAIN RES_OPTIONS TZDIR MALLOC_TRACE".split()
# (what the loader loads into the command itself no script can hinder)
OF_LOADER = "LD_LIBRARY_PATH LD_BIND_NOW LD_ORIGIN_PATH LD_USE_LOAD_BIAS LD_PROFILE LD_DYNAMIC_WEAK".split()
FUNCTIONS = ("find mkdir touch flock uname sha256sum readlink cp mv rm cat cd printf read exec exit shopt set export "
             "unset env sort xargs bash cmp command test local").split()


def named_in(page: str, pattern: str) -> Set[str]:
    """The variables that a manual page names, where it is there."""
    names: Set[str] = set()
    for path in glob.glob(f"/usr/share/man/man1/{page}.1.gz"):
        with gzip.open(path, "rt", encoding="utf-8", errors="replace") as text:
            names |= set(re.findall(pattern, text.read(), re.MULTILINE))
    return names


def variables() -> List[str]:
    """All that may be said to a shell, to Python, to libc and to the loader."""
    found = named_in("bash", r"^\.B ([A-Z][A-Z_]{2,})$") | named_in("python3*", r"^(?:\.IP |\.B )?(PYTHON[A-Z0-9]+)")
    return sorted({*OF_SHELLS, *OF_PYTHON, *OF_LIBC, *OF_LOADER, *found} - {"LANG", "LC_ALL"})
