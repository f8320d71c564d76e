"""The list of the standard library, which docs/SETTINGS.md prints."""

stdlib = set(
    """
    abc argparse array ast asyncio atexit base64 bisect builtins bz2 calendar cmath cmd code codecs
    collections colorsys compileall concurrent configparser contextlib contextvars copy copyreg csv ctypes
    curses dataclasses datetime dbm decimal difflib dis doctest email encodings enum errno faulthandler fcntl
    filecmp fileinput fnmatch fractions ftplib functools gc getopt getpass gettext glob graphlib grp gzip
    hashlib heapq hmac html http imaplib importlib inspect io ipaddress itertools json keyword linecache
    locale logging lzma mailbox marshal math mimetypes mmap multiprocessing netrc numbers operator os pathlib
    pdb pickle pkgutil platform plistlib poplib posixpath pprint profile pstats pty pwd queue quopri random re
    readline reprlib resource runpy sched secrets select selectors shelve shlex shutil signal site smtplib
    socket socketserver sqlite3 ssl stat statistics string struct subprocess symtable sys sysconfig syslog
    tempfile termios textwrap threading time timeit tkinter token tokenize tomllib trace traceback tracemalloc
    tty turtle types typing unicodedata unittest urllib uuid venv warnings wave weakref webbrowser winreg
    wsgiref xml xmlrpc zipapp zipfile zipimport zlib zoneinfo
    """.split()
)
