"""Runs real clients of isort over the package.

    clients.py PYTHON PACKAGES AS_ISORT [--files N] [FOLDER..]

PYTHON is a Python that has the clients: that of Debian, with the packages pylint, isort, flake8, python3-pylsp, neovim and
eric. PACKAGES is the folder in which fihroste is installed, and AS_ISORT that of its distribution named isort.

- flake8 finds the extension by its entry point, and prints its codes.
- pylint checks the order of imports in N (300) `*.py` files of the folders, over isort 5 and over the package, with one list
  of the standard library: its messages are the same.
- python-lsp-server finds the plugin, and answers over its pipe: diagnostics, formatting of documents, and the code action.
- Neovim, without its window, shows the diagnostics of that server, and its action sorts a buffer.
- eric's functions that sort and check files run without its window.

A client that is missing is skipped, with a line. Prints a line for each failure, and then 'N passed, M failed'."""

import argparse
import json
import os
import random
import shutil
import subprocess
import sys
import tempfile
from pathlib import Path

UNSORTED = "import os\nimport abc\n"
SORTED = "import abc\nimport os\n"
FAULT = "import os\nimport abc\nx = (\n"
SKIPPED = "# isort: skip_file\nimport os\nimport abc\n"
# It fits 88 characters, and not 79.
LONG = f"from m import {'a' * 35}, {'b' * 34}\n"
WIDE = "import os\n'\U0001d400' = (\n"
# The places of the faults: columns count units of UTF-16, and the character takes two.
FAULTS = {FAULT: [("I002", 2, 4)], WIDE: [("I002", 1, 7)]}
# Documents, and what formatting makes of them: None where they stay. What sorting changes begins with their first import.
DOCUMENTS = [
    (UNSORTED, SORTED),
    (SORTED, None),
    (FAULT, None),
    (WIDE, None),
    (SKIPPED, None),
    ("import own\nimport b\n", "import b\n\nimport own\n"),
    ("", None),
    ("import b\nimport a", "import a\nimport b"),
    ("import b\r\nimport a\r\n", "import a\r\nimport b\r\n"),
    ("x = '\U0001d400'\nimport b; import a\n", None),
    ("x = 1\nimport sys, os\n\ndef f(): pass\n", "x = 1\nimport os\nimport sys\n\n\ndef f(): pass\n"),
    ("from \u00e4 import b, a\n", "from \u00e4 import a, b\n"),
]
# What eric hands a file to, in a process of its own. Its window needs Qt, which stands here as a name alone.
ERIC = """
import contextlib, queue, sys
from unittest.mock import MagicMock
class Any(MagicMock):
    __path__ = []
for name in ("PyQt6", "PyQt6.QtCore", "PyQt6.QtGui", "PyQt6.QtWidgets", "PyQt6.Qsci", "eric7.EricWidgets",
             "eric7.EricWidgets.EricApplication", "eric7.CodeFormatting.Ui_IsortFormattingDialog",
             "eric7.CodeFormatting.FormattingDiffWidget", "eric7.Preferences", "eric7.Utilities"):
    sys.modules[name] = Any()
sys.modules["PyQt6.QtCore"].pyqtSlot = lambda *_: lambda function: function
sys.modules["PyQt6.QtWidgets"].QDialog = type("QDialog", (), {})
sys.modules["eric7.CodeFormatting.Ui_IsortFormattingDialog"].Ui_IsortFormattingDialog = type("Ui", (), {})
from eric7.CodeFormatting.IsortFormattingAction import IsortFormattingAction as action
from eric7.CodeFormatting.IsortFormattingDialog import IsortFormattingDialog as dialog
from isort import Config
config = Config(profile="black")
tasks, done = queue.Queue(), queue.Queue()
for name in sys.argv[1:]:
    assert config.is_supported_filetype(name) and not config.is_skipped(name)
    for what in (action.Diff, action.Sort, action.Diff):
        tasks.put((name, what))
tasks.put("STOP")
dialog.sortingWorkerTask(tasks, done, config)
while not done.empty():
    result = done.get()
    print(result.status, len(result.data.splitlines()))
"""

# What Neovim does with a file: it waits for diagnostics, prints those of the plugin, and makes the action.
NEOVIM = """
local client = vim.lsp.start_client({ cmd = { vim.env.CLIENT_PYTHON, '-m', 'pylsp' }, root_dir = vim.fn.getcwd() })
vim.lsp.buf_attach_client(0, client)
local function told()
  return vim.tbl_filter(function(one) return one.source == 'fihroste' end, vim.diagnostic.get(0))
end
vim.wait(60000, function() return #told() > 0 end)
for _, one in ipairs(told()) do io.stdout:write(one.code .. ' ' .. one.lnum .. ' ' .. one.message .. '\\n') end
local params = vim.lsp.util.make_range_params()
params.context = { only = { 'source.organizeImports' }, diagnostics = {} }
for _, answer in pairs(vim.lsp.buf_request_sync(0, 'textDocument/codeAction', params, 60000) or {}) do
  for _, action in ipairs(answer.result or {}) do vim.lsp.util.apply_workspace_edit(action.edit, 'utf-16') end
end
vim.cmd('write')
vim.cmd('quitall!')
"""


class Trials:
    def __init__(self, words):
        self.words = words
        self.passed = self.failed = 0

    def count(self, what, is_right, got=""):
        self.passed, self.failed = self.passed + is_right, self.failed + (not is_right)
        if not is_right:
            print(f"{what}: {got}")

    def environment(self, *folders):
        return {**os.environ, "PYTHONPATH": os.pathsep.join(folders), "PYTHONDONTWRITEBYTECODE": "1"}

    def has(self, module, package, *folders):
        command = [self.words.python, "-c", f"import {module}"]
        there = subprocess.run(command, env=self.environment(*folders), stderr=subprocess.DEVNULL).returncode == 0
        if not there:
            print(f"{module}: skipped, it is not installed (Debian: {package})")
        return there

    def run(self, words, folders, **how):
        command = [self.words.python, *words]
        return subprocess.run(command, env=self.environment(*folders), text=True, capture_output=True, **how)


def write(folder, name, text):
    path = Path(folder, name)
    path.write_bytes(text.encode())
    return str(path)


def try_flake8(trials):
    if not trials.has("flake8", "flake8"):
        return
    with tempfile.TemporaryDirectory() as folder:
        write(folder, "pyproject.toml", "[tool.isort]\nprofile = 'black'\n")
        for name, text in (("a.py", "x = 1\n" + UNSORTED), ("b.py", SORTED), ("c.py", SKIPPED), ("d.py", LONG)):
            write(folder, name, text)
        write(folder, "e.py", UNSORTED.replace("\n", "  # noqa\n"))
        command, packages = ["-m", "flake8", "--isolated", "--select", "I"], [trials.words.packages]
        run = trials.run([*command, "."], packages, cwd=folder)
        wanted = "./a.py:2:1: I001 imports are not sorted\n"
        trials.count("flake8", (run.returncode, run.stdout) == (1, wanted), run.stdout + run.stderr)
        # Python's parser takes this text, since it doesn't look into comments.
        path = write(folder, "f.py", "")
        Path(path).write_bytes(b"# coding: latin-1\nimport os\nimport abc\n# \xe4\n")
        run = trials.run([*command, path], packages, cwd=folder)
        wanted = f"{path}:2:1: I001 imports are not sorted\n"
        trials.count("flake8 of another coding", run.stdout == wanted, run.stdout + run.stderr)
        run = trials.run([*command, "-"], packages, cwd=folder, input=UNSORTED)
        wanted = "stdin:1:1: I001 imports are not sorted\n"
        trials.count("flake8 of a pipe", run.stdout == wanted, run.stdout + run.stderr)


def lists(trials, folders):
    run = trials.run(["-c", "import isort.stdlibs.py3 as it; print(*sorted(it.stdlib))"], folders)
    return set(run.stdout.split())


def try_pylint(trials):
    if not trials.has("pylint", "pylint") or not trials.has("isort", "isort"):
        return
    files = sorted(str(path) for folder in trials.words.folders for path in Path(folder).rglob("*.py"))
    chosen = sorted(random.Random(1).sample(files, min(trials.words.files, len(files))))
    over = {"isort 5": [], "fihroste": [trials.words.as_isort, trials.words.packages]}
    library = ",".join(sorted(set().union(*(lists(trials, folders) for folders in over.values()))))
    options = ["--disable=all", "--enable=wrong-import-order,ungrouped-imports", f"--known-standard-library={library}"]
    messages = {}
    with tempfile.TemporaryDirectory() as empty:
        for name, folders in over.items():
            command = ["-m", "pylint", "--rcfile=/dev/null", "--score=n", "--msg-template={abspath}:{line}:{msg}", *options]
            run = trials.run([*command, *chosen], folders, cwd=empty)
            messages[name] = [line for line in run.stdout.splitlines() if not line.startswith("*****")]
            trials.count(f"pylint over {name}", run.returncode & 32 == 0 and "Traceback" not in run.stderr, run.stderr[-2000:])
    differing = set(messages["isort 5"]) ^ set(messages["fihroste"])
    print(f"pylint: {len(chosen)} files, {len(messages['isort 5'])} messages")
    trials.count("pylint's messages", messages["isort 5"] == messages["fihroste"], "\n    ".join(sorted(differing)[:20]))


class Server:
    """python-lsp-server, spoken to over its pipes."""

    def __init__(self, trials, folder):
        command = [trials.words.python, "-m", "pylsp"]
        environment = trials.environment(trials.words.packages)
        self.process = subprocess.Popen(command, env=environment, cwd=folder, stdin=subprocess.PIPE, stdout=subprocess.PIPE,
                                        stderr=subprocess.DEVNULL)
        self.number = 0
        self.told = {}
        others = "pycodestyle pyflakes mccabe autopep8 yapf pyls_isort pylint flake8 rope_completion".split()
        settings = {"pylsp": {"plugins": {name: {"enabled": False} for name in others}}}
        self.ask("initialize", {"processId": None, "rootUri": Path(folder).as_uri(), "capabilities": {}})
        self.tell("initialized", {})
        self.tell("workspace/didChangeConfiguration", {"settings": settings})

    def send(self, message):
        body = json.dumps({"jsonrpc": "2.0", **message}).encode()
        self.process.stdin.write(b"Content-Length: %d\r\n\r\n%s" % (len(body), body))
        self.process.stdin.flush()

    def read(self):
        size = 0
        while (line := self.process.stdout.readline().strip()):
            if line.lower().startswith(b"content-length:"):
                size = int(line.split(b":")[1])
        message = json.loads(self.process.stdout.read(size))
        if message.get("method") == "textDocument/publishDiagnostics":
            self.told[message["params"]["uri"]] = message["params"]["diagnostics"]
        return message

    def tell(self, method, params):
        self.send({"method": method, "params": params})

    def ask(self, method, params):
        self.number += 1
        self.send({"id": self.number, "method": method, "params": params})
        while True:
            message = self.read()
            if message.get("id") == self.number and "method" not in message:
                return message

    def diagnostics(self, uri):
        while uri not in self.told:
            self.read()
        return self.told[uri]

    def end(self):
        self.ask("shutdown", None)
        self.tell("exit", None)
        return self.process.wait(timeout=30)


def applied(text, edits):
    """The text after edits of whole lines, from the last to the first."""
    lines = text.splitlines(keepends=True)
    for edit in sorted(edits, key=lambda edit: -edit["range"]["start"]["line"]):
        lines[edit["range"]["start"]["line"] : edit["range"]["end"]["line"]] = [edit["newText"]]
    return "".join(lines)


def try_pylsp(trials):
    if not trials.has("pylsp", "python3-pylsp"):
        return
    with tempfile.TemporaryDirectory() as folder:
        write(folder, "pyproject.toml", "[tool.isort]\nknown_first_party = ['own']\n")
        server = Server(trials, folder)
        for number, (text, wanted) in enumerate(DOCUMENTS):
            uri = Path(write(folder, f"document_{number}.py", text)).as_uri()
            document = {"uri": uri, "languageId": "python", "version": 1, "text": text}
            server.tell("textDocument/didOpen", {"textDocument": document})
            told = [one for one in server.diagnostics(uri) if one["source"] == "fihroste"]
            places = [(one["code"], *one["range"]["start"].values()) for one in told]
            line = next((at for at, row in enumerate(text.splitlines()) if row.startswith(("import", "from"))), 0)
            expected = FAULTS.get(text, [("I001", line, 0)] if wanted is not None else [])
            trials.count(f"diagnostics of {text!r}", places == expected, places)
            params = {"textDocument": {"uri": uri}, "options": {"tabSize": 4, "insertSpaces": True}}
            edits = server.ask("textDocument/formatting", params).get("result") or []
            trials.count(f"formatting of {text!r}", applied(text, edits) == (text if wanted is None else wanted), edits)
            whole = {"start": {"line": 0, "character": 0}, "end": {"line": 99, "character": 0}}
            for only in (["source.organizeImports"], ["source"], None):
                context = {"diagnostics": [], **({"only": only} if only else {})}
                params = {"textDocument": {"uri": uri}, "range": whole, "context": context}
                answer = server.ask("textDocument/codeAction", params)
                actions = [one for one in answer.get("result") or [] if one["kind"] == "source.organizeImports"]
                made = [applied(text, one["edit"]["changes"][uri]) for one in actions]
                trials.count(f"action for {text!r}", made == ([] if wanted is None else [wanted]), made)
        trials.count("pylsp ends", server.end() == 0)


def try_neovim(trials):
    if not shutil.which("nvim"):
        print("nvim: skipped, it is not installed (Debian: neovim)")
        return
    if not trials.has("pylsp", "python3-pylsp"):
        return
    with tempfile.TemporaryDirectory() as folder:
        script = write(folder, "script.lua", NEOVIM)
        environment = {**trials.environment(trials.words.packages), "CLIENT_PYTHON": trials.words.python, "HOME": folder}
        for name, text, wanted, told in (
            ("a.py", UNSORTED, SORTED, "I001 0 imports are not sorted\n"),
            ("b.py", FAULT, FAULT, "I002 2 F6 bracket not closed\n"),
        ):
            path = write(folder, name, text)
            command = ["nvim", "--headless", "-u", "NONE", "-i", "NONE", path, "-c", f"luafile {script}"]
            run = subprocess.run(command, cwd=folder, env=environment, text=True, capture_output=True, timeout=180)
            is_right = (run.stdout, Path(path).read_text()) == (told, wanted)
            trials.count(f"Neovim over {text!r}", is_right, run.stdout + run.stderr)


def try_eric(trials):
    folders = [trials.words.as_isort, trials.words.packages]
    if not trials.has("eric7.CodeFormatting", "eric", *folders):
        return
    with tempfile.TemporaryDirectory() as folder:
        path = write(folder, "a.py", UNSORTED)
        run = trials.run(["-c", ERIC, path], folders)
        trials.count("eric", run.stdout == "changed 6\nchanged 0\nunchanged 0\n", run.stdout + run.stderr)
        trials.count("eric's file", Path(path).read_text() == SORTED)


def main():
    parser = argparse.ArgumentParser()
    parser.add_argument("python")
    parser.add_argument("packages")
    parser.add_argument("as_isort")
    parser.add_argument("--files", type=int, default=300)
    parser.add_argument("folders", nargs="*")
    trials = Trials(parser.parse_intermixed_args())
    try_flake8(trials)
    try_pylint(trials)
    try_pylsp(trials)
    try_neovim(trials)
    try_eric(trials)
    print(f"{trials.passed} passed, {trials.failed} failed")
    return 1 if trials.failed else 0


if __name__ == "__main__":
    sys.exit(main())
