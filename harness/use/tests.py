"""The program as a person uses it: files, options, exit status, messages, a terminal, tables, explanations, and an installation.

    python3 harness/use/tests.py
"""
import glob
import os
import pty
import re
import select
import shutil
import signal
import socket
import struct
import subprocess
import tempfile
import time
import unittest

import expected

ROOT = os.path.dirname(os.path.dirname(os.path.dirname(os.path.abspath(__file__))))
PROGRAM = os.path.join(ROOT, "target/bin/statement")
INPUTS = sorted(glob.glob(os.path.join(ROOT, "examples/*.in")))
PAPER = os.path.join(ROOT, "examples/paper.in")
TIME_LIMIT = 20


def text(path):
    with open(path, "rb") as file:
        return file.read().decode("latin-1")


def run(*arguments, **options):
    """Runs the program, with nothing on standard input unless a test says so."""
    options = {"stdin": subprocess.DEVNULL, "stdout": subprocess.PIPE, "stderr": subprocess.PIPE, "timeout": TIME_LIMIT} | options
    return subprocess.run([PROGRAM, *arguments], encoding="latin-1", check=False, **options)


PAGE = text(os.path.join(ROOT, "docs/STATEMENT.md"))
KNOWN = expected.words(PAGE)
MONTHS = ["bill=2001-02\ncritical=0\nrun=2688,100,0\n", "bill=2001-03\n"]


class Files(unittest.TestCase):
    def test_every_example_from_a_file_and_from_standard_input(self):
        for path in INPUTS:
            printed = text(path.removesuffix(".in") + ".out")
            with open(path, "rb") as file:
                for ended in run(path), run(stdin=file), run("--", path):
                    self.assertEqual((ended.stdout, ended.stderr, ended.returncode), (printed, "", expected.status(printed)), path)
                    file.seek(0)

    def test_byte_by_byte_through_a_pipe(self):
        names = ["teacher-3-credit-falls-to-cheaper-hours", "fine-no-final-newline", "line-after-a-complete-month"]
        names += ["fine-eight-nameplates-of-ten-digits", "line-nameplates-of-98-bytes"]  # the longest line, and a byte more
        for name in names:
            child = subprocess.Popen([PROGRAM], stdin=subprocess.PIPE, stdout=subprocess.PIPE, bufsize=0)
            try:
                for byte in text(os.path.join(ROOT, f"examples/{name}.in")).encode("latin-1"):
                    child.stdin.write(bytes([byte]))
                    time.sleep(0.0003)
            except BrokenPipeError:
                pass  # the program stops at the first line that it cannot read
            printed = child.communicate(timeout=TIME_LIMIT)[0].decode("latin-1")
            self.assertEqual(printed, text(os.path.join(ROOT, f"examples/{name}.out")))

    def test_dash_is_standard_input(self):
        for arguments in ["-"], ["--", "-"]:
            with open(PAPER, "rb") as file:
                self.assertEqual(run(*arguments, stdin=file).stdout, text(PAPER.removesuffix(".in") + ".out"))

    def test_a_file_whose_name_looks_like_an_option(self):
        with tempfile.TemporaryDirectory() as folder:
            with open(os.path.join(folder, "--table"), "w", encoding="ascii") as file:
                file.write(text(PAPER))
            ended = run("--", "--table", cwd=folder)
        self.assertEqual(ended.stdout, text(PAPER.removesuffix(".in") + ".out"))

    def test_wrong_use(self):
        cases = [
            (["nowhere.in"], "statement: nowhere.in: No such file or directory\n"),
            ([""], "statement: : No such file or directory\n"),
            (["--tables"], "statement: unknown option '--tables'; statement --help says what there is\n"),
            (["-t"], "statement: unknown option '-t'; statement --help says what there is\n"),
            (["--help=no"], "statement: unknown option '--help=no'; statement --help says what there is\n"),
            ([PAPER, "other.in"], "statement: one file at most, so not also 'other.in'; statement --help says what there is\n"),
            (["-", "-"], "statement: one file at most, so not also '-'; statement --help says what there is\n"),
            (["--help", "--nothing"], "statement: unknown option '--nothing'; statement --help says what there is\n"),
        ]
        for arguments, message in cases:
            ended = run(*arguments)
            self.assertEqual((ended.stdout, ended.stderr, ended.returncode), ("", message, 3), arguments)

    def test_files_that_cannot_be_opened(self):
        with tempfile.TemporaryDirectory() as folder:
            circle = os.path.join(folder, "circle")
            os.symlink(circle, circle)
            for name, reason in (f"{PAPER}/below", "Not a directory"), (circle, "Too many levels of symbolic links"):
                ended = run(name)
                self.assertEqual((ended.stdout, ended.stderr, ended.returncode), ("", f"statement: {name}: {reason}\n", 3))


class Failures(unittest.TestCase):
    def refused(self, ended, message, printed=""):
        self.assertEqual((ended.stdout or "", ended.stderr, ended.returncode), (printed, message, 4))

    def test_output_that_cannot_be_written(self):
        with open("/dev/full", "wb") as full:
            for arguments in [PAPER], ["--table", PAPER], ["--help"], ["--version"]:
                self.refused(run(*arguments, stdout=full), "statement: standard output: No space left on device\n")
            self.refused(run("--explain", PAPER, stdout=full), "statement: standard output or standard error: No space left on device\n")

    def test_closed_standard_output(self):
        for arguments in [PAPER], ["--table", PAPER], ["--help"], []:
            with open(PAPER, "rb") as file:
                ended = run(*arguments, stdin=file, stdout=None, preexec_fn=lambda: os.close(1))
            self.refused(ended, "statement: standard output: Bad file descriptor\n")

    def test_input_that_cannot_be_read(self):
        self.refused(run(ROOT), f"statement: {ROOT}: Is a directory\n")
        folder = os.open(ROOT, os.O_RDONLY)
        self.refused(run(stdin=folder), "statement: standard input: Is a directory\n")
        os.close(folder)
        self.refused(run(stdin=None, preexec_fn=lambda: os.close(0)), "statement: standard input: Bad file descriptor\n")
        self.refused(run("/proc/self/mem"), "statement: /proc/self/mem: Input/output error\n")

    def test_input_that_fails_on_the_way(self):
        """A connection that is reset. The month so far is not printed: the input has not ended there."""
        with socket.create_server(("127.0.0.1", 0)) as server:
            writer = socket.create_connection(server.getsockname())
            reader, _ = server.accept()
        child = subprocess.Popen([PROGRAM], stdin=reader, stdout=subprocess.PIPE, stderr=subprocess.PIPE, encoding="latin-1")
        reader.close()
        writer.sendall(text(PAPER).encode())
        printed = child.stdout.readline()
        writer.setsockopt(socket.SOL_SOCKET, socket.SO_LINGER, struct.pack("ii", 1, 0))
        writer.close()
        rest, messages = child.communicate(timeout=TIME_LIMIT)
        self.assertEqual((printed + rest, messages, child.returncode), ("open=0\n", "statement: standard input: Connection reset by peer\n", 4))

    def test_calls_that_fail_at_last(self):
        """A close that tells that what was written is lost, and a write that takes nothing, by a library in the place of the system's."""
        cases = {
            "int close(int file) { if (file == 1) { errno = EDQUOT; return -1; } return 0; }": "Disk quota exceeded",
            "ssize_t write(int file, const void *bytes, size_t count) { (void)bytes; return file == 1 ? 0 : syscall(SYS_write, file, bytes, count); }":
                "nothing more can be written",
        }
        for code, reason in cases.items():
            with tempfile.TemporaryDirectory() as folder:
                library = os.path.join(folder, "calls.so")
                source = f"#include <errno.h>\n#include <sys/syscall.h>\n#include <unistd.h>\nlong syscall(long number, ...);\n{code}\n"
                subprocess.run(["cc", "-shared", "-fPIC", "-x", "c", "-", "-o", library], input=source, encoding="ascii", check=True)
                ended = run(PAPER, env=os.environ | {"LD_PRELOAD": library})
            self.assertEqual((ended.stderr, ended.returncode), (f"statement: standard output: {reason}\n", 4))

    def test_explanations_that_cannot_be_written(self):
        """They stop the statement behind the line that they belong to: nothing is lost in silence."""
        path = os.path.join(ROOT, "examples/answer-7-month.in")
        lines = text(path.removesuffix(".in") + ".out").splitlines(keepends=True)
        with open("/dev/full", "wb") as full:
            ended = run("--explain", path, stderr=full)
        self.assertEqual((ended.stdout, ended.returncode), ("".join(lines[:2]), 4))

    def test_a_reader_who_has_seen_enough(self):
        """Ends by the signal and without a word, also where whoever starts it ignores that signal."""
        for start in None, lambda: signal.signal(signal.SIGPIPE, signal.SIG_IGN):
            reader, writer = os.pipe()
            os.close(reader)
            ended = run(PAPER, stdout=writer, preexec_fn=start)
            os.close(writer)
            self.assertEqual((ended.stderr, ended.returncode), ("", -signal.SIGPIPE))


class Options(unittest.TestCase):
    def test_help_has_an_input_that_runs(self):
        ended = run("--help")
        template = ended.stdout[ended.stdout.index("opens="):]
        self.assertEqual((ended.stderr, ended.returncode, len(template.splitlines())), ("", 0, 17))
        ran = run(input=template, stdin=None)
        self.assertEqual((ran.stdout.splitlines()[0], ran.stdout.count("\n"), ran.stderr, ran.returncode), ("open=0", 2, "", 0))
        for option in "--table", "--explain", "--help", "--version":
            self.assertIn(f"\n  {option} ", ended.stdout)
        self.assertLessEqual(max(map(len, ended.stdout.splitlines())), 80)

    def test_version(self):
        self.assertEqual(run("--version").stdout, f"statement {text(os.path.join(ROOT, 'VERSION'))}")

    def test_the_page_and_the_help_say_the_same_of_the_statuses(self):
        documented = dict(re.findall(r"^\| (\d) \| (.*?) \|$", PAGE.partition("## Exit status")[2], re.M))
        self.assertEqual(list(documented), ["0", "1", "2", "3", "4", "5"])
        told = re.search(r"Exit status: (.*?)\.\n\n", run("--help").stdout, re.S)[1].replace("\n", " ")
        self.assertEqual(re.findall(r"\d", told), list("01234"))
        for status, word in zip("01234", ["accepted", "refused", "stopped", "wrong use", "failed"]):
            said = re.search(rf"{status} ([^\d]*)", told)[1]
            self.assertTrue(word in said and word in documented[status], (said, documented[status]))

    def test_the_pages_table_is_printed(self):
        shown = re.search(r"^    2001-02 .*?^    due .*?$", PAGE, re.S | re.M)[0]
        self.assertIn("\n".join(line.removeprefix("    ") for line in shown.splitlines()), run("--table", PAPER).stdout)

    def test_each_explanation_follows_its_line(self):
        for path in INPUTS:
            lines = text(path.removesuffix(".in") + ".out").splitlines(keepends=True)
            for options, shown in (["--explain"], str), (["--explain", "--table"], lambda line: expected.table(line, KNOWN)):
                both = "".join(shown(line) + expected.explanations(line, KNOWN) for line in lines)
                self.assertEqual(run(*options, path, stderr=subprocess.STDOUT).stdout, both, path)

    def test_tables(self):
        for path in INPUTS:
            printed = text(path.removesuffix(".in") + ".out")
            ended = run("--table", path)
            self.assertEqual((ended.stdout, ended.stderr, ended.returncode), (expected.table(printed, KNOWN), "", expected.status(printed)), path)

    def test_explanations(self):
        for path in INPUTS:
            printed = text(path.removesuffix(".in") + ".out")
            ended = run(path, "--explain")
            told = expected.explanations(printed, KNOWN), expected.status(printed)
            self.assertEqual((ended.stdout, ended.stderr, ended.returncode), (printed, *told), path)
            both = run("--explain", path, "--table")
            self.assertEqual((both.stdout, both.stderr, both.returncode), (expected.table(printed, KNOWN), *told), path)

    def test_examples_tell_every_refusal(self):
        told = {expected.refusal(line) for path in INPUTS for line in text(path.removesuffix(".in") + ".out").splitlines()}
        self.assertEqual(told - {None}, set(KNOWN))

    def test_tables_worked_out_by_hand(self):
        paths = glob.glob(os.path.join(ROOT, "examples/*.table"))
        self.assertGreaterEqual(len(paths), 2)
        for path in paths:
            self.assertEqual(run("--table", path.removesuffix(".table") + ".in").stdout, text(path), path)


class Terminal(unittest.TestCase):
    """A pseudo-terminal as standard input and standard error."""

    def setUp(self):
        self.master, self.slave = pty.openpty()

    def tearDown(self):
        os.close(self.master)
        os.close(self.slave)

    def start(self, *arguments):
        return subprocess.Popen([PROGRAM, *arguments], stdin=self.slave, stdout=subprocess.PIPE, stderr=subprocess.PIPE, bufsize=0)

    def comes(self, stream, end, limit=TIME_LIMIT):
        """What comes until a text ends so, which it must."""
        found, deadline = b"", time.monotonic() + limit
        while not found.endswith(end):
            self.assertTrue(select.select([stream], [], [], max(0, deadline - time.monotonic()))[0], f"so far there is {found}")
            piece = os.read(stream.fileno(), 4096)
            self.assertTrue(piece, f"it ends after {found}")
            found += piece
        return found.decode("latin-1")

    HINT = "statement: type the account's fourteen lines and its months (statement --help shows them); Ctrl-D ends the input\n"

    def typed(self, arguments, shown):
        """Types an account and two months. Each answer must come before the next line is typed; Ctrl-D ends the input."""
        child = self.start(*arguments)
        self.assertEqual(self.comes(child.stderr, b"\n"), self.HINT)
        lines = text(PAPER).splitlines(keepends=True)
        printed = text(PAPER.removesuffix(".in") + ".out").splitlines(keepends=True)
        os.write(self.master, "".join(lines[:14]).encode())
        opened = shown(printed[0])
        self.assertEqual(self.comes(child.stdout, opened.encode()), opened)
        os.write(self.master, "".join(MONTHS).encode())
        month = shown(printed[1])
        self.assertEqual(self.comes(child.stdout, month.encode()), month)
        os.write(self.master, b"\x04")
        rest, errors = child.communicate(timeout=TIME_LIMIT)
        self.assertEqual((rest.decode(), errors.decode(), child.returncode), (shown("line=19\n"), "", 2))

    def test_typed_lines(self):
        self.typed([], str)

    def test_typed_lines_from_standard_input_by_name(self):
        self.typed(["-"], str)

    def test_typed_lines_as_tables(self):
        self.typed(["--table"], lambda line: expected.table(line, KNOWN))

    def test_a_file_at_a_terminal(self):
        child = self.start(PAPER)
        self.assertEqual(child.communicate(timeout=TIME_LIMIT)[1], b"")


class Script(unittest.TestCase):
    """The script `./statement`, with another script in the place of the build."""

    def setUp(self):
        folder = tempfile.TemporaryDirectory()
        self.addCleanup(folder.cleanup)
        self.root = os.path.join(folder.name, "a copy")
        for name in "program", "crates/one/src", "crates/one/specs", "crates/one/proofs", "target/bin", "elsewhere":
            os.makedirs(os.path.join(self.root, name))
        for name in "crates.txt", "VERSION", "crates/one/src/lib.rt":
            self.write(name, "")
        self.write("statement", text(os.path.join(ROOT, "statement")))
        program = "#!/bin/sh\nprintf '%s.' \"$@\"\nexit 2\n"
        self.write("program/build", f"#!/bin/sh\ncat > '{self.root}/target/bin/statement' << 'END'\n{program}END\nchmod 700 '{self.root}/target/bin/statement'\n")

    def write(self, name, content):
        path = os.path.join(self.root, name)
        with open(path, "w", encoding="utf-8") as file:
            file.write(content)
        os.chmod(path, 0o700)

    def run_script(self, *arguments, script="statement", **options):
        options = {"cwd": os.path.join(self.root, "elsewhere"), "stderr": subprocess.PIPE} | options
        return subprocess.run([os.path.join(self.root, script), *arguments], stdin=subprocess.DEVNULL, stdout=subprocess.PIPE, encoding="latin-1", check=False, timeout=TIME_LIMIT, **options)

    def test_builds_once_and_passes_on(self):
        os.symlink(os.path.join(self.root, "statement"), os.path.join(self.root, "link"))
        first, second = self.run_script("--table", "a b"), self.run_script("--table", "a b", script="link")
        self.assertEqual((first.stdout, first.returncode), ("--table.a b.", 2))
        self.assertIn("building the program", first.stderr)
        self.assertEqual((second.stdout, second.stderr, second.returncode), ("--table.a b.", "", 2))

    def test_builds_again_after_a_change(self):
        self.run_script()
        later = time.time() + 60
        os.utime(os.path.join(self.root, "crates/one/src/lib.rt"), (later, later))
        self.assertIn("building the program", self.run_script().stderr)

    def test_a_build_that_fails(self):
        self.write("program/build", "#!/bin/sh\nexit 1\n")
        ended = self.run_script()
        self.assertEqual((ended.stdout, ended.returncode), ("", 5))
        self.assertIn("could not be built", ended.stderr)

    def test_messages_that_cannot_be_written(self):
        self.assertEqual(self.run_script(stderr=None, preexec_fn=lambda: os.close(2)).returncode, 5)


class Installation(unittest.TestCase):
    def test_below_a_folder(self):
        with tempfile.TemporaryDirectory() as folder:
            prefix = os.path.join(folder, "a prefix")
            environment = os.environ | {"PKG_CONFIG_PATH": os.path.join(prefix, "lib/pkgconfig")}
            told = subprocess.run([os.path.join(ROOT, "install"), prefix], check=True, stdout=subprocess.PIPE, encoding="latin-1", cwd=folder).stdout
            ended = subprocess.run([os.path.join(prefix, "bin/statement"), PAPER], check=True, stdout=subprocess.PIPE, encoding="latin-1", cwd=folder)
            self.assertEqual(ended.stdout, text(PAPER.removesuffix(".in") + ".out"))
            shutil.copy(os.path.join(ROOT, "examples/bill.c"), folder)
            commands = [line.strip() for line in told.splitlines() if line.startswith("  ")]
            self.assertEqual(len(commands), 2)
            command = "\n".join(["set -e", *commands]).replace("FILE.c", "-Wall -Werror bill.c -o bill") + " && ./bill"
            built = subprocess.run(["bash", "-c", command], check=True, stdout=subprocess.PIPE, encoding="latin-1", cwd=folder)
            self.assertEqual(built.stdout, text(os.path.join(ROOT, "examples/bill.expected")))
            version = subprocess.run(["pkg-config", "--modversion", "kozempil"], check=True, stdout=subprocess.PIPE, encoding="latin-1", env=environment)
            self.assertEqual(version.stdout, text(os.path.join(ROOT, "VERSION")))

    def test_wrong_use(self):
        for arguments in [], ["a", "b"], ["--help"], [""]:
            ended = subprocess.run([os.path.join(ROOT, "install"), *arguments], check=False, stdout=subprocess.PIPE, stderr=subprocess.PIPE)
            self.assertEqual((ended.stdout, ended.returncode), (b"", 3))


if __name__ == "__main__":
    unittest.main()
