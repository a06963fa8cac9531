"""Tests of the gate's own scripts, on small repositories in a temporary folder: the good one passes, and each wrong one fails with the message
that says why. In the place of `rt` stands a program whose logs are cut down from those that it writes. It runs in seconds.
"""
import contextlib
import io
import os
import shutil
import subprocess
import sys
import tempfile
import unittest
from concurrent.futures import ThreadPoolExecutor
from unittest import mock

import contracts
import layout
import memory
import refused
import source
import theorems

SCRIPTS = {"layout": layout, "contracts": contracts, "theorems": theorems, "refused": refused}
HERE = os.path.dirname(os.path.abspath(__file__))
ENSURES = "ensures { result ≡ x }"

# Public functions named f, with their clauses in the place of the @, in every shape of head.
SHAPES = {
    "brace on the next line": "pub fn f(x: u32) -> u32\n    @\n{\n    x\n}\n",
    "brace on its line": "pub fn f(x: u32) -> u32 @ {\n    x\n}\n",
    "all on one line": "pub fn f(x: u32) -> u32 @ { x }\n",
    "no blanks": "pub fn f(x:u32)->u32 @{x}\n",
    "parameters on many lines": "pub fn f(\n    x: u32,\n    y: u32,\n) -> u32\n    @\n{\n    x\n}\n",
    "keywords on many lines": "pub\nfn\nf(x: u32) -> u32 @\n{ x }\n",
    "exported to C": '#[unsafe(no_mangle)]\npub extern "C" fn f(x: u32) -> u32\n    @\n{\n    x\n}\n',
    "exported, not pub": '#[unsafe(no_mangle)] extern "C" fn f(x: u32) -> u32 @ { x }\n',
    "after what is said of the file": "#![tactic(auto)]\npub fn f(x: u32) -> u32 @ { x }\n",
    "with lemmas for its search": "#[tactic(auto, using(a.b))]\npub fn f(x: u32) -> u32 @ { x }\n",
    "const fn": "pub const fn f(x: u32) -> u32 @ { x }\n",
    "attributes": "#[a] #[b(c)]\n#[d]\npub fn f(x: u32) -> u32 @ { x }\n",
    "lifetimes": "pub fn f<'a, 'b>(x: &'a [u8], y: &'b mut [u8]) -> &'a [u8] @ { x }\n",
    "braces in the type": "pub fn f(x: u32) -> [u8; { 3 }] @ { [0; { 3 }] }\n",
    "where": "pub fn f(x: u32) -> u32 where @ { x }\n",
    "line comment in the head": "pub fn f(x: u32) -> u32 // ensures { result ≡ x }\n    @\n{ x }\n",
    "comments in comments": "pub fn f(x: u32) -> u32 /* a /* b */ ensures { result ≡ x } */ @ { x }\n",
    "comment before": "/* { */ // }\npub fn f(x: u32) -> u32 @ { x }\n",
    "literals in the body": "pub fn f(x: u32) -> u32 @ { g(b\"}/*\\\"\", b'{', b'\\'', '\"') }\n",
    "a raw literal in the body": "pub fn f(x: u32) -> u32 @ { g(br\"\\\", b\"{\") }\n",
    "a raw literal with marks": "pub fn f(x: u32) -> u32 @ { g(br#\"\"}\"#) }\n",
    "blocks in the body": "pub fn f(x: u32) -> u32 @ { if x == 1 { x } else { match x { 2 => { x } _ => x } } }\n",
}
# The same in a block of a type, in a module, and in both.
BLOCKS = {
    "": "@",
    "T::": "struct T { x: u32 }\nimpl T {\n@}\n",
    "m::": "pub mod m {\n@}\n",
    "m::R::": "mod m {\n    struct R<'a> { x: &'a [u8] }\n    impl<'a> R<'a> {\n@    }\n}\n",
}
# What gives a contract, in every shape of a clause.
CLAUSES = {
    "plain": ENSURES,
    "named": "ensures bounded { result ≡ x }",
    "starred": "ensures* { ⌜ result ≡ x ⌝ }",
    "starred and named": "ensures* bounded { ⌜ result ≡ x ⌝ }",
    "braces within": "ensures { result ≡ g {A = ℕ} (record { a = { x } }) }",
    "two on one line": "ensures one { result ≡ x } ensures two { result ≡ x }",
    "antt's comments": "ensures { -- }\n {- } {- { -} -} result ≡ x }",
    "a name with dashes": "ensures { λ r--. r-- ≡ x }",
    "a text": 'ensures { result ≡ g "}\\"" }',
    "code in brackets": "ensures { λ r. do ⌜ r ≡ (← ⟦if x == 1 { b'}' } else {-1}⟧.old) ⌝ }",
    "comment before the name": "ensures /* } */ named // {\n { result ≡ x }",
}
AFTER = f"\npub fn after(x: u32) -> u32\n    {ENSURES}\n{{\n    x\n}}\n"

GOOD = {
    "crates.txt": "# NAME: DEP DEP ..\nsums staticlib: std\nrun: sums io\n",
    "README.md": "# R\n\nThe theorems about the definitions alone are `adds : Adds` in `crates/sums/proofs/Laws.antt` and `same` in\n"
    "`crates/sums/proofs`. `Other` is no theorem.\n",
    ".ci/theorems.txt": "# CRATE FILE NAME : STATEMENT\nsums proofs/Laws.antt adds : Adds\n"
    "sums proofs/Laws.antt same : (n : ℕ) → (sum_of n).all ≡ n\n",
    "crates/sums/src/lib.rt": "// Sums.\n#![tactic(auto)]\n\nghost use Rattle.std.specs.Prelude.{◌≡◌};\nmod more;\nconst ONE: u32 = 1;\nconst TWO: u32 = ONE + 1;\n\n"
    f"fn helper(x: u32) -> u32 {{\n    x + 0\n}}\n\npub fn double(x: u32) -> u32\n    {ENSURES}\n{{\n    helper(x) * TWO\n}}\n\n"
    f"pub fn plain(x: u32) -> u32 {ENSURES} {{\n    (x + 7) * 1\n}}\n",
    "crates/sums/src/more.rt": f"pub struct S {{ x: u32 }}\nimpl S {{\n    pub fn get(self) -> u32 {ENSURES} {{ self.x }}\n}}\n",
    "crates/sums/specs/Lib.antt": "pub mod Sums\n",
    "crates/sums/specs/Sums.antt": "pub sum_of : ℕ → ℕ\nsum_of n = n\n",
    "crates/sums/proofs/Lib.antt": "-- mod Gone\npub mod Laws\nmod Steps\n",
    "crates/sums/proofs/Laws.antt": "use Prim.Native.Nat.{ℕ, ◌+◌}\nuse mathlib.Core.Path.{◌≡◌, refl}\nuse Rattle.sums.specs.Sums.{Adds, sum_of}\n"
    "use Rattle.sums.proofs.Steps.{step as stepping}\n\n-- Why.\npub adds : Adds\nunfolding sum_of\nadds = record { a = refl }\n\n"
    "pub same : (n : ℕ)\n    → (sum_of n).all ≡ n\nsame zero = refl\nsame (suc n) =\n    stepping n\n",
    "crates/sums/proofs/Steps.antt": "pub step : ℕ\nstep = 1\n",
    "crates/sums/proofs/double/Answers.antt": "use Rattle.sums.proofs.double.Goals as goal\n\npub returns : goal.returns\nreturns c = cc c.helper.ensures\n",
    "crates/sums/proofs/double/Invariants.antt": "",
    "crates/sums/must-fail/wrong_code.edit": "# helped, refused at helper: returns\nfile: src/lib.rt\nold: x + 0\nnew: x + 1\n\n"
    "# eight, refused at plain: returns\nfile: src/lib.rt\nold: x + 7\nnew: x + 8\n\n"
    "# got, refused at more::S::get: returns\nfile: src/more.rt\nold: self.x\nnew: self.x + 1\n",
    "crates/sums/must-fail/thrice.edit": "# thrice, refused at double: returns\nfile: src/lib.rt\nold: ONE + 1\nnew: ONE + 2\n",
    "crates/sums/must-fail/definition.edit": "# definition, refused at Laws: adds\nfile: specs/Sums.antt\nold: sum_of n = n\nnew: sum_of n = 0\n",
    "crates/sums/must-fail/stepped.edit": "# stepped, refused at Steps: step\nfile: specs/Sums.antt\nold: ℕ → ℕ\nnew: ℕ → ℕ → ℕ\n",
    "crates/sums/must-fail/contract.edit": "# contract, refused at plain: returns\nfile: src/lib.rt\nold: fn plain(x: u32)\nnew: fn plain(y: u32)\n",
    "crates/sums/must-fail/got_two.edit": "# got_two, refused at more::S::get: returns\nfile: src/more.rt\nold: self.x\nnew: self.x + 2\n",
    "crates/run/src/main.rt": "fn main() {}\n",
    "crates/run/stdin": "",
    "crates/run/stdout": "",
    "crates/run/status": "",
    "crates/run/data/a": "",
    "crates/run/out/made.rt": "",
    "examples/a.in": "",
    "harness/target/made.rt": "",
    "logs/sums/log": "fn sums::helper: proved\nfn sums::double: proved\nfn sums::plain: proved\nfn sums::more::S::get: proved\nlogic=proved\n",
    "logs/run/log": "fn run::main: proved\nlogic=proved\n",
}
FAILS = {  # the errors that the log of each edit has
    "wrong_code": [("helper/Answers", "returns", ""), ("plain/Answers", "returns", ""), ("more/S/get/Answers", "returns", "")],
    "thrice": [("+double/Invariants", "returns", "")],
    "definition": [("Laws", "adds", ""), ("Laws", "same", f"`adds` {refused.FOLLOWS}")],
    "stepped": [("Steps", "step", "")],
    "contract": [("plain/Answers", "returns", "")],
}
SEARCHED = "fn sums::more::S::get: no proof: expected answers in ./proofs/more/S/get/Answers.antt; `search` did not prove `fits`, `returns`\nlogic=not-proved\n"
# In the place of rt: prints the log whose marks, one to a line, all stand in the crate; where more than one fits, that with the most.
RT = """#!/usr/bin/env -S python3 -ISE
import glob, os, sys
if sys.argv[1] == "version":
    sys.exit(print("kit"))
read = lambda path: open(path, encoding="utf-8").read()
texts = "".join(read(path) for part in ("src", "specs", "proofs") for path in glob.glob(f"{part}/**/*.*", recursive=True))
fits = []
for path in glob.glob(f"{os.environ['LOGS']}/{os.path.basename(os.getcwd())}/**/log", recursive=True):
    marks = path[:-3] + "marks"
    lines = read(marks).splitlines() if os.path.exists(marks) else []
    fits += [(len(lines), path)] if all(line in texts for line in lines) else []
log = read(max(fits)[1])
print(log, end="")
open(f"{os.environ['LOGS']}/tried", "a", encoding="utf-8").write(f"{os.getcwd()}\\n")
sys.exit("logic=proved" not in log)
"""


def log(facts):
    return "".join(f"./proofs/{path}.antt:1:2: error: `{fact}`: {why or 'no'}\n" for path, fact, why in facts) + "logic=not-proved\n"


# What the prover calls an `impl`.
IMPLS = {
    " S": "S", "<T> S<T>": "S", "<'a> S<'a>": "S", " Clone for S": "SClone", " fmt::Display for S": "SDisplay", "<T> Iterator for S<T>": "SIterator",
    " From<Refusal> for u32": "U32FromRefusal", "<'a> From<&'a S> for T": "TFromS", " TryFrom<u64> for a::S": "STryFromU64",
}


class Repository(unittest.TestCase):
    """A good repository in a temporary folder, to be made wrong."""

    def setUp(self):
        self.root = tempfile.mkdtemp()
        self.addCleanup(shutil.rmtree, self.root)
        self.addCleanup(os.chdir, os.getcwd())
        os.chdir(self.root)
        for name, text in GOOD.items():
            self.write(name, text)
        for label, facts in FAILS.items():
            self.refuses(label, log(facts))
        self.refuses("got_two", SEARCHED)
        self.write("bin/rt", RT)
        os.chmod("bin/rt", 0o700)
        path = f"{self.root}/bin:{os.environ['PATH']}"
        environment = mock.patch.dict(os.environ, {"LOGS": f"{self.root}/logs", "PATH": path, "XDG_CACHE_HOME": f"{self.root}/cache"})
        self.addCleanup(environment.stop)
        environment.start()

    def forget(self):
        refused.version.cache_clear()
        refused.sum_of_text.cache_clear()

    def refuses(self, label, text):
        """Has the prover say something of an edit."""
        lines = source.read(f"crates/sums/must-fail/{label}.edit").splitlines()
        marks = [line[5:] for line in lines if line.startswith("new: ") and f"old: {line[5:]}" not in lines]
        self.write(f"logs/sums/{label}/marks", "".join(f"{mark}\n" for mark in marks))
        self.write(f"logs/sums/{label}/log", text)

    def write(self, name, text):
        os.makedirs(os.path.dirname(name) or ".", exist_ok=True)
        with open(name, "w", encoding="utf-8") as file:
            file.write(text)

    def change(self, name, old, new):
        text = source.read(name)
        self.assertIn(old, text)
        self.write(name, text.replace(old, new))

    def script(self, name):
        """Runs a script on the repository: its faults, and what it prints otherwise."""
        self.forget()
        said = io.StringIO()
        with mock.patch.object(sys, "argv", [name, self.root]), contextlib.redirect_stdout(said):
            try:
                SCRIPTS[name].main()
            except SystemExit as end:
                return f"{end.code}", ""
        return "", said.getvalue()

    def passes(self, name):
        faults, said = self.script(name)
        self.assertEqual((faults, said.count("\n")), ("", 1))

    def fails(self, name, *messages):
        faults, _ = self.script(name)
        self.assertTrue(faults)
        for message in messages:
            self.assertIn(message, faults)


class Scripts(Repository):
    def status(self, name):
        done = subprocess.run([sys.executable, f"{HERE}/{name}.py", self.root], capture_output=True, text=True, check=False)
        self.assertNotIn("Traceback", done.stderr)
        return done.returncode

    def test_status(self):
        self.assertEqual([self.status(name) for name in SCRIPTS], [0] * 4)
        self.change("crates/sums/src/lib.rt", "pub fn plain", "pub fn bare() {}\npub fn plain")
        self.change("crates/sums/proofs/Laws.antt", "pub adds", "adds")
        self.write("crates/stray", "")
        self.assertEqual([self.status(name) for name in SCRIPTS], [1] * 4)


class Contracts(Repository):
    def faults(self, text):
        self.write("crates/one/src/lib.rt", text)
        return [fault.removeprefix("crates/one/src/lib.rt: ") for fault in contracts.faults_of("one")[0]]

    def each_shape(self):
        for place, block in BLOCKS.items():
            for shape, text in SHAPES.items():
                with self.subTest(shape=shape, place=place):
                    yield f"{place}f", block.replace("@", text) + AFTER

    def test_every_shape_is_read(self):
        for path, text in self.each_shape():
            found = source.Reader("", text.replace("@", ENSURES)).read([]).functions
            self.assertEqual([one.path for one in found], [path, "after"])
            self.assertEqual([one.clauses for one in found], [[("ensures", ENSURES)]] * 2)
            self.assertTrue(all(one.body.startswith("{") and one.body.endswith("}") and one.public for one in found))

    def test_a_head_without_clauses_is_not_taken_for_the_next(self):
        for path, text in self.each_shape():
            self.assertEqual(self.faults(text.replace("@", "")), [f"{path} has no ensures"])

    def test_a_requires_or_a_ghost_is_found(self):
        for path, text in self.each_shape():
            for kind in ("requires", "ghost"):
                for clause in (f"{kind} {{ x ≡ 1 }}", f"{kind} small {{ x ≡ {{ 1 }} }}", f"{kind}* {{ ⌜ x ≡ 1 ⌝ }}", f"{kind} g: {{ ℕ }}"):
                    self.assertEqual(self.faults(text.replace("@", f"{clause} {ENSURES}")), [f"{path} has a {kind}"])
                    self.assertEqual(self.faults(text.replace("@", clause)), [f"{path} has no ensures", f"{path} has a {kind}"])

    def test_every_shape_of_a_clause(self):
        for clause, text in CLAUSES.items():
            with self.subTest(clause=clause):
                self.assertEqual(self.faults(f"pub fn f(x: u32) -> u32 {text} {{ x }}{AFTER}"), [])
                self.assertEqual(self.faults(f"pub fn f(x: u32) -> u32 {{ x }}\npub fn g(x: u32) -> u32 {text} {{ x }}"), ["f has no ensures"])

    def test_other_functions_need_none(self):
        for head in ("fn", "pub(crate) fn", "pub(super) fn", "pub(in crate) fn", 'extern "C" fn', "const fn"):
            self.assertEqual(self.faults(f"{head} f(x: u32) -> u32 {{ x }}\n"), [])

    def test_what_cannot_be_read_fails(self):
        for text in ("pub fn f() {", "/* pub fn f() {}", 'extern "C" { fn f(); }', "trait T", "m! {}", "pub fn f() ensures { {- } {}", "}", "mod a"):
            self.assertRegex("\n".join(self.faults(text)), r"line \d+")

    def test_a_trait_and_what_an_impl_gives(self):
        text = f"trait T {{ ghost m: {{ Self → ℕ }}; fn g(self) -> u32 {ENSURES}; }}\nimpl T for S {{ ghost m = {{ λ s. {{ 1 }} }};\nfn g(self) -> u32 {{ 1 }} }}{AFTER}"
        found = source.Reader("", text).read([]).functions
        self.assertEqual([(one.path, one.public) for one in found], [("T::g", False), ("ST::g", False), ("after", True)])
        for head, path in IMPLS.items():
            self.assertEqual([one.path for one in source.Reader("", f"impl{head} {{ fn g() {{}} }}").read([]).functions], [f"{path}::g"])
        self.assertEqual(self.faults(text), [])

    def test_the_script_looks_below_src(self):
        self.passes("contracts")
        self.write("crates/sums/src/deep/down.rt", "pub fn f() {\n}\n" + AFTER)
        self.change("crates/sums/src/lib.rt", f"pub fn plain(x: u32) -> u32 {ENSURES}", "pub fn plain(x: u32) -> u32")
        self.fails("contracts", "down.rt: deep::down::f has no ensures", "lib.rt: plain has no ensures")


class Refused(Repository):
    def edit(self, label, text, facts):
        self.write(f"crates/sums/must-fail/{label}.edit", text)
        self.refuses(label, log(facts))

    def test_good(self):
        self.passes("refused")

    def test_one_wrong_program_only(self):
        os.remove("crates/sums/must-fail/got_two.edit")
        self.fails("refused", "crates/sums: 1 wrong programs for more::S::get")

    def test_one_wrong_program_only_in_every_shape(self):
        for place, block in BLOCKS.items():
            for shape, text in SHAPES.items():
                for clauses in (ENSURES, ""):
                    with self.subTest(shape=shape, place=place, clauses=clauses):
                        self.write("crates/one/src/lib.rt", block.replace("@", text).replace("@", clauses) + AFTER)
                        for number in (1, 2, 3):
                            said = f"# n{number}, refused at after: returns\nfile: src/lib.rt\nold: fn after(x: u32)\nnew: fn after(x: u{number})\n"
                            said = said.replace("after: returns", f"{place}f: returns") if number == 3 else said
                            self.write(f"crates/one/must-fail/n{number}.edit", said)
                        self.assertEqual(refused.faults_of_crate("one"), [f"crates/one: 1 wrong programs for {place}f"])

    def test_a_called_function_counts(self):
        self.assertEqual(refused.faults_of_crate("sums"), [])
        self.change("crates/sums/src/lib.rt", "helper(x) * TWO", "others::helper(x) * TWO")
        self.assertEqual(refused.faults_of_crate("sums"), ["crates/sums: 1 wrong programs for double"])

    def test_calls(self):
        bodies = {"S::get": "1", "S::both": "Self::get(self)", "dot": "s.get()", "path": "S::get(s)", "bare": "get(s)", "free": "2", "m::up": "super::free()"}
        bodies |= {"local": "free()", "within": "m::up()", "other": "others::free() + others::up() + R::get(s)"}
        words = {path: source.Reader("", f"fn f() {{ {body} }}").read([]).functions[0].body for path, body in bodies.items()}
        functions = [source.Function(path, True, path.startswith("S::"), [], body, (), "") for path, body in words.items()]
        found = {one.path: refused.called(one, functions) - {one.path} for one in functions}
        self.assertEqual([path for path in found if "S::get" in found[path]], ["S::both", "dot", "path"])
        self.assertEqual([path for path in found if "free" in found[path]], ["m::up", "local", "within"])

    def test_a_constant_reaches_its_users(self):
        self.assertEqual(refused.reached("sums", [("src/lib.rt", "ONE: u32 = 1", "ONE: u32 = 2")]), {"double"})
        self.assertEqual(refused.reached("sums", [("src/lib.rt", "    (x + 7)", "    /* } */ (x + 7)")]), set())
        self.assertEqual(refused.reached("sums", [("src/lib.rt", "mod more", "pub mod more")]), {""})

    def test_a_static_reaches_its_users(self):
        self.change("crates/sums/src/lib.rt", "const ONE: u32", "static ONE: u32")
        self.assertEqual(refused.reached("sums", [("src/lib.rt", "ONE: u32 = 1", "ONE: u32 = 2")]), {"double"})

    def test_the_fact_must_fail_by_itself(self):
        for facts in ([], [("double/Answers", "returns", "")], [("plain/Answers", "returns", f"`x` {refused.FOLLOWS}")]):
            shutil.rmtree("cache", ignore_errors=True)
            self.edit("contract", GOOD["crates/sums/must-fail/contract.edit"], facts)
            self.fails("refused", "contract.edit: contract: plain returns does not fail; what does fail: ")
        self.fails("refused", "what does fail: nothing")

    def test_what_fails_instead_is_told(self):
        self.edit("contract", GOOD["crates/sums/must-fail/contract.edit"], [("plain/Answers", "fits", ""), ("double/Answers", "returns", "")])
        self.fails("refused", "contract: plain returns does not fail; what does fail: plain: fits")

    def test_every_form_of_a_refusal(self):
        of_others = "fn other::f: no proof: `search` did not prove `returns`\nnote: `fits` of proofs/f/Answers.antt may be false\n"
        opened = "note: src/lib.rt:1:1: it is not proved that it holds (`returns-then-x-lt4`); what is known allows `x` = 1\nfn sums::f: not proved\n"
        searched = "fn sums::m::g: no proof: expected answers in ./proofs/m/g/Answers.antt; `search` did not prove `overflow_add-sum`, `returns`\n"
        law = "./proofs/Deep/Laws.antt:1:2: error: `is-so`: expected type `x`\nwarning: `y`\n"
        found = refused.failing("sums", of_others + opened + searched + law + log([("+even/Answers", "returns", "")]))
        facts = [("Deep::Laws", "is-so"), ("even", "returns"), ("f", "returns-then-x-lt4"), ("m::g", "overflow_add-sum"), ("m::g", "returns")]
        self.assertEqual((sorted(found[0]), found[1]), (facts, []))

    def test_a_crate_that_is_still_proved(self):
        self.refuses("contract", GOOD["logs/sums/log"])
        self.fails("refused", "contract.edit: the prover does not refuse it", "contract: plain returns does not fail")

    def test_a_check_that_tells_nothing_is_not_kept(self):
        self.refuses("contract", "error: out of memory\n")
        for _ in range(2):
            self.fails("refused", "contract.edit: the prover does not refuse it: error: out of memory .. status=1")
        self.refuses("contract", log(FAILS["contract"]))
        self.passes("refused")

    def test_what_was_checked_is_kept(self):
        self.passes("refused")
        self.assertEqual(source.read("logs/tried").count("\n"), 8)
        self.passes("refused")
        self.assertEqual(source.read("logs/tried").count("\n"), 8)
        self.change("crates/sums/must-fail/contract.edit", "plain(y", "plain(yy")
        self.refuses("contract", log(FAILS["contract"]))
        self.passes("refused")
        self.assertEqual(source.read("logs/tried").count("\n"), 9)
        self.change("crates/sums/proofs/Steps.antt", "step = 1", "step = 0")
        self.passes("refused")
        self.assertEqual(source.read("logs/tried").count("\n"), 17)

    def test_what_is_long_unused_is_forgotten(self):
        self.passes("refused")
        first, second, *_ = there = sorted(os.listdir("cache/kozempil/refused"))
        os.utime(f"cache/kozempil/refused/{first}", (0, 0))
        self.write(f"cache/kozempil/refused/{second}x", "")
        os.utime(f"cache/kozempil/refused/{second}x", (0, 0))
        self.passes("refused")
        self.assertEqual(sorted(os.listdir("cache/kozempil/refused")), there)

    def test_what_a_check_reads_is_kept_apart(self):
        self.write("crates.txt", "sums staticlib: std\nrun: sums io\n")
        self.forget()
        before = {crate: refused.sum_of_text(crate) for crate in ("sums", "run")}
        cases = {"crates/sums/specs/Sums.antt": "sums run", "crates/run/src/main.rt": "run", "crates.txt": "sums run", "bin/rt": "sums run", "README.md": ""}
        for name, changed in cases.items():
            text = source.read(name)
            self.write(name, text.replace("std", "core").replace('"kit"', '"kit 2"') + "\n")
            os.chmod("bin/rt", 0o700)
            self.forget()
            self.assertEqual([one for one in before if refused.sum_of_text(one) != before[one]], changed.split(), name)
            self.write(name, text)

    def test_a_text_that_is_not_there_once(self):
        for old in ("x + 9", "u32"):
            self.edit("contract", f"# contract, refused at plain: returns\nfile: src/lib.rt\nold: {old}\nnew: x\n", FAILS["contract"])
            self.fails("refused", f"contract.edit: not in src/lib.rt once: {old}")

    def test_other_facts(self):
        for words in ("record `After` has no field `sum`", "`goal.y`: module `Goals` has no `y` that can be named", "`z` is not in scope"):
            shutil.rmtree("cache", ignore_errors=True)
            self.edit("contract", GOOD["crates/sums/must-fail/contract.edit"], [*FAILS["contract"], ("plain/Answers", "w", words)])
            self.fails("refused", "contract.edit: it changes which facts plain needs")

    def test_a_condition_of_another_name(self):
        """The answer to a goal that is named after a condition is tried under the name that the condition has now."""
        answers = "pub returns-then-x-lt8 : goal.returns-then-x-lt8\nreturns-then-x-lt8 c = omega (arith, c.if-x-lt8.true, c.if-x-lt80.true, d.x-lt8)\n"
        self.write("crates/sums/proofs/plain/Answers.antt", answers)
        self.change("crates/sums/src/lib.rt", "    (x + 7) * 1\n", "    if x < 8 { x + 7 } else { 0 }\n")
        self.change("crates/sums/must-fail/wrong_code.edit", "old: x + 7\nnew: x + 8", "old: if x < 8\nnew: if x < 9")
        self.change("crates/sums/must-fail/wrong_code.edit", "plain: returns", "plain: returns-then-x-lt9")
        gone = "`goal.returns-then-x-lt8`: module `Rattle.sums.proofs.plain.Goals` has no `returns-then-x-lt8` that can be named from here"
        asks = "help: `Goals` has no `returns-then-x-lt8`; rattle asks for `returns-then-x-lt9`, `returns` and 1 more; `Then-x-lt9`, `Then-x-lt80`\n"
        others = [fact for fact in FAILS["wrong_code"] if fact[0] != "plain/Answers"]
        self.refuses("wrong_code", log([*others, ("plain/Answers", "returns-then-x-lt8", gone)]) + "fn sums::plain: not proved\n" + asks)
        self.fails("refused", "it changes which facts plain needs", "eight: plain returns-then-x-lt9 does not fail")
        shutil.rmtree("cache")
        marks = source.read("logs/sums/wrong_code/marks") + answers.replace("x-lt8", "x-lt9").replace("x-lt90", "x-lt80").replace("d.x-lt9", "d.x-lt8")
        self.write("logs/sums/renamed/marks", marks)
        self.write("logs/sums/renamed/log", log([*others, ("plain/Answers", "returns-then-x-lt9", "")]))
        self.passes("refused")

    def test_a_wrong_program_that_does_not_read_well(self):
        for error in ("error[unknown-name]: cannot find value `y`", "./specs/Sums.antt:2:3: error: `sum_of`: `y` is not in scope", "src/lib.rt:1:2: error[x]: no"):
            shutil.rmtree("cache", ignore_errors=True)
            self.refuses("definition", f"{error}\n" + log(FAILS["definition"]))
            self.fails("refused", f"definition.edit: the prover cannot read it: {error}")

    def test_goals_that_wait(self):
        waits = "note: `search` has not tried the goals of `sums::plain`, which wait for a callee's proof\n"
        self.refuses("wrong_code", waits + log([fact for fact in FAILS["wrong_code"] if fact[0] != "plain/Answers"]))
        self.fails("refused", "eight: plain returns is not tried, since what it calls is wrong too")

    def test_wrong_programs_that_share_a_file(self):
        text, facts = GOOD["crates/sums/must-fail/wrong_code.edit"], FAILS["wrong_code"]
        self.edit("wrong_code", text + "\n# nine, refused at plain: returns\nfile: src/lib.rt\nold: ) * 1\nnew: ) * 2\n", facts)
        self.fails("refused", "two wrong programs reach plain")
        self.edit("wrong_code", text.replace("old: x + 7\nnew: x + 8", "old: pub fn plain(x\nnew: pub fn plain(y"), facts)
        self.fails("refused", "eight: a wrong definition or contract")

    def test_what_an_edit_changes(self):
        none = "it changes no code and no definition"
        for file, old, message in (("proofs/Laws.antt", "a = refl", "it changes a proof"), ("src/lib.rt", "// Sums.", none)):
            self.edit("contract", f"# contract, refused at plain: returns\nfile: {file}\nold: {old}\nnew: // other\n", FAILS["contract"])
            self.fails("refused", message)
        self.edit("contract", "# contract, refused at plain : returns\nfile: src/lib.rt\nold: x + 7\nnew: x\n", FAILS["contract"])
        self.fails("refused", "contract.edit: out of place")

    def test_names_twice(self):
        self.edit("contract", GOOD["crates/sums/must-fail/contract.edit"].replace("# contract", "# thrice"), FAILS["contract"])
        self.fails("refused", "two wrong programs named thrice")

    def test_functions_that_the_prover_names(self):
        self.write("logs/sums/log", "fn sums::hidden: proved\n" + GOOD["logs/sums/log"])
        self.fails("refused", "crates/sums: found by the prover or the reader alone: hidden")
        shutil.rmtree("cache")
        made = ("more::SDebug::fmt", "SPartialEq::eq", "fn::plain::any", "fn::more::S::get::any+FnMut::call_mut", "plain+FnOnce::call_once")
        self.write("logs/sums/log", "".join(f"fn sums::{path}: proved\n" for path in made) + GOOD["logs/sums/log"])
        self.passes("refused")
        shutil.rmtree("cache")
        self.write("logs/sums/log", "logic=proved\n")
        self.fails("refused", "alone: helper", "alone: more::S::get")

    def test_a_crate_that_is_not_proved(self):
        self.write("logs/sums/log", "error: no\n")
        self.fails("refused", "crates/sums: not proved: error: no")

    def test_some_crates_alone(self):
        self.change("crates/sums/must-fail/contract.edit", "plain: returns", "plain: fits")
        self.forget()
        with mock.patch.object(sys, "argv", ["refused", self.root, "run"]), contextlib.redirect_stdout(io.StringIO()):
            refused.main()
        self.fails("refused", "contract: plain fits does not fail")

    def test_unreadable(self):
        self.change("crates/sums/src/lib.rt", "mod more;", "mod more")
        self.fails("refused", "crates/sums/src/lib.rt: line")


class Theorems(Repository):
    laws, notes = "crates/sums/proofs/Laws.antt", "README.md"

    def wrong(self, name, old, new, *messages):
        with self.subTest(old=old, new=new):
            before = source.read(name)
            self.change(name, old, new)
            self.fails("theorems", *messages)
            self.write(name, before)

    def test_good(self):
        self.passes("theorems")

    def test_removed(self):
        theorem = "pub adds : Adds\nunfolding sum_of\nadds = record { a = refl }\n"
        self.wrong(self.laws, theorem, "", "Laws.antt: adds: it is not declared there, once")
        os.remove("crates/sums/must-fail/definition.edit")
        self.wrong(self.laws, theorem, "", "Laws.antt: adds: it is not declared there, once")
        os.remove(self.laws)
        self.fails("theorems", "adds: there is no such file", "same: there is no such file")

    def test_renamed_or_commented_out(self):
        self.wrong(self.laws, "adds", "added", "adds: it is not declared there, once")
        self.wrong(self.laws, "pub adds : Adds", "-- pub adds : Adds", "adds: it is not declared there, once")
        self.wrong(self.laws, "pub adds : Adds\n", "{- {- -} pub adds : Adds -}\n", "adds: it is not declared there, once")

    def test_another_statement(self):
        self.wrong(self.laws, "pub adds : Adds", "pub adds : Adds → Adds", "adds: it is declared as another one: pub adds : Adds → Adds")
        self.wrong(self.laws, "(sum_of n).all ≡ n\n", "n ≡ n\n", "same: it is declared as another one")
        self.wrong(self.laws, "pub adds : Adds", "adds : Adds", "adds: it is declared as another one: adds : Adds")
        self.wrong(self.laws, "pub adds : Adds", "axiom pub adds : Adds", "adds: it is declared as another one")

    def test_other_names_in_the_statement(self):
        self.wrong(self.laws, "{Adds, sum_of}", "{Less as Adds, sum_of}", "adds: Adds of its statement is Less of")
        self.wrong(self.laws, "{Adds, sum_of}", "{sum_of}", "adds: Adds of its statement is neither bound nor imported by its name")
        self.wrong(self.laws, "-- Why.", "record Adds : Type 0 where\n  a : ℕ\n", "adds: Adds of its statement is declared beside it")
        self.wrong(self.laws, "specs.Sums.{Adds", "proofs.Sums.{Adds", "adds: Adds of its statement is Adds of Rattle.sums.proofs")
        self.wrong(self.laws, "{◌≡◌, refl}", "{◌~◌ as ◌≡◌, refl}", "same: ≡ of its statement is ◌~◌ of mathlib")

    def test_no_proof(self):
        self.wrong(self.laws, "adds = record { a = refl }\n", "", "adds: it has no proof")
        for hole in ("?", "?later", "{! refl !}"):
            self.wrong(self.laws, "{ a = refl }", f"{{ a = {hole} }}", "adds: it has no proof, or one with a hole")

    def test_its_file_is_declared(self):
        for new in ("mod Laws", "-- pub mod Laws", ""):
            self.wrong("crates/sums/proofs/Lib.antt", "pub mod Laws", new, "adds: Lib.antt does not declare its file, by `pub mod`")

    def test_a_wrong_definition_is_refused_by_it(self):
        self.wrong("crates/sums/must-fail/definition.edit", "Laws: adds", "Laws: other", "adds: no wrong definition is refused by it")
        os.remove("crates/sums/must-fail/stepped.edit")
        self.fails("theorems", "same: no wrong definition is refused by it")

    def test_readme(self):
        self.wrong(self.notes, "`adds : Adds`", "`adds : Less`", "README.md names adds : Less, which", "README.md does not name the theorem adds")
        self.wrong(self.notes, " and `same`", "", "README.md does not name the theorem same")
        self.wrong(self.notes, "`same`", "`same` and `more`", "README.md names more, which .ci/theorems.txt does not list")
        self.wrong(self.notes, "The theorems about", "Theorems about", "README.md: no sentence")
        self.wrong(self.notes, "crates/sums", "crates/other", "README.md does not name crates/sums/proofs/Laws.antt, where adds stands")
        self.wrong(".ci/theorems.txt", "sums proofs/Laws.antt adds : Adds\n", "", "README.md names adds : Adds, which .ci/theorems.txt does not list")

    def test_the_list(self):
        self.wrong(".ci/theorems.txt", "adds : Adds", "adds", "not CRATE FILE NAME : STATEMENT")
        self.write(".ci/theorems.txt", "")
        self.fails("theorems", "lists no theorem")


class Layout(Repository):
    def test_good(self):
        self.passes("layout")

    def test_crates(self):
        self.write("crates.txt", "sums:\nsums:\nrun: sums\nmissing:\n")
        self.write("crates/unlisted/src/lib.rt", "")
        self.write("crates/notes", "")
        self.fails(
            "layout",
            "crates.txt: sums stands twice",
            "crates/missing: listed in crates.txt, and has not exactly one of",
            "crates/unlisted: not listed in crates.txt",
            "crates/notes: not listed in crates.txt",
            "crates/notes: not a folder",
        )

    def test_a_crate_without_its_root_or_with_two(self):
        shutil.rmtree("crates/sums/src")
        self.write("crates/run/src/lib.rt", "")
        self.fails("layout", *(f"crates/{name}: listed in crates.txt, and has not exactly one of" for name in ("sums", "run")))

    def test_links(self):
        links = {"crates/linked": "sums", "crates/sums/specs/More.antt": "Sums.antt", "examples/b.in": "a.in", "include": "examples", "harness/x": "y"}
        for link, to in links.items():
            os.symlink(to, link)
        self.write("crates.txt", "sums:\nrun:\nlinked:\n")
        self.fails("layout", *(f"{link}: a symbolic link" for link in links), "crates/linked: not a folder")

    def test_strays(self):
        strays = [f"must-fail/{name}" for name in ("a.edit~", ".a.edit", "deep/a.edit", "a.txt")] + ["notes.md", "src/a.rs", "specs/a.txt", "stdin", "data/x"]
        for name in strays:
            self.write(f"crates/sums/{name}", "")
        self.write("crates/run/stderr", "")
        self.fails("layout", *(f"crates/sums/{name}: a stray file" for name in strays), "crates/run/stderr: a stray file")

    def test_rattle_and_antt_elsewhere(self):
        names = ("a.rt", "docs/a.antt", "crates/sums/must-fail/a.rt", "examples/target/a.rt", "examples/out/a.rt", "out/a.antt", "crates/out/a.rt")
        for name in names:
            self.write(name, "")
        self.fails("layout", *(f"{name}: outside of" for name in names))

    def test_modules(self):
        undeclared = ["specs/More.antt", *(f"proofs/{name}.antt" for name in ("More", "nothing/Proof", "nothing/Answers", "double/More", "+double+gone/Answers"))]
        for name in undeclared:
            self.write(f"crates/sums/{name}", "")
        self.write("crates/sums/specs/Lib.antt", "pub mod Sums\nmod Missing\n")
        self.write("crates/sums/src/other.rt", "")
        self.change("crates/sums/src/lib.rt", "mod more;", "mod more;\nmod absent;")
        declared = ["specs/Missing.antt: declared, and not there", "src: no `mod` item names the file of other", "src: no file of the module absent"]
        messages = [*(f"{name}: no `mod` line and no function leads to it" for name in undeclared), *declared]
        self.fails("layout", *(f"crates/sums/{message}" for message in messages))

    def test_modules_of_proofs(self):
        self.write("crates/sums/proofs/double/Answers.antt", "mod Lemmas\n")
        for name in ("double/Answers/Lemmas", "+plain/Answers", "+double+plain/Invariants", "more/S/get/Proof", "more"):
            self.write(f"crates/sums/proofs/{name}.antt", "")
        self.passes("layout")


class Memory(unittest.TestCase):
    """Object files in C, which have the schedule in one form or another."""

    PACKED = f"const unsigned char packed[] = {{ {', '.join(map(str, memory.packed(memory.windows())))} }};"
    TIMES = "the 96 bytes of the schedule stand {} times in read-only data"
    # A library that answers a billing by an entry of the schedule, in the place of the @.
    LIBRARY = """
        #include "kozempil.h"
        uint64_t kozempil_register_length(uint32_t month) { return month ? 2976 : 0; }
        uint32_t kozempil_call(const uint64_t *account, size_t account_len, const uint64_t *call, size_t call_len, const uint32_t *delivered,
            size_t delivered_len, const uint32_t *received, size_t received_len, uint64_t *answer, size_t answer_len, uint64_t *after, size_t after_len) {
            size_t at = 0, month = call[KOZEMPIL_CALL_MONTH];
            for (size_t i = 0; i < answer_len; i++) answer[i] = 0;
            while (at + 1 < delivered_len && !delivered[at]) at++;
            size_t entry = (month == 12 ? 0 : 192) + 96 * (at / 96 == (month == 12 ? 5 : 0)) + at % 96;
            answer[KOZEMPIL_ANSWER_DELIVERED + (@)] = answer[KOZEMPIL_ANSWER_EXPORTED + (@)] = 1;
            return 1;
        }"""

    def setUp(self):
        self.addCleanup(os.chdir, os.getcwd())
        os.chdir(os.path.dirname(HERE))
        self.scratch = tempfile.mkdtemp()
        self.addCleanup(shutil.rmtree, self.scratch)

    def made(self, *lines):
        with open(f"{self.scratch}/library.c", "w", encoding="utf-8") as file:
            file.write("\n".join(lines))
        subprocess.run(["cc", "-O1", "-Iinclude", "-c", f"{self.scratch}/library.c", "-o", f"{self.scratch}/library.o"], check=True)
        return f"{self.scratch}/library.o"

    def faults(self, *lines):
        return memory.faults_of_object(self.made(*lines))[1]

    def test_the_schedule(self):
        entries = memory.windows()
        self.assertEqual([entries.count(period) for period in range(4)], [0, 52, 252, 80])
        self.assertEqual(memory.packed([1, 2, 3, 0]), b"\x39")

    def test_tables(self):
        entries = ", ".join(map(str, memory.windows()))
        self.assertEqual(self.faults(self.PACKED, "const unsigned more[] = { 0x12345678, 1, 2, 3, 0x03020100 };"), [])
        for none in ("", self.PACKED.replace("170 }", "169 }"), self.PACKED.replace("170 }", "}"), self.PACKED.removeprefix("const ")):
            self.assertEqual(self.faults(none), [self.TIMES.format(0)])
        self.assertEqual(self.faults(self.PACKED, self.PACKED.replace("packed", "again")), [self.TIMES.format(2)])
        for kind in ("char", "short", "int", "long"):
            for plain in (entries, entries[64 * 3 : 80 * 3]):
                found = self.faults(self.PACKED, f"const unsigned {kind} plain[] = {{ {plain} }};")
                self.assertEqual(found, [".rodata: entries of a schedule in a row"])

    def test_constants(self):
        for constant in ("01020303", "2020202", "aaffffff", "5555aaaa", "202020203030303", "aaaaffffffffffaa"):
            found = self.faults(self.PACKED, f"void f(unsigned long *at) {{ at[1] = 0x{constant}; }}")
            self.assertEqual(found, [f"an instruction has 0x{constant.lstrip('0')}, entries of a schedule"])
        for constant in ("1", "102", "1020300", "1020304", "1010101", "ffffffff", "ffffffffffffffff", "5555555555555555", "aaaaaaab"):
            self.assertEqual(self.faults(self.PACKED, f"void f(unsigned long *at) {{ at[1] = 0x{constant}; }}"), [])

    def test_one_by_one(self):
        stores = [f"at[{place}] = {entry};" for place, entry in enumerate(memory.windows())]
        found = ["instructions store entries of a schedule one by one"]
        for some, faults in ((stores, found), (stores[:8], found), (stores[:7], [])):
            self.assertEqual(self.faults(self.PACKED, f"void f(volatile unsigned char *at) {{ {' '.join(some)} }}"), faults)

    def test_what_a_library_does(self):
        windows = "entry % 96 >= (entry < 192 ? 68 : 52) && entry % 96 < (entry < 192 ? 84 : 72) && entry < 288 ? 1 : entry % 96 / 4 > 0 && entry % 96 / 4 < 6 ? 3 : 2"
        for does, faults in {
            "packed[entry / 4] >> 2 * (entry % 4) & 3": [],
            "packed[entry / 4] >> 6 - 2 * (entry % 4) & 3": ["the library does not bill by the 96 bytes"],
            "packed[(entry < 192 ? entry % 96 : entry) / 4] >> 2 * (entry % 4) & 3": ["the library does not bill by the 96 bytes"],
            "packed[entry / 4 - (entry < 348 ? 0 : 81)] >> 2 * (entry % 4) & 3": ["the library does not bill by the 96 bytes"],
            windows: ["the library does not bill by the 96 bytes"],
            "packed[entry / 4] >> 2 * (entry % 4) & 1": ["the library does not bill by the windows", "the library does not bill by the 96 bytes"],
        }.items():
            with self.subTest(does=does):
                self.assertEqual(memory.faults_of_library(self.made(self.PACKED, self.LIBRARY.replace("@", does)), self.scratch), faults)


class Gate(unittest.TestCase):
    """The script `run` itself, with other programs in the place of those that it calls. Each of its parts can be made to fail."""

    SCRIPTS = ("layout", "contracts", "theorems", "tests", "memory", "refused")
    PARTS = (*SCRIPTS, "ci", "bad", "harness", "library", "header", "built", "program", "statement", "use", "compared")
    PROGRAMS = {  # each ends by naming its part
        "bin/python3": 'case $1 in harness/use/*) set use ;; *) set "$(basename "$1" .py)" ;; esac',
        "bin/rt": 'bad=; [ "$FAILS" != bad ] || bad=", 1 bad"; echo "rt: ok; must-fail edits: 3 refused$bad; done"; echo "2 passed, 0 failed"; [ "$*" = ci ] || exit 1',
        "bin/cargo": 'case $PWD/$1 in */compare/run) set compared ;; */compare/*) set built ;; *) set harness ;; esac',
        "statement": "echo ok; set statement",
        "program/build": 'case $1 in statement) set program ;; esac',
        ".ci/header": "set header",
    }

    def setUp(self):
        self.root = tempfile.mkdtemp()
        self.addCleanup(shutil.rmtree, self.root)
        for folder in ("bin", ".ci", "harness/compare", "examples", "program"):
            os.makedirs(f"{self.root}/{folder}")
        shutil.copy(f"{HERE}/run", f"{self.root}/.ci/run")
        for name, text in self.PROGRAMS.items():
            self.program(name, f'#!/bin/sh\n{text}\n[ "$1" != "$FAILS" ]\n')
        for name in ("paper.in", "paper.out"):
            self.program(f"examples/{name}", "ok\n")

    def program(self, name, text):
        with open(f"{self.root}/{name}", "w", encoding="utf-8") as file:
            file.write(text)
        os.chmod(f"{self.root}/{name}", 0o700)

    def gate(self, fails):
        """The status, the last line and all that the gate prints where one part fails."""
        environment = {**os.environ, "PATH": f"{self.root}/bin:{os.environ['PATH']}", "FAILS": fails}
        command = ["bash", f"{self.root}/.ci/run"]
        done = subprocess.run(command, env=environment, stdin=subprocess.DEVNULL, capture_output=True, text=True, check=False, timeout=60)
        return done.returncode, (done.stdout.splitlines() or [""])[-1], done.stdout + done.stderr

    def test_the_verdict_is_the_last_line(self):
        self.assertEqual(self.gate("")[:2], (0, "2 passed, 0 failed"))

    def test_each_part_can_fail(self):
        with ThreadPoolExecutor(len(self.PARTS)) as pool:
            for part, (status, last, said) in zip(self.PARTS, pool.map(self.gate, self.PARTS)):
                with self.subTest(part=part):
                    self.assertNotEqual(status, 0, said)
                    self.assertTrue(part == "ci" or last != "2 passed, 0 failed", said)


class Build(unittest.TestCase):
    """The script `program/build`, with other programs in the place of rt and cc."""

    PROGRAMS = {
        "bin/rt": 'case $1 in doc) echo "$KIT/page.md" ;; lib) echo "$PWD" >> "$KIT/libs"; mkdir -p out; cp src/lib.rt "out/lib$(basename "$PWD").a"; [ "$FAILS" != lib ] ;; *) exit 1 ;; esac',
        "bin/cc": 'echo "$@" >> "$KIT/linked"; for last; do :; done; echo made > "$last"; [ "$FAILS" != cc ]',
    }

    def setUp(self):
        self.root = tempfile.mkdtemp()
        self.addCleanup(shutil.rmtree, self.root)
        for folder in ("bin", "program", "crates/kozempil/src", "crates/statement/src"):
            os.makedirs(f"{self.root}/{folder}")
        for name in ("crates.txt", "VERSION", "program/statement.c", "crates/kozempil/src/lib.rt", "crates/statement/src/lib.rt"):
            self.write(name, f"{name}\n")
        for name, text in self.PROGRAMS.items():
            self.write(name, f"#!/bin/sh\n{text}\n")
        shutil.copy(f"{os.path.dirname(HERE)}/program/build", f"{self.root}/program/build")

    def write(self, name, text):
        with open(f"{self.root}/{name}", "w", encoding="utf-8") as file:
            file.write(text)
        os.chmod(f"{self.root}/{name}", 0o700)

    def read(self, name):
        return source.read(f"{self.root}/{name}") if os.path.exists(f"{self.root}/{name}") else ""

    def build(self, what, fails=""):
        environment = {**os.environ, "PATH": f"{self.root}/bin:{os.environ['PATH']}", "KIT": self.root, "FAILS": fails}
        return subprocess.run(["bash", f"{self.root}/program/build", what], env=environment, capture_output=True, check=False).returncode

    def test_a_library_is_put_in_place(self):
        self.assertEqual(self.build("library"), 0)
        self.assertEqual(self.read("target/staticlib/libkozempil.a"), "crates/kozempil/src/lib.rt\n")
        self.assertEqual(self.read("libs"), f"{self.root}/crates/kozempil\n")

    def test_a_program_is_linked_with_the_c_of_the_kit(self):
        self.assertEqual(self.build("statement"), 0)
        self.assertEqual(self.read("target/bin/statement"), "made\n")
        self.assertIn(f"target/staticlib/libstatement.a {self.root}/c/libos_c.a {self.root}/c/liblibc_c.a -o ", self.read("linked"))

    def test_nothing_is_built_twice(self):
        for _ in range(2):
            self.assertEqual([self.build("library"), self.build("statement")], [0, 0])
        self.assertEqual((self.read("libs").count("\n"), self.read("linked").count("\n")), (2, 1))
        os.utime(f"{self.root}/crates/kozempil/src/lib.rt", (2**32, 2**32))
        self.assertEqual([self.build("library"), self.build("statement")], [0, 0])
        self.assertEqual((self.read("libs").count("\n"), self.read("linked").count("\n")), (4, 2))

    def test_what_fails_is_not_put_in_place(self):
        self.assertEqual([self.build("library", "lib") != 0, self.build("statement", "cc") != 0], [True, True])
        self.assertEqual(self.read("target/staticlib/libkozempil.a") + self.read("target/bin/statement"), "")


if __name__ == "__main__":
    unittest.main()
