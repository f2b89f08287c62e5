#!/usr/bin/env python3
"""Drives justfile_server: server.py PROGRAM [EDITS [SEED]].

Edits a justfile at random, by ranges, in both encodings. After each edit what the server says of it must be what it
says of the whole text of a document that was just opened, and at the end what a new server says. The formatting edits
must lead to a text that has no more edits. Before that it sends what is no message, and asks again, follows links to
files that are there, asks what can be written at places of a justfile, what is called there, what words and names
mean, how tokens are shown and what can be run, looks at what is told to be wrong with what justfiles say, and sets it
right. Prints a line for each part, and ends with 1 at the first difference.
"""
import json
import random
import re
import subprocess
import sys
import tempfile
from pathlib import Path
from urllib.parse import unquote

DOCUMENT = "file:///work/justfile"
FRESH = "file:///work/fresh/justfile"
IMPORTED = "file:///work/part.just"
START = """# builds
set shell := ["sh", "-c"]
import 'more.just'

target := "é𝄞" + env('TARGET', "debug")
alias b := build

[group('all')]
build target=target *flags: clean && (test "x")
    echo {{target}} {{flags}}
    echo done

clean:
  rm -rf out

test what:
    echo "{{what}}"

double(x) := x + x
"""
PIECES = ["a", "b:", " ", "\n", "\n    ", "{{", "}}", "(", ")", "[", "]", '"', "'", "`", "#", ":=", "é", "𝄞", "\r\n"]
PIECES += ["build", "set ", "x := y\n", "c: b\n  echo\n", "\\"]
LINES = ["a:\n", "# a\n", "\n", "[private]\n", "x := 'é'\n", "set quiet\n", "    echo {{ target }}\n"]
LINES += ["alias y := build\n", "mod m\n", "f(a) := a + target\n", "import? 'o'\n", "b: clean\n  true\n"]
LETTERS = "abé𝄞 _1"
FILES = ["a.just", "a/mod.just", "b/mod.just", "b/justfile", "c/Justfile", "c/.justfile", "d/.JUSTFILE", "e/MOD.just", "f/mod.just"]
LINKS = {  # what a line of a justfile leads to among these files
    "mod a": "a.just",
    "mod? b": "b/mod.just",
    "mod c": "c/Justfile",
    "mod d": "d/.JUSTFILE",
    "mod e": None,
    "mod? g": None,
    "mod h 'f'": "f/mod.just",
    "mod i 'e/MOD.just'": "e/MOD.just",
    "mod? j 'k'": "k",
    "import 'n m.just'": "n m.just",
    "import? '/n.just'": "/n.just",
}
NAMED = """set quiet
target-dir := 'x'
alias b := build
double(n) := n + n
build mode=target-dir *flags: tidy
    echo {{ mode }}
tidy:
    rm
"""
ITEMS = set("alias eager export import mod set unexport".split())
SETTINGS = "allow-duplicate-recipes allow-duplicate-variables default-list default-script dotenv-load dotenv-override "
SETTINGS += "dotenv-required export fallback guards ignore-comments lazy lists no-cd no-exit-message quiet unstable "
SETTINGS += "positional-arguments windows-powershell dotenv-command dotenv-filename dotenv-path tempdir working-directory "
SETTINGS = set((SETTINGS + "script-interpreter shell windows-shell indentation minimum-version").split())
ATTRIBUTES = "android dragonfly freebsd linux macos netbsd openbsd unix windows private default exit-message no-cd "
ATTRIBUTES += "no-exit-message no-quiet parallel positional-arguments shell confirm doc timestamp working-directory env "
ATTRIBUTES = set((ATTRIBUTES + "extension group metadata script continue cache arg").split())
ARG_KEYS = set("long short pattern value help min max flag multiple".split())
RECIPES = {"b", "build", "tidy"}
OPERANDS = {"target-dir", "double", "env", "just_pid", "assert", "if", "RED"}
PARAMETERS = {"mode", "flags", "n", "one", "two", "one-two"}
CHOICES = [
    # what is written up to the cursor, after the text above, and after it; the word there; and what can be written in
    # its place: a set, or the parameters among the operands
    ("", "", "", ITEMS),
    ("al", "", "al", ITEMS),
    ("ta", "rget:", "target", ITEMS),
    ("set ", "", "", SETTINGS),
    ("set no-", "cd", "no-cd", SETTINGS),
    ("set shell := ", "", "", set()),
    ("set shell := ['sh', ", "]", "", ()),
    ("set quiet := ", "", "", {"false", "true"}),
    ("set quiet ", "", "", set()),
    ("set tempdir := ", "", "", ()),
    ("set indentation := ", "", "", set()),
    ("[", "", "", ATTRIBUTES),
    ("[private, no-", "]", "no-", ATTRIBUTES),
    ("[private]\n[", "]\nx:\n", "", ATTRIBUTES),
    ('[arg("x", ', "", "", ARG_KEYS),
    ('[arg("x", long, ', ")]", "", ARG_KEYS),
    ('[arg("x", long=', ")]", "", set()),
    ('[arg("x", pattern=', ")]", "", ()),
    ("[arg(", "", "", set()),
    ("[cache(", "", "", {"extra", "inputs", "outputs"}),
    ("[cache(inputs=", ")]", "", ()),
    ("[env('A', ", "", "", ()),
    ("[confirm: ", "]", "", ()),
    ("[script(", "", "", set()),
    ("[group('", "", "", set()),
    ("[private] ", "", "", set()),
    ("new: ", "", "", RECIPES),
    ("@new: ", "\n    echo\n", "", RECIPES),
    ("new: ti", "", "ti", RECIPES),
    ("new: tidy ", "", "", {"b", "build"}),
    ("new: b && ", "", "", {"build", "tidy"}),
    ("new: tidy \\\n  ", "", "", {"b", "build"}),
    ("new: m::", "", "", set()),
    ("new: (", ")", "", RECIPES),
    ("new one: (build ", ")", "", ("one",)),
    ("new one: (build 'a') ", "", "", RECIPES),
    ("new one='a' two=", "", "", ("one",)),
    ("new one ", "", "", set()),
    ("new +", "", "", set()),
    ("new one *two:\n    echo {{ ", "", "", ("one", "two")),
    ("new one:\n    echo {{ o", "ne + target-dir }} a\n", "one", ("one",)),
    ("new one:\n    echo {{ target-", "dir }}\n", "target-dir", ("one",)),
    ("new one:\n    echo {{ env(", "'A') }}\n", "", ("one",)),
    ("new one:\n    echo {{ join('a', quote(\n", "", "", ("one",)),
    ("new one:\n    echo {{ if b == 'a' { ", "", "", ("one",)),
    ("new one:\n    echo {{ [", "", "", ("one",)),
    ("new one:\n    echo {{ f'{{ ", "", "", ("one",)),
    ("new one:\n    echo {{ env('ta", "", "ta", set()),
    ("new one:\n    echo {{ one }\nnext two: (tidy ", "", "", ("two",)),
    ("new one:\n    echo {{ one }} ", "", "", set()),
    ("new one:\n    ", "", "", set()),
    ("new one:\n    set ", "", "", set()),
    ("new one:\n    # {{ one }} ", "", "", set()),
    ("x := ", "", "", ()),
    ("x := target-", "dir + 'a'", "target-dir", ()),
    ("x := target-dir ", "", "", set()),
    ("x := target-dir + ", "", "", ()),
    ("x := target-dir \\\n  / ", "", "", ()),
    ("x := (\n  target-dir +\n  ", "\n)\n", "", ()),
    ("x := env(\n  'A',\n  ", "\n)\n", "", ()),
    ("x := [", "", "", ()),
    ("x := 'ta", "", "ta", set()),
    ('x := "ta', 'r"', "tar", set()),
    ("x := `ta", "r`", "tar", set()),
    ("x := '''\n  ta", "", "ta", set()),
    ("x := ```\nta", "", "ta", set()),
    ("x := f'a {{ ta", "r }} b'", "tar", ()),
    ('x := f"a ', "", "", set()),
    ("x := if ", "", "", ()),
    ("x := if b == 'a' { 'c' } ", "", "", {"else"}),
    ("x := if b == 'a' { 'c' } else ", "", "", {"if"}),
    ("x := if b == 'a' { 'c' } else { ", "", "", ()),
    ("# ta", "rget", "target", set()),
    ("x := 'a' # ", "", "", set()),
    ("alias c := ", "", "", RECIPES),
    ("alias c", "", "c", set()),
    ("export x := ", "", "", ()),
    ("export ", "", "", set()),
    ("import '", "", "", set()),
    ("mod ", "", "", set()),
    ("twice(one, two) := ", "", "", ("one", "two")),
    ("twice(one-two) := one-", "two + 'a'", "one-two", ("one-two",)),
    ("a b c\nnew: ", "", "", RECIPES),
    ("x := )\nnew: ", "", "", RECIPES),
    ("x := 'é' é\nnew: ", "", "", RECIPES),
    ("new: ", "\n)\n", "", RECIPES),
]
DETAILED = """#  says é𝄞\t
@hi a="it's: b" *$c='é' : tidy # d
twice(a, b) := a + b
alias h := hi # e"""
DETAILS = [  # what is written after the texts above, and what is shown beside names that can be written there
    ("new: ", {"build": "build mode=target-dir *flags", "tidy": "tidy", "b": ":= build", "hi": "hi a=\"it's: b\" *$c='é'", "h": ":= hi"}),
    ("new := ", {"double": "double(n)", "twice": "twice(a, b)", "target-dir": "variable"}),
]
EXPLAINED = [
    # what is written up to a word, after the text above, the word, and what is written after it: a word of the language,
    # or nothing that is one
    ("set ", "no-cd", "", True),
    ("set ", "shell", " := ['sh']", True),
    ("set quiet := ", "true", "", True),
    ("[", "no-cd", "]", True),
    ("[private, ", "no-exit-message", "]", True),
    ("new := ", "env", "('A')", True),
    ("new := ", "RED", " + 'a'", True),
    ("new := ", "if", " 'a' == 'b' { 'c' } else { 'd' }", True),
    ("", "alias", " c := tidy", True),
    ("new:\n    echo {{", "just_pid", "()}}", True),
    ("new := '", "env", "'", False),
    ("# ", "env", "", False),
    ("new:\n    ", "env", "", False),
    ("new := ", "no-such", "", False),
]
HIGHLIGHTED = [
    # a name and where it begins in the text above, and of its places whether they define it
    ("target-dir", "target-dir := 'x'", [True, False]),
    ("tidy", "tidy\n    echo", [False, True]),
    ("mode", "mode=", [True, False]),
    ("n", "n + n", [True, False, False]),
    ("no name", "quiet", []),
]
RENAMED = [
    # a justfile with a name between « and », a new name, and the justfile after that, or nothing if it is refused
    ("[arg('«p»', long)]\nr p q='é𝄞':\n    echo {{ p }} p\n", "new", "[arg('new', long)]\nr new q='é𝄞':\n    echo {{ new }} p\n"),
    ('# é𝄞\n[private, arg: "p", arg(x\'q\')] # é\nr «p» q:\n', "new", '# é𝄞\n[private, arg: "new", arg(x\'q\')] # é\nr new q:\n'),
    ("[arg('p', help=q)]\n[arg(x'''q''')]\nr p «q»:\n", "new", "[arg('p', help=new)]\n[arg(x'''new''')]\nr p new:\n"),
    ("[arg('p')]\nr p:\n\n[arg('p')]\ns «p»:\n", "new", "[arg('p')]\nr p:\n\n[arg('new')]\ns new:\n"),
    ("[arg('p'), arg('«q»')]\nr p q:\n", "p", ""),
    ('[arg("\\u{70}")]\nr «p»:\n', "new", ""),
    ("[arg('p', short), arg('n', short='a')]\nr «p» n:\n", "a", ""),
    ("«HEX» := HEX\n", "new", ""),
    ("A := HEX\n«HEX» := 'é𝄞'\n", "new", ""),
    ("x := 'a'\nr:\n    echo {{ «x» }}\n", "RED", ""),
    ("RED := 'a'\nr «RED»:\n    echo {{ RED }}\n", "red", "RED := 'a'\nr red:\n    echo {{ red }}\n"),
    ("r «p»:\n    echo {{ p + RED }}\n", "RED", ""),
]
SIGNATURES = [  # what is before the cursor, what is shown of what is called there, and the parameter of the argument
    ("x := replace(", "replace(text, from, to)", "text"),
    ("x := replace('a', ", "replace(text, from, to)", "from"),
    ("x := replace('a', 'b", "replace(text, from, to)", "from"),
    ("x := replace('a, b', \"c, d\", 'e' + ", "replace(text, from, to)", "to"),
    ("x := replace(env('a', 'b'), ", "replace(text, from, to)", "from"),
    ("x := replace(env('a', ", "env(name, default?)", "default?"),
    ("x := env('a', 'b', ", "env(name, default?)", "default?"),
    ("x := if 'a' == env(", "env(name, default?)", "name"),
    ("x := just_pid(", "just_pid()", None),
    ("x := double(", "double(n)", "n"),
    ("export x := 'é𝄞' + double(", "double(n)", "n"),
    ("x := f'{{ double(", "double(n)", "n"),
    ("r:\n    echo {{ replace(x, ", "replace(text, from, to)", "from"),
    ("r p=double(", "double(n)", "n"),
    ("r: (build ", "build mode flags", "mode"),
    ("r: (build 'a'+", "build mode flags", "mode"),
    ("r: (build 'a' + 'b' ", "build mode flags", "flags"),
    ("r: (build 'a' 'b' 'c' ", "build mode flags", "flags"),
    ("r: (build 'a' 'b, c", "build mode flags", "flags"),
    ("r: (build x'a' ", "build mode flags", "flags"),
    ("r: (build double('a') ", "build mode flags", "flags"),
    ("r: (build (if 'a' == 'b' { 'c' } else { 'd' }) ", "build mode flags", "flags"),
    ("r: (build if 'a' == 'b' { 'c' } else { 'd' } ", "build mode flags", "flags"),
    ("r: (build double(", "double(n)", "n"),
    ("r: b && (tidy ", "tidy", None),
    ("r: (unknown ", None, None),
    ("r: (", None, None),
    ("x := unknown(", None, None),
    ("x := (", None, None),
    ("x := double('a') + ", None, None),
    ("f(a, ", None, None),
    ("[group(", None, None),
    ("# replace(", None, None),
    ("r:\n    replace(", None, None),
]
RUNS = """set windows-shell := ['a']
plain:
defaulted a='b' *c: plain
required a: plain
several +a:
[private]
hidden: (required 'a')
[windows]
elsewhere:
[linux]
here:
[arg('o', long)]
option o:
e := 'é𝄞'
"""
RUNNABLE = ["plain", "defaulted", "hidden", "here"]
FIXES = [
    # a text with a place between « and », and the title of what sets right what is wrong there, if something does
    ("# é𝄞\nx «=» 'é𝄞'\n", "Replace `=` with `:=`"),
    ("\ufeffx-1 \t«=» 'é𝄞'\n", "Replace `=` with `:=`"),
    ("y y\nx«=»'é𝄞'\n", "Replace `=` with `:=`"),
    ("twice(value) «=» value + value\n", "Replace `=` with `:=`"),
    ("x y = «=» z\n", ""),
    ("x «==» 'a'\n", ""),
    ("x := 'a'\n  «=» 'b'\n", ""),
    ("build: «clean»\n", "Create the recipe `clean`"),
    ("build:\n    echo\n\nalias «b» := all-all", "Create the recipe `all-all`"),
    ("mod m\nbuild: «m»\n", ""),
    ("x := 'a' «=» 'b'\n", ""),
    ("x := «[»'a', 'b']\n", "Add `set lists`"),
    ("\ufeffx := «[»'a', 'b']\n", "Add `set lists`"),
    ("#!/usr/bin/env just\nx := «[»'a', 'b']\n", "Add `set lists`"),
    ("\ufeff#!/usr/bin/env just\r\n\nx := «[»'a', 'b']\n", "Add `set lists`"),
    ("x := «unknown_name»\n", ""),
]
COLORS = [
    # a text, and its tokens that are shown, each with its type
    ("# é𝄞\n\n# a\n\n[private]\na b: # c\n    # d\n    echo {{b}} # e\n\n# f\n", ["# é𝄞:comment", "# a:comment", "private:property", "a:function", "b:parameter", "# c:comment", "b:parameter", "# f:comment"]),
    ("z := 'é𝄞' + # a\n# b\n\n# c\ny := z\n", [":=:operator", "'é𝄞':string", "+:operator", "# a:comment", "# b:comment", "# c:comment", "y:variable", ":=:operator", "z:variable"]),
    ("a b if 'é𝄞' + 'd' # e\nc: d\n# f", ["if:keyword", "'é𝄞':string", "+:operator", "'d':string", "# e:comment", "c:function", "d:function", "# f:comment"]),
    ("a := 'b' + ('c' # d\n\n# e\nc := 'f'\n", [":=:operator", "'b':string", "+:operator", "'c':string", "# d:comment", "# e:comment", "c:variable", ":=:operator", "'f':string"]),
    ("# a\nb := 'c' + `é𝄞 # d\nc := 'e'\n", ["# a:comment", ":=:operator", "'c':string", "+:operator", "c:variable", ":=:operator", "'e':string"]),
]
FINDINGS = [
    # a justfile, the places of a finding between « and », and of what it is about between ‹ and ›; its code, its message,
    # and what is at the other place
    ("x := 'é𝄞' + «targt»\ntarget := 'a'\n", "UndefinedVariable", "variable `targt` not defined\nDid you mean `target`?", ""),
    ("a target='é𝄞' b=«targt»:\n", "UndefinedVariable", "variable `targt` not defined\nDid you mean `target`?", ""),
    ("a b=«targt» target='é𝄞':\n", "UndefinedVariable", "variable `targt` not defined", ""),
    ("a target:\n    # é𝄞\n    echo é𝄞 {{ «targt» }}\n", "UndefinedVariable", "variable `targt` not defined\nDid you mean `target`?", ""),
    ("a target:\nb:\n    echo {{ «targt» }}\n", "UndefinedVariable", "variable `targt` not defined", ""),
    ("twice(value) := value + «valeu»\n", "UndefinedVariable", "variable `valeu` not defined", ""),
    ("twice(values) := values + «valeus»\n", "UndefinedVariable", "variable `valeus` not defined\nDid you mean `values`?", ""),
    ("ab := ''\nx := «ac»\n", "UndefinedVariable", "variable `ac` not defined", ""),
    ("abcd := ''\nabc1 := ''\nabc2 := ''\nx := «abc3»\n", "UndefinedVariable", "variable `abc3` not defined\nDid you mean `abcd`?", ""),
    ("abcdxy := ''\nabcdey := ''\nx := «abcdef»\n", "UndefinedVariable", "variable `abcdef` not defined\nDid you mean `abcdey`?", ""),
    ("a" * 32 + "b := ''\nx := «" + "a" * 32 + "»\n", "UndefinedVariable", f"variable `{'a' * 32}` not defined\nDid you mean `{'a' * 32}b`?", ""),
    ("a" * 33 + "b := ''\nx := «" + "a" * 33 + "»\n", "UndefinedVariable", f"variable `{'a' * 33}` not defined", ""),
    ("x := «BULE»\n", "UndefinedVariable", "variable `BULE` not defined", ""),
    ("x := «BLU»\n", "UndefinedVariable", "variable `BLU` not defined\nDid you mean `BLUE`?", ""),
    ("x := 'é𝄞' + «uppercas»('a')\n", "UndefinedFunction", "call to undefined function `uppercas`\nDid you mean `uppercase`?", ""),
    ("set unstable\nlouder(x) := x\ny := «loudre»('é')\n", "UndefinedFunction", "call to undefined function `loudre`\nDid you mean `louder`?", ""),
    ("louder := ''\ny := «loude»('é')\n", "UndefinedFunction", "call to undefined function `loude`", ""),
    ("x := 'é𝄞' + «env»()\n", "FunctionArgumentCountMismatch", "function `env` called with 0 arguments but takes 1 to 2", ""),
    ("build: «tidi»\ntidy:\n", "UnknownDependency", "recipe `build` has unknown dependency `tidi`\nDid you mean `tidy`?", ""),
    ("build: «tidi»\nalias tidy := build\n", "UnknownDependency", "recipe `build` has unknown dependency `tidi`\nDid you mean `tidy`?", ""),
    ("build: «buil»\nbuilt := ''\n", "UnknownDependency", "recipe `build` has unknown dependency `buil`", ""),
    ("new: («build» 'é')\nbuild:\n", "DependencyArgumentCountMismatch", "dependency `build` got 1 argument but takes 0 arguments", ""),
    ("alias «b» := buildd\nbuild:\n", "UnknownAliasTarget", "alias `b` has an unknown target `buildd`\nDid you mean `build`?", ""),
    ("alias «bild» := buld\n", "UnknownAliasTarget", "alias `bild` has an unknown target `buld`", ""),
    ("‹x› := 'é𝄞'\n«x» := 'b'\n", "DuplicateVariable", "variable `x` has multiple definitions", "first defined here"),
    ("‹a›:\n\n«a»:\n", "Redefinition", "recipe `a` first defined on line 1 is redefined on line 3", "first defined here"),
    ("a ‹b› c='é𝄞' «b»='':\n", "DuplicateParameter", "recipe `a` has duplicate parameter `b`", "first defined here"),
    ("f(‹x›, «x») := x\n", "DuplicateFunctionParameter", "function `f` has duplicate parameter `x`", "first defined here"),
    ("set ‹quiet›\nset «quiet»\n", "DuplicateSet", "setting `quiet` first set on line 1 is redefined on line 2", "first set here"),
    ("unexport ‹A›\nunexport «A»\n", "DuplicateUnexport", "variable `A` is unexported multiple times", "first unexported here"),
    ("unexport ‹A›\nexport «A» := 'é'\n", "ExportUnexported", "variable A is both exported and unexported", "unexported here"),
    ("a ‹b›='é𝄞' «c»:\n", "RequiredParameterFollowsDefaultParameter", "non-default parameter `c` follows default parameter", "the parameter with a default"),
    ("[default]\n‹a›:\n[default]\n«b»:\n", "DuplicateDefault", "recipe `b` has duplicate `[default]` attribute, which may only appear once per module", "the first default recipe"),
    ("a:\n  echo é𝄞\n  «  echo»\n", "ExtraLeadingWhitespace", "recipe line has extra leading whitespace", ""),
    ("a: ‹b›\nb: «a»\n", "CircularRecipeDependency", "recipe `b` has circular dependency `a -> b -> a`", "the next dependency"),
    ("a: «a»\n", "CircularRecipeDependency", "recipe `a` depends on itself", ""),
    ("«a» := b\n‹b› := a\n", "CircularVariableDependency", "variable `a` depends on its own value: `a -> b -> a`", "the next variable"),
]
QUIET = [
    # justfiles in which nothing is wrong, as far as it is known, each with its name
    ("justfile", START),
    ("justfile", NAMED),
    ("justfile", "import 'a.just'\nx := y\n"),
    ("a.just", "x := y\nalias b := c\nx := z\nd: e\n"),
    ("justfile.just", "x := y\n"),
    ("notjustfile", "x := y\n"),
    ("justfile", "x := y\n#" + "é" * 65535 + "\n"),
]
NAMES = ["justfile", "Justfile", ".justfile", ".JUSTFILE", "mod.just"]  # of files that aren't imported
QUERIES = ["documentSymbol", "foldingRange", "formatting", "documentLink", "semanticTokens/full"]


class Server:
    """A running server."""

    def __init__(self, program, encoding):
        self.encoding = encoding
        self.process = subprocess.Popen([program], stdin=subprocess.PIPE, stdout=subprocess.PIPE)
        self.count = 0
        found = self.ask("initialize", {"capabilities": {"general": {"positionEncodings": [encoding]}}})
        self.abilities = found["result"]["capabilities"]
        said = self.abilities["positionEncoding"]
        check(said == encoding, f"the server counts in {said}")
        self.tell("initialized", {})

    def write(self, body):
        """Sends bytes as a message."""
        self.process.stdin.write(b"Content-Length: %d\r\n\r\n%s" % (len(body), body))
        self.process.stdin.flush()

    def send(self, message):
        """Sends a value as a message."""
        self.write(json.dumps(message).encode())

    def read(self):
        """Returns the next message."""
        length = None
        while True:
            line = self.process.stdout.readline()
            check(line, "the server ended")
            if line == b"\r\n":
                break
            if line.startswith(b"Content-Length: "):
                length = int(line[16:])
        return json.loads(self.process.stdout.read(length))

    def ask(self, method, params):
        """Sends a request, and returns its answer."""
        self.count += 1
        self.send({"jsonrpc": "2.0", "id": self.count, "method": method, "params": params})
        answer = self.read()
        check(answer.get("id") == self.count, f"{method} is answered by {answer}")
        return answer

    def tell(self, method, params):
        """Sends a notification."""
        self.send({"jsonrpc": "2.0", "method": method, "params": params})

    def diagnostics(self, uri, version):
        """Returns the diagnostics that are published next."""
        found = self.read()
        check(found["method"] == "textDocument/publishDiagnostics" and found["params"]["uri"] == uri, f"no diagnostics: {found}")
        check(found["params"].get("version") == version, f"diagnostics of another version: {found}")
        return found["params"]["diagnostics"]

    def open(self, uri, text):
        """Opens a document, and returns its diagnostics."""
        self.tell("textDocument/didOpen", {"textDocument": {"uri": uri, "languageId": "just", "version": 1, "text": text}})
        return self.diagnostics(uri, 1)

    def close(self, uri):
        """Closes a document."""
        self.tell("textDocument/didClose", {"textDocument": {"uri": uri}})
        check(self.diagnostics(uri, None) == [], "a closed document has diagnostics")

    def change(self, uri, changes):
        """Changes a document, and returns its diagnostics."""
        self.tell("textDocument/didChange", {"textDocument": {"uri": uri, "version": 2}, "contentChanges": changes})
        return self.diagnostics(uri, 2)

    def all_of(self, uri):
        """Returns what the server says of a document, without its address."""
        about = {"textDocument": {"uri": uri}}
        said = [self.ask("textDocument/" + query, about) for query in QUERIES]
        return [json.loads(json.dumps(answer.get("result", answer.get("error"))).replace(uri.rsplit("/", 1)[0], "")) for answer in said]

    def end(self):
        """Ends the server, and returns its status."""
        check(self.ask("shutdown", None)["result"] is None, "shutdown has a result")
        self.tell("exit", None)
        return self.process.wait()


def check(holds, message):
    """Ends the run unless something holds."""
    if not holds:
        print("FAILED:", message)
        sys.exit(1)


def width(text, encoding):
    """Returns the units of a text."""
    return len(text.encode("utf-8")) if encoding == "utf-8" else len(text.encode("utf-16-le")) // 2


def position(text, offset, encoding):
    """Returns the position of an offset in characters."""
    before = text[:offset]
    start = before.rfind("\n") + 1
    return {"line": before.count("\n"), "character": width(before[start:], encoding)}


def offset(text, place, encoding):
    """Returns the offset of a position."""
    start = 0
    for _ in range(place["line"]):
        feed = text.find("\n", start)
        if feed < 0:
            return len(text)
        start = feed + 1
    at = start
    while at < len(text) and text[at] != "\n" and width(text[start : at + 1], encoding) <= place["character"]:
        at += 1
    return at


def edited(text, edits, encoding):
    """Returns a text after edits that don't overlap."""
    for edit in sorted(edits, key=lambda e: (e["range"]["start"]["line"], e["range"]["start"]["character"]), reverse=True):
        start, end = (offset(text, edit["range"][side], encoding) for side in ("start", "end"))
        text = text[:start] + edit["newText"] + text[end:]
    return text


def random_edit(text, chance):
    """Returns a range of offsets of a text and what takes its place: often the text stays right."""
    kind = chance.random()
    if len(text) > 4000 or kind < 0.15:
        return 0, len(text), START
    if kind < 0.35:
        starts = [0] + [at + 1 for at, letter in enumerate(text) if letter == "\n"]
        start = chance.choice(starts)
        return start, start, chance.choice(LINES)
    start = chance.randrange(len(text) + 1)
    if kind < 0.75:
        return start, start, chance.choice(LETTERS)
    if kind < 0.85:
        end = text.find("\n", start) + 1 or len(text)
        return text.rfind("\n", 0, start) + 1, end, ""
    end = min(len(text), start + chance.choice([0, 0, 1, 2, 5, 20]))
    return start, end, "".join(chance.choice(PIECES) for _ in range(chance.choice([0, 1, 1, 2])))


def random_request(server, text, encoding, chance):
    """Returns what the server answers to a request at a random position: a rename replaces one name, and nothing else."""
    place = position(text, chance.randrange(len(text) + 1), encoding)
    about = {"textDocument": {"uri": DOCUMENT}, "position": place}
    method = chance.choice(["hover", "definition", "references", "prepareRename", "completion", "rename"])
    if method != "rename":
        return method, server.ask("textDocument/" + method, dict(about, context={"includeDeclaration": True}))
    old = server.ask("textDocument/references", dict(about, context={"includeDeclaration": True}))["result"]
    answer = server.ask("textDocument/rename", dict(about, newName="renamed_here"))
    if "result" in answer:
        edits = answer["result"]["changes"][DOCUMENT]
        check([edit["range"] for edit in edits] == [at["range"] for at in old], f"other places are renamed than mentioned: {text!r}")
        words = {text[offset(text, e["range"]["start"], encoding) : offset(text, e["range"]["end"], encoding)] for e in edits}
        check(len(words) == 1, f"{words} are renamed at once: {text!r}")
    return method, answer


def at_document(answer):
    """An answer of the other document as it would be of the one that is edited."""
    return json.loads(json.dumps(answer).replace(FRESH, DOCUMENT))


def edit_at_random(program, encoding, edits, chance):
    """Edits a document at random."""
    server = Server(program, encoding)
    text = START
    server.open(DOCUMENT, text)
    errors = formatted = 0
    for _ in range(edits):
        before, changes = text, []
        for _ in range(1 if chance.random() < 0.7 else chance.choice([2, 3, 5, 600])):
            start, end, new = random_edit(text, chance)
            changes.append({"range": {"start": position(text, start, encoding), "end": position(text, end, encoding)}, "text": new})
            text = text[:start] + new + text[end:]
        found = server.change(DOCUMENT, changes)
        check(at_document(server.open(FRESH, text)) == found, f"other diagnostics of {text!r}")
        said, wanted = server.all_of(DOCUMENT), server.all_of(FRESH)
        for query, one, other in zip(QUERIES, said, wanted):
            check(one == other, f"{query} is answered by {one} after changes from {before!r}, and by {other} of {text!r}")
        server.close(FRESH)
        random_request(server, text, encoding, chance)
        wrong = [told for told in found if "code" not in told]
        errors += bool(wrong)
        changes = said[QUERIES.index("formatting")]
        if isinstance(changes, list):
            check(not wrong, f"a text with errors is formatted: {text!r}")
            formatted += 1
            again = edited(text, changes, encoding)
            server.open(FRESH, again)
            check(server.ask("textDocument/formatting", {"textDocument": {"uri": FRESH}})["result"] == [], f"not formatted: {again!r}")
            server.close(FRESH)
    last = Server(program, encoding)
    check(last.open(DOCUMENT, text) == found and last.all_of(DOCUMENT) == server.all_of(DOCUMENT), "a new server says other things")
    check(last.end() == 0 and server.end() == 0, "a status isn't 0")
    print(f"{encoding}: {edits} edits, {errors} texts with errors, {formatted} that were formatted")


def send_wrong(program):
    """Sends what is no message, and asks again."""
    server = Server(program, "utf-16")
    server.open(DOCUMENT, START)

    def code_of(body):
        server.write(body)
        return server.read()["error"]["code"]

    check(code_of(b"[]") == -32600, "a list")
    check(code_of(b'{"id":7}') == -32600, "no method")
    check(code_of(b'{"id":7,"method":"nothing"}') == -32601, "an unknown method")
    check(code_of(b'{"id":7,"method":"textDocument/hover","params":{}}') == -32602, "no document")
    unopened = b'{"id":7,"method":"textDocument/hover","params":{"textDocument":{"uri":"file:///n"},"position":{"line":0,"character":0}}}'
    check(code_of(unopened) == -32602, "a document that isn't open")
    server.write(b'{"method":"nothing"}')
    said = server.all_of(DOCUMENT)
    server.write(b'{"method":"textDocument/didChange","params":{"textDocument":{"uri":"file:///n"},"contentChanges":[{"text":""}]}}')
    check(code_of(unopened) == -32602, "a change opens a document")
    server.close("file:///n")
    check(code_of(unopened) == -32602 and server.all_of(DOCUMENT) == said, "to close a document that isn't open changes something")
    check(code_of(b"{") == -32700, "no JSON")
    check(code_of(b"\xff") == -32700, "no UTF-8")
    server.process.stdin.write(b"Content-Length: x\r\n\r\n")
    server.process.stdin.flush()
    check(server.read()["error"]["code"] == -32600, "a wrong header")
    server.process.stdin.write(b'Content-Length: x\r\n\r\n{"id":7,"method":"nothing"}content-length:27\r\n\r\n{"id":8,"method":"nothing"}')
    server.process.stdin.flush()
    check(server.read()["error"]["code"] == -32600, "a wrong header before a body")
    check(server.read()["id"] == 8, "the header after a body that was left isn't found")
    server.process.stdin.write(b"Content-Length: 100000000\r\n\r\n" + b" " * 100_000_000)
    server.process.stdin.flush()
    check(server.read()["error"]["code"] == -32600, "a long message")
    server.change(DOCUMENT, [{"text": START}])
    far = {"line": 10**9, "character": 10**9}
    server.change(DOCUMENT, [{"range": {"start": far, "end": far}, "text": "far: build\n"}])
    names = [symbol["name"] for symbol in server.ask("textDocument/documentSymbol", {"textDocument": {"uri": DOCUMENT}})["result"]]
    check("far" in names, f"the symbols are {names}")
    check(server.open(FRESH, ("a:\n" + "    echo {{ b }}\n" * 700) * 1000) == [], "a long document has diagnostics")
    server.close(FRESH)
    check(server.end() == 0, "the status isn't 0")
    early = subprocess.run([program], input=b'Content-Length: 17\r\n\r\n{"method":"exit"}', capture_output=True)
    check(early.returncode == 1 and early.stdout == b"", "exit without shutdown")
    print("wrong messages: the server stays alive")


def lose_texts(program):
    """Sends changes that can't be understood: no answer is about a text that nobody has, until a whole text comes."""
    server = Server(program, "utf-16")
    about = {"textDocument": {"uri": DOCUMENT}}
    start = {"line": 0, "character": 0}
    part = {"range": {"start": start, "end": start}, "text": "c:\n"}

    def symbols():
        answer = server.ask("textDocument/documentSymbol", about)
        return [symbol["name"] for symbol in answer["result"]] if "result" in answer else answer["error"]["code"]

    def is_lost(what):
        check(symbols() == -32801, f"after {what} the text is known")
        server.tell("textDocument/didChange", {"textDocument": {"uri": DOCUMENT, "version": 2}, "contentChanges": [part]})
        check(symbols() == -32801, f"after {what} and a part the text is known")
        server.change(DOCUMENT, [{"range": None, "text": "a:\n"}, part])
        check(symbols() == ["c", "a"], f"after {what} and a whole text that isn't known")

    server.open(DOCUMENT, "b:\n")
    server.open(FRESH, "d:\n")
    for changes in ([{"range": {"start": start}, "text": ""}], [part, {}], [5], {}, None):
        server.tell("textDocument/didChange", {"textDocument": {"uri": DOCUMENT, "version": 3}, "contentChanges": changes})
        check(server.diagnostics(DOCUMENT, None) == [], "a text that isn't known has diagnostics")
        is_lost(changes)
    check(server.ask("textDocument/documentSymbol", {"textDocument": {"uri": FRESH}})["result"], "another text is lost")
    for body in (b'{"method":"textDocument/didChange","params":{"textDocument":{"uri":"\\ud800"}}}', b"{"):
        server.write(body)
        check(server.read()["error"]["code"] == -32700, f"{body} is JSON")
        is_lost(body)
    server.write(b'{"method":"textDocument/didChange","params":{}}')
    is_lost("a change without a document")
    check(server.end() == 0, "the status isn't 0")
    print("changes that aren't understood: no answer is about another text")


def follow_links(program):
    """Asks for the links of a justfile among files that are there."""
    with tempfile.TemporaryDirectory(suffix=" é%") as folder:
        document = Path(folder) / "justfile"
        for name in FILES:
            file = Path(folder) / name
            file.parent.mkdir(parents=True, exist_ok=True)
            file.touch()
        server = Server(program, "utf-8")
        for start in ("", "set\n"):
            text = start + "".join(f"{line}\n" for line in LINKS)
            server.open(document.as_uri(), text)
            found = server.ask("textDocument/documentLink", {"textDocument": {"uri": document.as_uri()}})["result"]
            lines = start.count("\n")
            leads = {link["range"]["start"]["line"] - lines: unquote(link["target"].removeprefix("file://")) for link in found}
            wanted = {at: str(Path(folder) / to) for at, to in enumerate(LINKS.values()) if to}
            check(leads == wanted, f"the links are {leads} and not {wanted}")
        server.open("untitled:a/b", text)
        found = server.ask("textDocument/documentLink", {"textDocument": {"uri": "untitled:a/b"}})["result"]
        check([link["target"] for link in found] == ["untitled:a/n%20m.just", "file:///n.just"], f"elsewhere the links are {found}")
        check(server.end() == 0, "the status isn't 0")
    print(f"{len(wanted)} links lead to files")


def complete(program, encoding):
    """Asks what can be written at places of a justfile."""
    server = Server(program, encoding)
    server.open(DOCUMENT, NAMED)
    for before, after, word, wanted in CHOICES:
        text = NAMED + before + after
        server.change(DOCUMENT, [{"text": text}])
        place = position(text, len(NAMED + before), encoding)
        found = server.ask("textDocument/completion", {"textDocument": {"uri": DOCUMENT}, "position": place})["result"]
        labels = [item["label"] for item in found["items"]]
        at = f"after {before!r}"
        check(labels == sorted(set(labels)) and not found["isIncomplete"], f"{at} the texts aren't in order: {labels}")
        for edit in (item["textEdit"] for item in found["items"]):
            start, end = (offset(text, edit["range"][side], encoding) for side in ("start", "end"))
            check(text[start:end] == word, f"{at} {text[start:end]!r} would be replaced")
        check([item["textEdit"]["newText"] for item in found["items"]] == labels, f"{at} other texts are written than shown")
        if isinstance(wanted, set):
            check(set(labels) == wanted, f"{at} can be written: {labels}")
        else:
            lacking = OPERANDS.union(wanted).difference(labels)
            check(not lacking, f"{at} {lacking} can't be written, but: {labels}")
            others = (PARAMETERS.difference(wanted) | RECIPES | ITEMS) & set(labels)
            check(not others, f"{at} {others} can be written")
    for before, wanted in DETAILS:
        text = f"{NAMED}{DETAILED}\n{before}"
        server.change(DOCUMENT, [{"text": text}])
        found = server.ask("textDocument/completion", {"textDocument": {"uri": DOCUMENT}, "position": position(text, len(text), encoding)})["result"]
        details = {item["label"]: item.get("detail") for item in found["items"]}
        check(wanted.items() <= details.items(), f"beside names is shown {details}")
        said = [(item["label"], item["documentation"]) for item in found["items"] if item["label"] in RECIPES | {"hi", "h"} and "documentation" in item]
        check(said == ([("hi", "says é𝄞")] if "hi" in wanted else []), f"of recipes is said {said}")
    many = "".join(f"v{at} := ''\n" for at in range(300)) + "x := v2"
    server.change(DOCUMENT, [{"text": many}])
    found = server.ask("textDocument/completion", {"textDocument": {"uri": DOCUMENT}, "position": position(many, len(many), encoding)})["result"]
    labels = [item["label"] for item in found["items"]]
    check(found["isIncomplete"] and labels == sorted(f"v{at}" for at in range(300) if f"v{at}".startswith("v2")), f"of many can be written: {labels}")
    word = {"start": position(many, len(many) - 2, encoding), "end": position(many, len(many), encoding)}
    check(all(item["textEdit"]["range"] == word for item in found["items"]), "of many another word would be replaced")
    many = many.removesuffix("v2")
    server.change(DOCUMENT, [{"text": many}])
    found = server.ask("textDocument/completion", {"textDocument": {"uri": DOCUMENT}, "position": position(many, len(many), encoding)})["result"]
    check(found["isIncomplete"] and len(found["items"]) == 200, f"{len(found['items'])} of many can be written")
    check(server.end() == 0, "the status isn't 0")
    print(f"{encoding}: what can be written at {len(CHOICES)} places")


def explain(program, encoding):
    """Asks about words of the language and about names at places of a justfile."""
    server = Server(program, encoding)
    server.open(DOCUMENT, NAMED)
    for before, word, after, is_one in EXPLAINED:
        text = NAMED + before + word + after
        server.change(DOCUMENT, [{"text": text}])
        start = len(NAMED + before)
        places = [position(text, start + at, encoding) for at in (0, len(word) // 2, len(word))]
        ends = [{"textDocument": {"uri": DOCUMENT}, "position": place} for place in places]
        offered = server.ask("textDocument/completion", ends[2])["result"]["items"]
        wanted = ["\n".join(item[key] for key in ("detail", "documentation") if key in item) for item in offered if item["label"] == word and "documentation" in item]
        check((len(wanted) == 1) == is_one, f"{word!r} after {before!r} is offered as {wanted}")
        for end in ends:
            found = server.ask("textDocument/hover", end)["result"]
            said = [] if found is None else [found["contents"]["value"]]
            check(said == wanted, f"of {word!r} after {before!r} is said: {said}")
            if found is not None:
                check([found["range"]["start"], found["range"]["end"]] == [places[0], places[2]], f"{word!r} is at {found['range']}")
    server.change(DOCUMENT, [{"text": NAMED}])
    for place, wanted in (("target-dir := 'x'", "target-dir := 'x'"), ("b := build", "alias b := build"), ("double(", "function double n")):
        params = {"textDocument": {"uri": DOCUMENT}, "position": position(NAMED, NAMED.index(place), encoding)}
        found = server.ask("textDocument/hover", params)["result"]["contents"]["value"]
        check(found == wanted, f"of {place!r} is said {found!r}")
    for name, place, wanted in HIGHLIGHTED:
        params = {"textDocument": {"uri": DOCUMENT}, "position": position(NAMED, NAMED.index(place), encoding)}
        found = server.ask("textDocument/documentHighlight", params)["result"]
        texts = {NAMED[offset(NAMED, it["range"]["start"], encoding):offset(NAMED, it["range"]["end"], encoding)] for it in found}
        check(texts <= {name}, f"highlights of {name!r} are {texts}")
        check([it["kind"] == 3 for it in found] == wanted, f"highlights of {name!r} are {found}")
    check(server.end() == 0, "the status isn't 0")
    print(f"{encoding}: what is said of {len(EXPLAINED)} words and 3 names, and {len(HIGHLIGHTED)} names highlighted")


def rename(program, encoding):
    """Replaces names of justfiles, from each of the places where they are mentioned."""
    server = Server(program, encoding)
    server.open(DOCUMENT, "")
    for text, new, wanted in RENAMED:
        plain, place = marked(text, encoding)
        server.change(DOCUMENT, [{"text": plain}])
        about = {"textDocument": {"uri": DOCUMENT}, "position": place["start"]}
        found = server.ask("textDocument/references", dict(about, context={"includeDeclaration": True}))["result"]
        check(place in [it["range"] for it in found], f"{text!r} has the name at {found}")
        for it in found:
            answer = server.ask("textDocument/rename", dict(about, position=it["range"]["start"], newName=new))
            after = edited(plain, answer["result"]["changes"][DOCUMENT], encoding) if "result" in answer else ""
            check(after == wanted, f"{text!r} with {new!r} is {after!r}: {answer}")
    check(server.end() == 0, "the status isn't 0")
    print(f"{encoding}: names of {len(RENAMED)} justfiles are replaced as they should")


def call_and_run(program, encoding):
    """Asks what is called at places of a justfile, and what can be run in one."""
    server = Server(program, encoding)
    server.open(DOCUMENT, NAMED)
    for before, label, parameter in SIGNATURES:
        for after in ("", ")", "\nz := 'a'\n"):
            text = NAMED + before + after
            server.change(DOCUMENT, [{"text": text}])
            params = {"textDocument": {"uri": DOCUMENT}, "position": position(text, len(NAMED + before), encoding)}
            found = server.ask("textDocument/signatureHelp", params)["result"]
            said = (None, None)
            if found:
                (one,) = found["signatures"]
                parts = [one["label"][slice(*it["label"])] for it in one["parameters"]]
                said = (one["label"], parts[found["activeParameter"]] if parts else None)
            check(said == (label, parameter), f"after {before!r} {said} is called")
    text = RUNS
    server.change(DOCUMENT, [{"text": text}])
    found = server.ask("textDocument/codeLens", {"textDocument": {"uri": DOCUMENT}})["result"]
    names = [text[offset(text, it["range"]["start"], encoding):offset(text, it["range"]["end"], encoding)] for it in found]
    check(names == RUNNABLE, f"{names} can be run")
    wanted = [{"title": "Run", "command": "just.run", "arguments": [name]} for name in names]
    check([it["command"] for it in found] == wanted, f"the commands are {found}")
    check(server.end() == 0, "the status isn't 0")
    print(f"{encoding}: what is called at {len(SIGNATURES)} places, and {len(RUNNABLE)} recipes that can be run")


def marked(text, encoding):
    """Returns a text without marks, and the ranges that they are around."""
    plain = text.translate(dict.fromkeys(map(ord, "«»‹›")))
    ranges = []
    for start, end in ("«»", "‹›"):
        if start in text:
            at = [len(text[: text.index(mark)].translate(dict.fromkeys(map(ord, "«»‹›")))) for mark in (start, end)]
            ranges.append({"start": position(plain, at[0], encoding), "end": position(plain, at[1], encoding)})
    return plain, *ranges


def wanted_finding(text, code, message, beside, encoding, uri):
    """Returns a text without marks, and what is to be told of it."""
    plain, *ranges = marked(text, encoding)
    wanted = {"range": ranges[0], "severity": 1, "source": "just", "code": code, "message": message}
    if beside:
        wanted["relatedInformation"] = [{"location": {"uri": uri, "range": ranges[1]}, "message": beside}]
    return plain, wanted


def tell_findings(program, encoding):
    """Asks what is wrong with what justfiles say."""
    server = Server(program, encoding)
    server.open(DOCUMENT, "")
    for text, *case in FINDINGS:
        plain, wanted = wanted_finding(text, *case, encoding, DOCUMENT)
        found = server.change(DOCUMENT, [{"text": plain}])
        check(found == [wanted], f"of {plain!r} is told {found} and not {[wanted]}")
        check(server.open(FRESH, plain)[0]["message"] == wanted["message"], f"of {plain!r} an opened document tells something else")
        broken = server.change(DOCUMENT, [{"text": plain + "\n)\n"}])
        check("code" not in broken[0], f"of a text that can't be parsed is told {broken}")
        imported = json.loads(json.dumps(server.open(IMPORTED, plain)).replace(IMPORTED, DOCUMENT))
        check(broken[1:] == imported, f"beside what is wrong is told {broken[1:]} and not {imported}")
    texts = [wanted_finding(text, *case, encoding, DOCUMENT) for text, *case in (FINDINGS[0], FINDINGS[14])]
    lines = texts[0][0].count("\n")
    for side in texts[1][1]["range"].values():
        side["line"] += lines
    both = texts[0][0] + texts[1][0].replace("x", "z", 1)
    found = server.change(DOCUMENT, [{"text": both}])
    check(found == [wanted for _, wanted in texts], f"of two is told {found}")
    found = server.change(DOCUMENT, [{"text": "a: b\nx := y\nb: a\nz := y\n"}])
    codes = [told["code"] for told in found]
    check(codes == ["UndefinedVariable", "CircularRecipeDependency", "UndefinedVariable"], f"of a circle among problems is told {codes}")
    found = server.change(DOCUMENT, [{"text": "a := b\n)\nset quiet\nset quiet\n"}])
    told = [(told["range"]["start"]["line"], told.get("code")) for told in found]
    check(told == [(1, None), (3, "DuplicateSet")], f"beside an error is told {told}")
    for name in NAMES:
        found = server.open(f"file:///work/{name}", "x := y\n")
        check([told["code"] for told in found] == ["UndefinedVariable"], f"of {name} is told {found}")
    for name, text in QUIET:
        found = server.open(f"file:///work/{name}", text)
        check(found == [], f"of {text[:60]!r} in {name} is told {found}")
    found = server.open("file:///work/a.just", "a b b:\n")
    check([told["code"] for told in found] == ["DuplicateParameter"], f"of an imported file is told {found}")
    many = "target := ''\n" + "".join(f"x{at} := targt\n" for at in range(20))
    found = server.change(DOCUMENT, [{"text": many}])
    meant = [told["message"].endswith("Did you mean `target`?") for told in found]
    check(meant == [True] * 16 + [False] * 4, f"of many is told {found}")
    start, end = (position(many, many.index("target") + at, encoding) for at in (4, 5))
    found = server.change(DOCUMENT, [{"range": {"start": start, "end": end}, "text": ""}])
    check(found == [], f"of a text in which all is right now is told {found}")
    long = "x" * 60000
    found = server.change(DOCUMENT, [{"text": f"{long} := y{long}\n"}])
    check([told["code"] for told in found] == ["UndefinedVariable"], "a long name isn't told")
    found = server.change(DOCUMENT, [{"text": "a:" + " b" * 60000 + "\n"}])
    check(len(found) == 1000, f"{len(found)} of many in a line are told")
    check(server.end() == 0, "the status isn't 0")
    print(f"{encoding}: {len(FINDINGS)} findings are told, and nothing where {len(QUIET)} texts may be right")


def set_right(program, encoding):
    """Asks how what is wrong is set right, and does it."""
    server = Server(program, encoding)
    server.open(DOCUMENT, "")
    named = [(text, f"Replace `{message.split('`')[-4]}` with `{message.split('`')[-2]}`") for text, _, message, _ in FINDINGS if "Did you mean" in message and text.count("«") == 1]
    for text, title in named + FIXES:
        plain, place = marked(text, encoding)[:2]
        told = server.change(DOCUMENT, [{"text": plain}])
        actions = server.ask("textDocument/codeAction", {"textDocument": {"uri": DOCUMENT}, "range": place, "context": {"diagnostics": []}})["result"]
        wanted = [title] if title else []
        if "Did you mean" in told[0]["message"] and told[0]["code"] in ("UnknownDependency", "UnknownAliasTarget"):
            wanted.append(f"Create the recipe `{title.split('`')[1]}`")
        check([(action["title"], action["kind"]) for action in actions] == [(it, "quickfix") for it in wanted], f"of {plain!r} {actions} sets it right")
        for action in actions:
            after = edited(plain, action["edit"]["changes"][DOCUMENT], encoding)
            kept = re.match("\ufeff?(#!.*\n)?", plain)[0]
            check(action["title"] != "Add `set lists`" or after == f"{kept}set lists\n{plain[len(kept):]}", f"{plain!r} becomes {after!r}")
            if action["title"].startswith("Create"):
                added = f"\n{action['title'].split('`')[1]}:\n"
                check(after == plain.removesuffix("\n") + "\n" + added, f"{plain!r} becomes {after!r}")
            left = server.change(DOCUMENT, [{"text": after}])
            check(not any("Did you mean" in told["message"] or told["range"] == place for told in left), f"{action} of {plain!r} leaves {left}")
    for text in ("target := ''\nx := targt\n" + "#\n" * 9, "x := ['a']\n)\n", "a: b\nx y\n", "x := targt\ntarget := 1\n"):
        server.change(DOCUMENT, [{"text": text}])
        far = {"line": 9, "character": 0} if "#" in text else {"line": 0, "character": 6}
        actions = server.ask("textDocument/codeAction", {"textDocument": {"uri": DOCUMENT}, "range": {"start": far, "end": far}, "context": {"diagnostics": []}})["result"]
        check(actions == [], f"where nothing is told of {text!r} {actions} is set right")
    check(server.end() == 0, "the status isn't 0")
    print(f"{encoding}: {len(named) + len(FIXES)} texts are set right as they should")


def color(program, encoding):
    """Asks how the tokens of justfiles are shown, right ones and others."""
    server = Server(program, encoding)
    types = server.abilities["semanticTokensProvider"]["legend"]["tokenTypes"]
    for text, wanted in COLORS:
        server.open(DOCUMENT, text)
        numbers = server.ask("textDocument/semanticTokens/full", {"textDocument": {"uri": DOCUMENT}})["result"]["data"]
        shown, line, column = [], 0, 0
        for down, right, size, kind, _ in zip(*[iter(numbers)] * 5):
            line, column = line + down, right if down else column + right
            ends = (offset(text, {"line": line, "character": at}, encoding) for at in (column, column + size))
            shown.append((text[slice(*ends)], types[kind]))
        check(shown == [tuple(pair.rsplit(":", 1)) for pair in wanted], f"{text!r} is shown as {shown}")
    check(server.end() == 0, "the status isn't 0")
    print(f"{encoding}: {len(COLORS)} texts are shown in colours")


def main():
    program = sys.argv[1]
    edits = int(sys.argv[2]) if len(sys.argv) > 2 else 1000
    chance = random.Random(int(sys.argv[3]) if len(sys.argv) > 3 else 1)
    send_wrong(program)
    lose_texts(program)
    follow_links(program)
    for encoding in ("utf-8", "utf-16"):
        complete(program, encoding)
        explain(program, encoding)
        rename(program, encoding)
        call_and_run(program, encoding)
        tell_findings(program, encoding)
        set_right(program, encoding)
        color(program, encoding)
        edit_at_random(program, encoding, edits // 2, chance)


if __name__ == "__main__":
    main()
