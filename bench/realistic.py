#!/usr/bin/env python3
"""Writes a justfile as people write them, with all constructs, for the benchmark: realistic.py PATH [SIZE]

The text has at least SIZE bytes, 100000 if no size is passed, and is always the same. It is formatted
without a fault, and formatting changes some of its lines.
"""
import sys

NOUNS = (
    "api", "assets", "backend", "book", "cache", "client", "config", "container", "coverage", "crate", "database",
    "docs", "examples", "fixtures", "frontend", "fuzz", "gateway", "image", "index", "kernel", "library",
    "manifest", "migrations", "package", "parser", "playground", "proxy", "registry", "release", "schema",
    "scripts", "search", "server", "site", "snapshot", "staging", "storage", "tests", "toolchain", "worker",
)
VERBS = (
    "build", "check", "clean", "deploy", "fetch", "format", "generate", "install", "lint", "publish", "push",
    "run", "serve", "sync", "test", "update", "validate", "watch",
)
GROUPS = ("ci", "development", "documentation", "maintenance", "release", "testing")
SYSTEMS = ("unix", "linux", "macos", "windows", "openbsd")
MARKS = ("done", "starting", "nothing to do", "skipped", "please wait", "all checks have passed")

HEAD = """\
#!/usr/bin/env -S just --justfile
# The tasks of the whole workspace. Run `just --list` to see them.

set shell := ['bash', '-euo', 'pipefail', '-c']
set windows-shell := ["pwsh", "-NoLogo", "-Command"]
set dotenv-load
set dotenv-filename := '.env.local'
set positional-arguments := true
set export := false
set fallback
set ignore-comments
set tempdir := '/tmp'
set working-directory := 'src'
set script-interpreter := ['uv', 'run', '--script']
set unstable
set minimum-version := '1.40.0'

import 'just/common.just'
import? 'just/local.just'

# everything about the documentation
mod docs
mod? site 'web/site.just'
[group('release')]
mod release "ops/release.just"

alias b := build-all
alias t := test-all
[private]
alias ci := check-all

unexport CARGO_TARGET_DIR
unexport RUSTFLAGS

join-path(base, name) := base / 'target' / name
greeting(who) := "hello, " + who + "!"

export RUST_BACKTRACE := '1'
root := justfile_directory()
branch := `git rev-parse --abbrev-ref HEAD`
commit := `git rev-parse --short HEAD`
version := trim(read('VERSION'))
profile := env('PROFILE', 'debug')
[private]
cores := if os() == 'macos' { `sysctl -n hw.ncpu` } else if os_family() == 'unix' { `nproc` } else { '4' }
home := env_var_or_default('HOME', x'~/work')
banner := f'building {{version}} of {{branch}} at {{commit}}'
usage := '''
    usage: just RECIPE [ARGUMENTS]

    Runs a recipe of the workspace, with its dependencies.
'''
stamp := ```
    date --utc \\
        +%Y-%m-%dT%H:%M:%SZ
```

# lists the recipes
[default]
help:
    @just --list --unsorted

# builds everything
[group('development')]
build-all: (build-crate-0) docs::build

# tests everything, and builds it before
[group: 'testing']
test-all *args: build-all
    cargo test --workspace --all-features {{args}}

# what the pipeline runs
[private]
check-all: test-all && (notify "the checks of " + branch + " have passed")
    cargo clippy --workspace --all-targets -- -D warnings

# says something to the channel of the team
notify message channel='builds':
    @curl --silent --data 'text={{message}}' "$CHAT_URL/{{ channel }}" > /dev/null

"""


class Choices:
    """Choices that look arbitrary and are always the same."""

    def __init__(self):
        self.state = 20240229

    def below(self, count):
        """A number below the count."""
        self.state = (self.state * 6364136223846793005 + 1442695040888963407) % 2**64
        return (self.state >> 33) % count

    def of(self, values):
        """One of the values."""
        return values[self.below(len(values))]

    def one_in(self, count):
        """True once in so many times."""
        return self.below(count) == 0


def variable(choices, name, number):
    """An assignment to a variable of this name."""
    noun = choices.of(NOUNS)
    values = (
        "'%s'" % noun,
        '"%s/%s-%d"' % (noun, choices.of(NOUNS), number),
        "root / '%s' / '%s'" % (noun, choices.of(NOUNS)),
        "`git log --format=%%h -n 1 -- %s`" % noun,
        "env('%s_URL', 'https://%s.example.org')" % (noun.upper(), noun),
        "if profile == 'release' { '--release' } else { '' }",
        "if branch =~ '^release/' {'%s'} else if branch == 'main' {'edge'} else {'nightly'}" % noun,
        "uppercase(profile) + '-' + replace_regex(version, '[.]', '_')",
        "join(home, '.%s', \"%s\\n\")" % (noun, choices.of(NOUNS)),
        "('%s' + version) && profile || 'none'" % noun,
        "f'{{root}}/%s/{{ version }}.tar.gz'" % noun,
        "[ '%s', '%s', branch ]" % (noun, choices.of(NOUNS)),
    )
    keyword = "export " if choices.one_in(9) else ""
    sign = choices.of((":=", " := ", " := ", " := ", "  := "))
    comment = "  # used by the %s" % choices.of(NOUNS) if choices.one_in(8) else ""
    return "%s%s%s%s%s\n" % (keyword, name, sign, choices.of(values), comment)


def body_line(choices, names, indent):
    """A line of a body, 10 to 60 columns or so, which may continue in a second line."""
    noun, other, name = choices.of(NOUNS), choices.of(NOUNS), choices.of(names)
    lines = (
        "cargo build --package %s" % noun,
        "cargo test --package %s -- --nocapture" % noun,
        "cargo run --quiet --bin %s -- --config %s.toml" % (noun, other),
        "mkdir -p target/%s/%s" % (noun, other),
        "rm -rf target/%s" % noun,
        "cp -r %s/static/. target/%s/" % (noun, other),
        "@echo '%s: %s'" % (noun, choices.of(MARKS)),
        "echo \"%s of %s\" >> target/%s.log" % (choices.of(MARKS), noun, other),
        "docker build --tag %s:{{version}} --file %s/Dockerfile ." % (noun, noun),
        "docker push registry.example.org/%s:{{ version }}" % noun,
        "find %s -name '*.orig' -print0 | xargs -0 rm -f" % noun,
        "git diff --exit-code -- %s" % noun,
        "-pkill --full %s-%s" % (noun, other),
        "npm --prefix %s run %s" % (noun, choices.of(VERBS)),
        "test -n \"${%s_TOKEN:-}\" || exit 1" % noun.upper(),
        "for file in %s/*.json; do jq . \"$file\" > /dev/null; done" % noun,
        "rsync --archive --delete %s/ {{%s}}/%s" % (noun, name, other),
        "./scripts/%s.sh --jobs {{cores}} --log %s.log" % (noun, other),
        "psql --quiet --file %s/{{ %s }}.sql {{ if profile == 'debug' { '--echo-all' } else { '' } }}" % (noun, name),
        "printf '%%s\\n' {{ quote(%s) }} | tee %s.txt" % (name, other),
        "# the %s needs the %s first" % (noun, other),
        "tar -czf {{%s / '%s.tar.gz'}} target/%s" % (name, noun, noun),
        "awk '{ print $1 }' %s.tsv | sort | uniq -c" % noun,
        "kubectl set image deployment/%s %s=%s:{{version}}" % (noun, noun, noun),
    )
    line = choices.of(lines)
    if choices.one_in(14):
        line += " \\\n%s%s--%s %s" % (indent, indent, choices.of(VERBS), choices.of(NOUNS))
    return "%s%s\n" % (indent, line)


def shell_body(choices, names):
    """The lines of a body that the shell runs one by one."""
    count = 1 + choices.below(5)
    indent = choices.of(("    ", "    ", "    ", "  ", "\t"))
    lines = []
    for number in range(count):
        if number > 1 and choices.one_in(9):
            lines.append("\n")
        lines.append(body_line(choices, names, indent))
    return "".join(lines)


def script_body(choices, names):
    """The lines of a body that is a script of its own."""
    noun, other, name = choices.of(NOUNS), choices.of(NOUNS), choices.of(names)
    scripts = (
        "#!/usr/bin/env bash\nset -euo pipefail\ncd {{root}}/%s\n"
        "for file in *.%s; do\n    if [[ -s \"$file\" ]]; then\n        gzip --keep \"$file\"\n    fi\ndone\n"
        "echo \"${#}: {{ %s }}\"\n" % (noun, other, name),
        "#!/usr/bin/env python3\nimport json\nimport pathlib\n\n"
        "for path in sorted(pathlib.Path('{{%s}}').glob('%s-*.json')):\n"
        "    data = json.loads(path.read_text())\n    print(path.name, len(data), {{{{'%s': 1}})\n"
        % (name, noun, other),
        "#!/bin/sh\nset -e\n# the %s is built from the %s\nif ! command -v %s > /dev/null; then\n"
        "    echo 'please install %s first' >&2\n    exit 2\nfi\nexec %s --version\n" % (noun, other, noun, noun, noun),
    )
    lines = choices.of(scripts).splitlines()
    return "".join("    %s\n" % line if line else "\n" for line in lines)


def parameters(choices):
    """The parameters of a recipe, each after a space."""
    noun = choices.of(NOUNS)
    rows = (
        "", "", "", "",
        " target",
        " target='%s'" % noun,
        " target mode=profile",
        " target=(root / '%s') $LOG='info'" % noun,
        " *flags",
        " target='all' *flags='--locked'",
        " +files",
        " host port='8080' *rest",
    )
    return choices.of(rows)


def dependencies(choices, earlier):
    """The dependencies of a recipe, on earlier ones."""
    if not earlier or choices.one_in(2):
        return ""
    first, second = choices.of(earlier), choices.of(earlier)
    rows = (
        " " + first,
        " %s %s" % (first, second),
        " (%s 'fast')" % first,
        " (notify \"%s\" + version) %s" % (first, second),
        " %s && %s" % (first, second),
        " docs::build (%s version / profile '%s')" % (first, choices.of(NOUNS)),
    )
    return choices.of(rows)


def attributes(choices, name, given):
    """The lines of attributes of a recipe with these parameters."""
    noun = choices.of(NOUNS)
    lines = []
    if choices.one_in(2):
        lines.append(choices.of(("[group('%s')]", "[group: '%s']", '[group("%s")]')) % choices.of(GROUPS))
    if choices.one_in(6):
        lines.append("[private]")
    if choices.one_in(9):
        lines.append("[%s]" % choices.of(SYSTEMS))
    if choices.one_in(12):
        lines.append("[confirm('really touch the %s?')]" % noun)
    if choices.one_in(14):
        lines.append("[doc('%s of the %s')]" % (name.replace("-", " "), noun))
    if choices.one_in(14):
        lines.append("[no-cd, no-exit-message]")
    if choices.one_in(16):
        lines.append("[env('%s_MODE', profile)] # for the %s" % (noun.upper(), choices.of(NOUNS)))
    if choices.one_in(20):
        lines.append("[metadata('owner', '%s')]" % noun)
    if given.startswith(" target") and choices.one_in(2):
        help_text = "which %s to take" % noun
        lines.append(choices.of((
            "[arg('target', help='%s')]" % help_text,
            "[arg('target', pattern='[a-z/]+')]",
            "[arg('target', long, short='t', help=\"%s\")]" % help_text,
        )))
    return "".join(line + "\n" for line in lines)


def recipe(choices, name, names, earlier):
    """A recipe of this name: its doc, its attributes, its header and its body."""
    given = parameters(choices)
    if choices.one_in(3):
        noun = choices.of(NOUNS)
        doc = "# %ss the %s with what the %s needs\n" % (name.split("-")[0], noun, choices.of(NOUNS))
    else:
        doc = ""
    marks = attributes(choices, name, given)
    quiet = "@" if choices.one_in(8) else ""
    header = "%s%s%s:%s\n" % (quiet, name, given, dependencies(choices, earlier))
    if choices.one_in(6):
        body = script_body(choices, names)
    else:
        body = shell_body(choices, names)
    if choices.one_in(25):
        marks += "[script('python3')]\n"
        body = "    print('{{%s}}')\n    print(1 + 1)\n" % choices.of(names)
    return doc + marks + header + body + "\n"


def section(choices, number, earlier):
    """A heading, some variables and some recipes, whose names are added to the earlier ones."""
    noun = NOUNS[number % len(NOUNS)]
    text = "# ---------- %s, part %d ----------\n\n" % (noun, number)
    names = ["%s-%s-%d" % (noun, choices.of(NOUNS), at) for at in range(number, number + 3)]
    names = [name.replace("-", "_") if choices.one_in(2) else name for name in names]
    text += "".join(variable(choices, name, number) for name in names) + "\n"
    if choices.one_in(3):
        text += "# settings of the %s that can't be guessed from\n# the name of the %s alone\n\n" % (noun, noun)
    for at in range(4):
        name = "%s-%s-%d" % (choices.of(VERBS), noun, number * 4 + at)
        text += recipe(choices, name, names, earlier)
        earlier.append(name)
    if choices.one_in(2):
        text += "alias %s%d := %s\n\n" % (noun[0], number, earlier[-1])
    return text


def justfile(size):
    """A justfile of at least this size."""
    choices = Choices()
    parts, length, earlier = [HEAD, "build-crate-0:\n    cargo build\n\n"], 0, []
    while length < size:
        parts.append(section(choices, len(parts) - 2, earlier))
        length = sum(map(len, parts))
    return "".join(parts)


if __name__ == "__main__":
    with open(sys.argv[1], "w", newline="") as file:
        file.write(justfile(int(sys.argv[2]) if len(sys.argv) > 2 else 100000))
