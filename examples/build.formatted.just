# Builds, tests, checks and releases `harbor`, a small command line program.

set shell := ['bash', '-euo', 'pipefail', '-c']
set windows-shell := ["powershell.exe", "-NoLogo", "-Command"]
set minimum-version := '1.55.0' # for itself
set indentation := "\u{20}   "
set dotenv-path := 'config' / '.env'
set quiet
set positional-arguments := false
[linux]
set unstable
set lists

import 'tools/common.just'
import? x'~/.config/harbor.just' # mine, if there is one

# pages and their checks
[group('docs')]
mod docs
mod? site x'$SITE/justfile'

name := 'harbor'
version := "1.4.0" # as in Cargo.toml
target := 'target/release'
_registry := 'https://registry.example.org/harbor'
profile := name # the profile of the release
export RUSTFLAGS := '-D warnings'
eager commit := `git rev-parse --short HEAD`
unexport RUST_LOG
suffix := if os() == 'windows' { '.exe' } else if os() == 'macos' { '' } else if arch() != 'wasm32' { '' } else { '.wasm' }
title := f'{{ name }} {{ uppercase(version) }}'
features := ['tls', "color"] ++ []
_ready := assert(path_exists('Cargo.toml') == 'true', """
  no manifest
""") && !features || name =~ '^h' && / 'usr' !~ "lib"

artifact(kind, number) := (name + '-' + kind) / number
greeting(who) := 'hello, ' + who

alias b := build
[private]
alias d := docs::serve # not listed

# The program itself
build profile='release' *flags:
    cargo build --locked --package {{ name }} --profile {{ profile }} {{ flags }}
    echo "built {{ target }}/{{ name }}{{ suffix }}, version {{ version }}"

# Everything that has to pass before a merge
[confirm("run all of it?")] # asked once
[env('RUST_BACKTRACE', '1')]
[group('checks')]
test: build lint && (report 'tests' "all")
    echo 'testing {{ name }}'
    cargo test --all-targets \
      --locked \
      -- --quiet
    -rm -rf target/tmp   

[linux]
[private]
@lint:
    cargo fmt --check

    cargo clippy --all-targets -- \
      -D warnings
    # the next line finds nothing mostly
    -grep -rn 'TODO' src {{ '--include=*.rs' }}{{ '' }}

report what +parts:
    echo {{ what }}: {{ greeting(parts) }}, {{ artifact('log', '1') }}

all $mode="fast": *(report 'each' *features)
    echo "$mode"

_clean:
    -@rm -rf {{ target }}
    -@rm -f {{ name }}-*.tar.gz
# Packs the program, and uploads it
[arg("level", long, short="l", help='how small it gets')]
[no-cd]
[script]
release level='9':
    #!/usr/bin/env bash
    set -euo pipefail

    archive={{ name }}-{{ version }}.tar.gz
    if [ -e "$archive" ]; then
        echo "$archive is there already" >&2
        exit 1
    fi


    for file in README.md LICENSE; do
        cp "$file" {{ target }}/
    done
    tar -C {{ target }} -czf "$archive" {{ name }} README.md LICENSE
    curl --fail --upload-file "$archive" \
        --header "Profile: {{ profile }}" {{ _registry }}/{{ version }}/
    echo "${archive} is out, {{{{so}}"

help: # lists what can be run

default:
    just --list
