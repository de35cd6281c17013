#!/bin/sh
# Tries the launcher ./hp16c: what it says of itself, its answers without proof, and its proof.
#
# usage: scripts/try_launcher.sh [--whole]
#
# Help, and answers without proof, are tried on a clone of this repository; a few calls, each of a
# minute or two. The proof is tried on a small repository in which another program has the name hp16c:
# it says its words and its input again, and ends with a status of its own. With --whole the clone is
# proved too, which takes as long as a first proof of all crates. Needs the kit's command `rt`. Prints a
# line for each try, and ends with 1 where one isn't as wanted.

top=$(cd "$(dirname "$0")/.." && pwd) || exit 1
work=$(mktemp -d) || exit 1
trap 'rm -rf "$work"' EXIT
failed=0

# Whether the last call ended with this status, and what it wrote is as in the file `wanted`.
verdict() {
    if [ "$status" -eq "$2" ] && cmp -s "$work/wanted" "$work/out"; then
        echo "as wanted: $1"
    else
        echo "NOT AS WANTED: $1: status $status"
        cat "$work/err"
        failed=1
    fi
}

# Whether the last call's standard error has these words.
has_said() {
    grep -q -e "$2" "$work/err" || { echo "NOT AS WANTED: $1: it doesn't say '$2'"; failed=1; }
}

# Runs the launcher of a folder with the words that follow, on the file `in`.
call() {
    launcher=$1/hp16c
    shift
    "$launcher" "$@" <"$work/in" >"$work/out" 2>"$work/err"
    status=$?
}

built() {
    ls -d "$1"/crates/*/out 2>/dev/null
}

says_of_itself() {
    : >"$work/in"
    call "$1" --help
    cp "$work/out" "$work/wanted"
    verdict "help" 0
    for command in keys debug judge spec short check replay 'gen N' asm list lrat --prove --version; do
        grep -q "^  $command  *[a-z]" "$work/out" || { echo "NOT AS WANTED: help lacks $command"; failed=1; }
    done
    : >"$work/wanted"
    call "$1"
    verdict "no words" 3
    has_said "no words" '^usage: '
    call "$1" adds
    verdict "no command" 3
    sed -n 's/.*(`rt version` prints `\(.*\)`).*/hp16c, proved with \1/p' "$1/README.md" >"$work/wanted"
    call "$1" --version
    verdict "the version is the README's" 0
    [ -z "$(built "$1")" ] || { echo "NOT AS WANTED: it built something"; failed=1; }
}

# The program itself, in a build without proof.
answers_unproved() {
    cp "$1/examples/sum.keys" "$work/in"
    echo '100 h' >"$work/wanted"
    began=$(date +%s)
    call "$1" keys
    verdict "keys, without proof, $(($(date +%s) - began)) s" 0
    has_said "keys, without proof" 'not proved on this machine yet'
    has_said "keys, without proof" '--prove'
    : >"$work/wanted"
    call "$1" gen 4294967296
    verdict "a number too large, without proof" 3
    printf 'bad line 1\n' >"$work/wanted"
    printf '\377\n' >"$work/in"
    call "$1" asm
    verdict "a bad line, without proof" 4
}

# A repository with two libraries and a program of the name hp16c. It writes its words, each with a bar
# behind it, and its input, without a line feed at the end, and ends with 7 plus the number of words.
small_repository() {
    mkdir -p "$1/crates/low/src" "$1/crates/side/src" "$1/crates/hp16c/src"
    cp "$top/hp16c" "$1"
    printf '%s\n' 'low:' 'side:' 'hp16c: low side' >"$1/crates.txt"
    cat >"$1/crates/low/src/lib.rt" <<'END'
//! The least status.
#![tactic(auto)]
ghost use Rattle.std.specs.Prelude.{◌≡◌};

/// It is 7.
pub fn least() -> u8
    ensures { result ≡ 7 }
{
    7
}
END
    cat >"$1/crates/side/src/lib.rt" <<'END'
//! The mark behind a word.
#![tactic(auto)]

/// It is a bar.
pub fn mark() -> &'static str {
    "|"
}
END
    cat >"$1/crates/hp16c/src/main.rt" <<'END'
//! Writes its words and its input again.
#![tactic(auto)]

use low::least;
use side::mark;
use std::io::{BufRead, Read};
use std::process::ExitCode;
use std::{env, io};

fn words(rt: &HostRuntime) -> io::Result<Vec<String>> {
    let words = env::args(rt)?.skip(1).collect(rt.alloc())?;
    Ok(words)
}

fn repeat(rt: &HostRuntime) -> io::Result<u8> {
    let words = words(rt)?;
    for word in words.iter() {
        let bar = mark();
        print!(rt; "{word}{bar}")?;
    }
    let mut input = String::new(rt.alloc());
    rt.reader().read_to_string(&mut input)?;
    print!(rt; "{input}")?;
    let more = if words.len() < 100 { words.len() as u8 } else { 100 };
    Ok(least() + more)
}

fn main(rt: HostRuntime) -> ExitCode {
    match repeat(&rt) {
        Ok(status) => ExitCode::from(status),
        Err(_) => ExitCode::from(1),
    }
}
END
}

# Words and input pass unchanged, 600,000 bytes of it without a line feed at the end; too much output
# for a build without proof is no answer.
passes_unchanged() {
    awk 'BEGIN { for (i = 0; i < 100000; i++) printf "%05d%s", i, i % 10 ? " " : "\n" }' >"$work/in"
    { printf 'keys|'; cat "$work/in"; } >"$work/wanted"
    call "$1" keys
    verdict "600,000 bytes, $2" 8
    printf 'gen||*|a  b\n|-- |' >"$work/wanted"
    [ "$2" = "without proof" ] || cat "$work/in" >>"$work/wanted"
    call "$1" gen '' '*' 'a  b
' '-- '
    verdict "words with blanks and none, $2" 12
}

too_much_unproved() {
    : >"$work/wanted"
    awk 'BEGIN { for (i = 0; i < 200000; i++) print "1234567" }' >"$work/in"
    call "$1" keys
    verdict "1,600,000 bytes written, without proof" 125
    has_said "1,600,000 bytes written, without proof" 'more than 1048576 bytes'
}

proves() {
    : >"$work/wanted"
    : >"$work/in"
    call "$1" --prove
    verdict "proof" 0
    has_said "proof" 'low proved in [0-9]* s, [0-9]* left'
    has_said "proof" 'hp16c proved in [0-9]* s, 0 left'
    call "$1" --prove
    verdict "proof again" 0
    has_said "proof again" 'already'
}

# What is older than a source isn't proved, and what no proof shows is told.
sees_changes() {
    sleep 1
    sed 's/^    7$/    8/' "$1/crates/low/src/lib.rt" >"$work/changed"
    cp "$work/changed" "$1/crates/low/src/lib.rt"
    printf 'keys|' >"$work/wanted"
    call "$1" keys
    verdict "a source changed since the proof" 9
    has_said "a source changed since the proof" 'not proved'
    : >"$work/wanted"
    call "$1" --prove
    verdict "a proof that fails" 125
    has_said "a proof that fails" 'low wasn.t proved: rt check in crates/low says why'
}

git clone -q "$top" "$work/clone" || exit 1
cp "$top/hp16c" "$work/clone"
says_of_itself "$work/clone"
small_repository "$work/small"
passes_unchanged "$work/small" "without proof"
too_much_unproved "$work/small"
proves "$work/small"
passes_unchanged "$work/small" "proved"
sees_changes "$work/small"
answers_unproved "$work/clone"
if [ "$1" = --whole ]; then
    : >"$work/in"
    : >"$work/wanted"
    began=$(date +%s)
    call "$work/clone" --prove
    verdict "the whole proof, $(($(date +%s) - began)) s" 0
    printf '5 ENTER 6 +\n' >"$work/in"
    echo 'B h' >"$work/wanted"
    call "$work/clone" keys
    verdict "keys, proved" 0
fi
exit "$failed"
