#!/bin/sh
# Times the lexing and the parsing of generated C sources of 1 MiB and of 8 MiB, beside `gcc -fsyntax-only`, and `tcc -c` where that is
# there. No command parses a source yet: a copy of the repository in a temporary folder gets a program that reads one, and `rt run`
# proves and builds it there, over what checks on this machine kept. Wants python3 and gcc.
set -eu
top=$(cd "$(dirname "$0")/.." && pwd)
copy=$(mktemp -d)
trap 'rm -rf "$copy"' EXIT
mkdir "$copy/crates"
for crate in cv_word c_lexer c_ast c_grammar c_parser; do
    mkdir "$copy/crates/$crate"
    for part in src specs proofs; do
        if [ -d "$top/crates/$crate/$part" ]; then cp -R "$top/crates/$crate/$part" "$copy/crates/$crate/"; fi
    done
    grep "^$crate:" "$top/crates.txt" >>"$copy/crates.txt"
done
cp "$top/HANDLES" "$copy/HANDLES"
echo 'parse_bench: c_parser c_lexer c_ast cv_word' >>"$copy/crates.txt"
mkdir -p "$copy/crates/parse_bench/src"
cat >"$copy/crates/parse_bench/src/main.rt" <<'END'
//! Lexes and parses the file that its argument names, and prints the number of items, the microseconds of lexing and those of both.
#![tactic(auto)]

use c_lexer::lex;
use c_parser::parse;
use std::time::Instant;
use std::{env, fs, io};

fn measure(rt: HostRuntime, source: &[u8]) -> io::Result<()> {
    if source.len() >= 0x1_0000_0000 {
        println!(rt; "a source of 2^32 bytes or more")?;
        return Ok(());
    }
    let start = Instant::now(&rt)?;
    match lex(rt.alloc(), source) {
        Ok(tokens) => {
            let lexed = start.elapsed(&rt)?;
            match parse(rt.alloc(), tokens.as_slice(), source) {
                Ok(program) => {
                    let parsed = start.elapsed(&rt)?;
                    println!(rt; "{} {} {}", program.items.len(), lexed.as_micros(), parsed.as_micros())?;
                }
                Err(error) => println!(rt; "{error}")?,
            }
        }
        Err(error) => println!(rt; "{error}")?,
    }
    Ok(())
}

fn main(rt: HostRuntime) -> io::Result<()> {
    for word in env::args(&rt)?.skip(1) {
        let source = fs::read(&rt, word.as_str())?;
        measure(rt, source.as_slice())?;
    }
    Ok(())
}
END
program=$copy/crates/parse_bench/out/parse_bench
(cd "$copy/crates/parse_bench" && rt run) >"$copy/log" 2>&1 </dev/null || true
if [ ! -x "$program" ]; then
    cat "$copy/log" >&2
    echo "parse_bench: not built" >&2
    exit 70
fi
python3 "$top/bench/parse.py" "$program" "$copy"
