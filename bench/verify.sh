#!/bin/sh
# Times `confllvm verify` beside `objdump -D` on images of 64 KiB, 1 MiB and 4 MiB of seven shapes, with the peak of memory, and
# then the steps a second of `confllvm run`, beside those of `qemu-x86_64` where that and gcc are there. Wants python3 and objdump.
set -eu
top=$(cd "$(dirname "$0")/.." && pwd)
"$top/confllvm" verify "$top/examples/one.cfv" >/dev/null
exec python3 "$top/bench/verify.py" "$top/crates/confllvm_cli/out/confllvm_cli"
