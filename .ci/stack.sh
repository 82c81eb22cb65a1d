#!/usr/bin/env bash
# Holds gantry.h's '52 KiB of stack': follows the stack pointer through the machine code of libgantry.a, along every jump and call.
# A measured run would hold for its input alone; this holds for all. What it cannot follow (recursion, a call or jump through a
# pointer, another change of the stack pointer) fails the check. Before: rt lib --cpu=x86-64 in crates/gantry.
set -uo pipefail
cd "$(dirname "$0")/.." || exit 1
limit=53248
# kept for memcpy and memset, with the dynamic linker's search at their first call: that takes about 3,000 bytes in glibc
library=4096

objdump -dr --no-show-raw-insn crates/gantry/out/libgantry.a |
    awk -v check=stack -v limit=$limit -v library=$library -f .ci/code.awk -f .ci/stack.awk
