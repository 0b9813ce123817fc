#!/bin/bash -eu
# Builds the targets of fuzz/ as OSS-Fuzz does: with $CC, $CFLAGS and $LIB_FUZZING_ENGINE, into $OUT. Without these, with
# clang's libFuzzer and AddressSanitizer, into bin/fuzz.
#
# The library is that of cargo, with overflow checks, assertions, and counters at each edge.

cd "$(dirname "$0")/.."
top=$PWD
: "${CC:=clang}"
: "${CFLAGS:=-g -O1 -fsanitize=address,fuzzer-no-link}"
: "${LIB_FUZZING_ENGINE:=-fsanitize=fuzzer}"
: "${OUT:=$top/bin/fuzz}"
machine=$(uname -m)-unknown-linux-gnu
counters='-Cpasses=sancov-module'
for name in level=4 inline-8bit-counters pc-table trace-compares; do
    counters="$counters -Cllvm-args=-sanitizer-coverage-$name"
done

mkdir -p "$OUT"
[ -n "${WITHOUT_PLAIN:-}" ] || tools/plain bin/plain > /dev/null
(cd bin/plain && RUSTC_BOOTSTRAP=1 RUSTFLAGS="$counters" cargo build --quiet --profile checked \
    --target "$machine" --target-dir ../target-fuzz -p plain_targets)
library=bin/target-fuzz/$machine/checked/libplain_targets.a
for file in fuzz/*.c; do
    name=$(basename "$file" .c)
    # A host's compiler names what LIB_FUZZING_ENGINE and CFLAGS hold as single words.
    # shellcheck disable=SC2086
    $CC $CFLAGS -Wall -Wextra -I bindings -I fuzz "$file" $LIB_FUZZING_ENGINE -fsanitize=address "$library" \
        -lpthread -ldl -lm -o "$OUT/$name"
    [ ! -f "fuzz/dictionaries/$name.dict" ] || cp "fuzz/dictionaries/$name.dict" "$OUT"
done
fuzz/make_corpus "$OUT"
