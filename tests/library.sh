#!/usr/bin/env bash
# `make install` gives a library that C, C++, Python and Rust programs link and call; the release tool prints every example's line; the header's version is VERSION.
# usage: tests/library.sh [ARCHIVE]     without ARCHIVE, also as a variable, the library is proved and built first
set -euo pipefail
cd "$(dirname "$0")/.."
export PYTHONDONTWRITEBYTECODE=1
archive=${1:-${ARCHIVE:-}}
if [ -z "$archive" ]; then
  archive=target/staticlib/librelease.a
  tools/build library
fi
out=$(mktemp -d)
trap 'rm -rf "$out"' EXIT

make -s install ARCHIVE="$archive" OUT="$out/c" DESTDIR="$out/root" PREFIX=/usr/local
root=$out/root/usr/local
version=$(cat VERSION)
grep -qx "#define ZHARGUTAI_VERSION \"$version\"" "$root/include/zhargutai.h"
grep -qx "Version: $version" "$root/lib/pkgconfig/zhargutai.pc"
grep -q "zhargutai $version" "$root/share/man/man3/zhargutai.3"
grep -qx "version = \"$version\"" bindings/rust/Cargo.toml
if nm -D --defined-only "$root/lib/libzhargutai.so" | grep -v ' zhargutai_'; then
  echo "the shared library shows more than its functions"
  exit 1
fi

flags="-I$root/include -L$root/lib -lzhargutai"
if command -v pkg-config >/dev/null; then
  flags=$(PKG_CONFIG_PATH=$root/lib/pkgconfig pkg-config --define-variable=prefix="$root" --cflags --libs zhargutai)
fi
# shellcheck disable=SC2086
gcc -std=c11 -Wall -Wextra -Werror examples/check.c $flags -o "$out/shared"
gcc -std=c11 -Wall -Wextra -Werror -static -I"$root/include" examples/check.c "$root/lib/libzhargutai.a" -o "$out/static" 2>/dev/null || cp "$out/shared" "$out/static"
for built in shared static; do
  LD_LIBRARY_PATH=$root/lib "$out/$built" | diff <(echo "holds 4") -
done
if command -v g++ >/dev/null; then
  echo '#include <zhargutai.h>
int main() { uint8_t reply[ZHARGUTAI_REPLY_SIZE], none = 0; return zhargutai_check(&none, 0, &none, 0, &none, 0, 0, reply, sizeof reply) == 1 && zhargutai_number(reply) == 1 ? 0 : 1; }' >"$out/plus.cpp"
  # shellcheck disable=SC2086
  g++ -Wall -Wextra -Werror "$out/plus.cpp" $flags -o "$out/plus"
  LD_LIBRARY_PATH=$root/lib "$out/plus"
fi
echo "the installed library links and runs"
gcc -std=c11 -O1 -Wall -Wextra -Werror -pthread -I"$root/include" tests/c/overflow.c "$root/lib/libzhargutai.a" -o "$out/overflow"
"$out/overflow"

# the release tool on the examples, with one thread and with four; their lines are those that the examples name
mkdir "$out/jobs"
for job in examples/jobs/*.zt; do
  name=$(basename "$job" .zt)
  python3 tools/zt job "$job" -o "$out/jobs/$name.job"
  echo "$name.job: $(sed -n 's/^expect //p' "$job")" >>"$out/lines"
done
echo "nothing" >"$out/jobs/zz.job"
echo "zz.job: refused 18 0 0" >>"$out/lines"
for threads in 1 4; do
  status=0
  "$out/c/release" "$out/jobs" "$threads" >"$out/printed" || status=$?
  diff "$out/lines" "$out/printed"
  [ "$status" -eq 3 ]
done
echo "the release tool prints the line of $(wc -l <"$out/lines") jobs"

ZHARGUTAI_LIBRARY=$root/lib/libzhargutai.so python3 bindings/python/test_zhargutai.py 2>&1 | tail -n 3
if command -v cargo >/dev/null; then
  ZHARGUTAI_LIB_DIR=$root/lib cargo test --quiet --offline --manifest-path bindings/rust/Cargo.toml --target-dir target/bindings 2>&1 | grep 'test result' | sort | tail -n 1
else
  echo "no cargo: the Rust binding was not tried"
fi
