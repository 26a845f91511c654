# Sourced by the scripts of this repository: where the kit is, as the one whose rt is called, and what it has for this machine.
machine=$(uname -m)
kit=$(dirname "$(dirname "$(readlink -f "$(command -v rt)")")")
toolchain=$kit/toolchain
clang=$toolchain/bin/clang

# One sum over the kit, all sources, the scripts that build from them, and these files: state FILE...
state() {
  (cd "$root" && cat "$kit/KIT-ID" && find crates.txt crates tools/{kit.bash,compilers.bash,module,run,arm_calls.c} "$@" -path 'crates/*/out' -prune -o -type f -print0 | LC_ALL=C sort -z | xargs -0 sha256sum) | sha256sum
}

# Keeps the sum over these files, unless the sources are no longer those that this sum was taken of: keep_state STATE-FILE
# SUM FILE...
keep_state() {
  local kept=$1 built_from=$2
  shift 2
  [ "$(state)" = "$built_from" ] || { echo "the sources changed while ${kept##*/} was made: try again" >&2; exit 1; }
  state "$@" >"$kept"
}

# Whether these files are there and are what the sources that stand here were made into: is_current STATE-FILE FILE...
is_current() {
  local kept=$1 file now
  shift
  for file in "$kept" "$@"; do [ -f "$file" ] || return 1; done
  now=$(state "$@") || return 1
  [ "$(cat "$kept")" = "$now" ]
}

# Whether the kit's compiler has a target: has_target NAME
has_target() { "$clang" --print-targets | awk '{ print $1 }' | grep -qx "$1"; }

# Compiles a module that tools/module wrote as the kit does, which has its compiler leave out what is known to go wrong:
# compile_module MODULE OBJECT WORD..., the words those for a target
compile_module() {
  local word words=()
  for word in trap-unreachable no-trap-after-noreturn no-x86-call-frame-opt disable-machine-licm disable-postra-machine-licm \
    sink-common-insts=false; do words+=(-mllvm "-$word"); done
  "$clang" "${@:3}" -ffunction-sections -fdata-sections "${words[@]}" --no-default-config -no-canonical-prefixes \
    -fintegrated-cc1 -Wno-override-module -Werror -O3 -c -x ir "$1" -o "$2"
}

# The words for each target. Android keeps register 18 for itself, and code that leaves it alone runs on every Arm Linux.
words_for_x86_64=(--target=x86_64-unknown-linux-gnu -march=x86-64 -fPIC)
words_for_arm=(--target=aarch64-unknown-linux-gnu -march=armv8-a -ffixed-x18 -mllvm -aarch64-load-store-renaming=false -fPIC)
words_for_wasm=(--target=wasm32-unknown-unknown -mcpu=lime1 -mllvm -expand-div-rem-bits=64 -mllvm -expand-fp-convert-bits=64)
