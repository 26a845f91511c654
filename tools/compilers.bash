# Sourced behind kit.bash: C compilers for the targets of tools/archive that are Linux, and what runs their programs here.
case $machine in
  x86_64) own_target=x86-64-linux ;;
  aarch64) own_target=aarch64-linux ;;
  *) echo "this is a machine for neither x86-64 nor Arm: $machine" >&2; exit 1 ;;
esac

# Sets what a target needs: `compiler`, the words to `link` a program, the `runner` of one here, and the `packages` of Debian
# that have them: choose_target TARGET
choose_target() {
  link=(-static)
  case $1 in
    "$own_target") compiler=gcc link=() runner=() packages=(gcc libc6-dev) ;;
    x86-64-linux) compiler=x86_64-linux-gnu-gcc runner=(qemu-x86_64) packages=(gcc-x86-64-linux-gnu libc6-dev-amd64-cross qemu-user) ;;
    aarch64-linux) compiler=aarch64-linux-gnu-gcc runner=(qemu-aarch64) packages=(gcc-aarch64-linux-gnu libc6-dev-arm64-cross qemu-user) ;;
  esac
}

# Whether the chosen target's compiler is there with a C library, and what runs its programs.
is_chosen_usable() {
  [ ${#runner[@]} -eq 0 ] || command -v "${runner[0]}" >/dev/null || return 1
  printf '#include <stdio.h>\nint main(void) { return 0; }\n' | "$compiler" "${link[@]}" -x c -o /dev/null - 2>/dev/null
}

# Installs packages where this is a Debian machine and the user may: install_packages PACKAGE...
install_packages() {
  [ "$(id -u)" -eq 0 ] && command -v apt-get >/dev/null || return 1
  { timeout 60 apt-get update && timeout 300 apt-get install -y --no-install-recommends "$@"; } </dev/null >/dev/null 2>&1
}
