# shellcheck shell=bash
# For scripts that build C hosts over the archive, which is x86-64 code. Sourced from the repository's top.
# On an Arm machine hosts are built by Debian's cross compiler and run under its emulator, as a processor that has what the archive is made for
# (x86-64-v2). RAIL_ARCHIVE names another archive to take.

# need COMMAND PACKAGE...: installs the packages where the command is missing.
need() {
  local command=$1 said
  shift
  command -v "$command" > /dev/null && return
  said=$(apt-get update -qq 2>&1 && DEBIAN_FRONTEND=noninteractive apt-get install -y -qq --no-install-recommends "$@" 2>&1) && return
  echo "$said"
  echo "cannot install $*"
  exit 1
}

if [ "$(uname -m)" = x86_64 ]; then
  need x86_64-linux-gnu-gcc gcc libc6-dev
  x86_run() { "$@"; }
else
  need x86_64-linux-gnu-gcc gcc-x86-64-linux-gnu libc6-dev-amd64-cross
  need qemu-x86_64 qemu-user
  x86_run() { qemu-x86_64 -cpu Nehalem "$@"; }
fi

# x86_cc WORDS...: compiles C99, warnings as errors.
x86_cc() { x86_64-linux-gnu-gcc -static -std=c99 -Wall -Wextra -Werror "$@"; }

# The archive, proved and built where it is missing or older than a file of the crates. (What the kit keeps in their folders out/ does not count.)
archive=${RAIL_ARCHIVE:-target/staticlib/librail.a}
if [ -z "${RAIL_ARCHIVE:-}" ] && { [ ! -e "$archive" ] || [ -n "$(find crates crates.txt -name out -prune -o -newer "$archive" -type f -print -quit)" ]; }; then
  mkdir -p target/staticlib
  (cd crates/rail && rt lib) > target/staticlib.log 2>&1 || { tail -n 20 target/staticlib.log; exit 1; }
  cp crates/rail/out/librail.a "$archive"
fi
