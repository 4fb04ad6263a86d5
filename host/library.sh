# Sourced by scripts, with `root` set to the repository's folder: `library NAME` makes target/staticlib/libNAME.a, which is
# proved, and `program FOLDER ARGUMENTS..` builds what a Rust package has. Both say something only where they fail.

# A check of a crate copies thousands of small files to a temporary folder and removes them again, which takes a disk longer than
# many a proof. `in_memory` has temporary files in memory, where there is a folder for that, with room, in which programs may run.
in_memory() {
  local folder=/dev/shm free probe
  [ -z "${TMPDIR:-}" ] || return 0
  free=$(df -Pk "$folder" 2> /dev/null | awk 'NR == 2 { print $4 }')
  [ "${free:-0}" -gt 4000000 ] || return 0
  probe=$(mktemp "$folder/XXXXXXXX" 2> /dev/null) || return 0
  if cp "$(type -P true)" "$probe" && chmod 700 "$probe" && "$probe"; then
    export TMPDIR=$folder
  fi 2> /dev/null
  rm -f "$probe"
}

quietly() {
  local said
  if ! said=$("$@" 2>&1 < /dev/null); then
    printf '%s\n' "$said" >&2
    exit 1
  fi
}

# The sum of everything that a static library is made from.
library_sum() {
  rt version
  find crates crates.txt \( -path '*/out' -prune \) -o -type f -print0 | sort -z | xargs -0 sha256sum
}

# `rt lib` proves the crate and those below it first, with what earlier checks on this computer kept.
library() (
  cd "$root" || exit 1
  sum=$(library_sum | sha256sum) || exit 1
  stored=target/staticlib/lib$1
  if [ ! -f "$stored.a" ] || [ "$sum" != "$(cat "$stored.sum" 2> /dev/null)" ]; then
    in_memory
    cd "crates/$1" || exit 1
    quietly rt lib
    cd "$root" || exit 1
    mkdir -p target/staticlib
    cp "crates/$1/out/lib$1.a" "$stored.a" || exit 1
    printf '%s\n' "$sum" > "$stored.sum"
  fi
)

program() {
  local folder=$1
  shift
  quietly cargo build --offline --release --quiet --manifest-path "$root/$folder/Cargo.toml" "$@"
}

# Where the built programs of a package are.
built() { printf '%s' "${CARGO_TARGET_DIR:-$root/$1/target}/release"; }
