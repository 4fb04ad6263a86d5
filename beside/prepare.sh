# Sourced by scripts here and at the root: `prepare PROGRAM` builds what a program needs, the static library, which is proved,
# the published Rust, and the program.
root=$(cd "$(dirname "${BASH_SOURCE[0]}")/.." && pwd) || exit 1
. "$root/host/library.sh" || exit 1

prepare() {
  (cd "$root" && quietly oracle/check-published "${PUBLISHED_SRC:-../shared/docs/src}") || exit 1
  library host || exit 1
  program beside --bin "$1"
}
