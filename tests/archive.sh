# Read by the scripts of this folder: where to build, and which static library to link.
# The first argument, or else ARDUINOS_ARCHIVE, names libarduinos.a; "standin" builds the stand-in and takes that.

# A script's --help is the comment at its head.
[ "${1:-}" = --help ] && { sed -n '1d; /^#/!q; s/^# \{0,1\}//p' "$0"; exit; }

case "${1:-}" in
'' | -*) archive=${ARDUINOS_ARCHIVE:-} ;;
*)
    archive=$1
    shift
    ;;
esac
case "$archive" in
/* | standin) ;;
*) archive=$PWD/$archive ;;
esac

here=$(cd "$(dirname "$0")" && pwd)
CARGO_TARGET_DIR=${CARGO_TARGET_DIR:-$here/../target/rust}
export CARGO_TARGET_DIR
cd "$here"

if [ "$archive" = standin ]; then
    cargo build --quiet --release -p standin
    archive=$CARGO_TARGET_DIR/release/libstandin.a
fi
if [ ! -f "$archive" ]; then
    echo "$0: no static library at '$archive'; name libarduinos.a, or say: standin" >&2
    exit 2
fi
ARDUINOS_ARCHIVE=$archive
export ARDUINOS_ARCHIVE
