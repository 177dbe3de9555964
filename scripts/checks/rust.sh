#!/bin/sh
# The crate for Rust: its tests and examples over both libraries, the test vectors by its calls, layout and lints.
#
# It takes the proved static library, as scripts/checks/c.sh does, and builds a copy of rust/ without a network. It uses
# the cargo on the path, and that of Debian too if it is another; rustfmt and clippy where they are installed.
set -u
cd "$(dirname "$0")/../.." || exit 1
. scripts/checks/lib.sh

needs cargo cargo
needs rustc rustc
for tool in cargo rustc; do
  $tool --version > "$out" 2> "$err" && continue
  # the tools of rustup are there without a compiler
  ! grep -q rustup "$err" || not_run "rustup has no toolchain with $tool"
  outcome "$tool --version" 1
  finish
done
needs pkg-config pkg-config
installed_library

unset CARGO_BUILD_TARGET PENDRATSOA_PREFIX PENDRATSOA_STATIC
CARGO_HOME=$work/cargo
CARGO_NET_OFFLINE=true
RUSTFLAGS='-D warnings'
RUSTDOCFLAGS='-D warnings'
export CARGO_HOME CARGO_NET_OFFLINE CARGO_TARGET_DIR RUSTFLAGS RUSTDOCFLAGS
top=$PWD
mkdir "$work/rust"
for part in Cargo.toml build.rs README.md src tests examples; do
  cp -R "rust/$part" "$work/rust/"
done
ln -s "$top/conformance" "$work/conformance"
mkdir "$work/examples"
ln -s "$top/examples/streams" "$work/examples/streams"
cd "$work/rust" || exit 1

# links FILE: whether a program links the shared library
links() {
  readelf -d "$1" | grep -q 'NEEDED.*libpendratsoa\.so\.0'
}

# listed NAME STREAM VERSION: the example lists a stream as list_stream.py does
listed() {
  "$CARGO_TARGET_DIR/debug/examples/listing" "$3" < "$top/$2" > "$out" 2> "$err"
  outcome "$1: the listing of $2" $?
  python3 -B "$top/scripts/checks/list_stream.py" "$3" < "$top/$2" > "$work/listing"
  same "$1: the listing of $2 beside the lister" "$work/listing" "$out"
}

# tests WORD..: cargo runs tests, some at least
tests() {
  cargo test --quiet "$@" > "$work/tests"
  ended=$?
  cat "$work/tests"
  [ $ended -eq 0 ] && grep -q '^test result: ok\. [1-9]' "$work/tests"
}

# has_part NAME: whether cargo has a part of its own; one that is there and fails is a case that has failed
has_part() {
  cargo "$1" --version > "$out" 2> "$err" && return
  grep -qE 'no such (sub)?command|is not installed' "$err" || outcome "cargo $1" 1
  return 1
}

# tested NAME: the tests, the test vectors and the example, by the cargo and the rustc on the path
tested() {
  CARGO_TARGET_DIR=$work/target-$1
  case_of "$1: the tests" tests --lib --tests
  case_of "$1: the examples of the comments" tests --doc
  counted "$1: the test vectors" cargo test --quiet --test conformance
  case_of "$1: the example" cargo build --quiet --example listing
  listed "$1" examples/streams/replay 8
  listed "$1" examples/streams/unknown_type 9
  links "$CARGO_TARGET_DIR/debug/examples/listing"
  outcome "$1: the shared library is linked" $?
}

tested "$(rustc --version | sed 's/^rustc \([0-9.]*\).*/\1/')"
debian=/usr/bin
if [ -x $debian/cargo ] && [ -x $debian/rustc ] && [ "$(command -v rustc)" != $debian/rustc ]; then
  path=$PATH
  PATH=$debian:$PATH
  tested "Debian's"
  PATH=$path
elif [ ! -x $debian/rustc ]; then
  left_out "Debian's compiler" "there is no $debian/rustc; the Debian packages cargo and rustc have it"
fi

# the static library, named by the folder that it was installed below
CARGO_TARGET_DIR=$work/target-static
PENDRATSOA_PREFIX=$prefix
PENDRATSOA_STATIC=1
export PENDRATSOA_PREFIX PENDRATSOA_STATIC
counted 'the test vectors with the static library' cargo test --quiet --test conformance
case_of 'the example with the static library' cargo build --quiet --example listing
listed static examples/streams/replay 8
! links "$CARGO_TARGET_DIR/debug/examples/listing"
outcome 'the shared library is not linked' $?

case_of 'the proxy is built' cargo build --quiet --example proxy
counted 'the proxy' python3 -B "$top/scripts/checks/proxied.py" "$CARGO_TARGET_DIR/debug/examples/proxy"
case_of 'the example that checks a replay is built' cargo build --quiet --example replay
counted 'the replays' python3 -B "$top/scripts/checks/replayed.py" "$CARGO_TARGET_DIR/debug/examples/replay"
recording=$work/$(printf 'recorded\377')
cp "$top/examples/streams/recorded" "$recording"
case_of 'a recording whose name is not UTF-8' "$CARGO_TARGET_DIR/debug/examples/replay" "$recording" \
  < "$top/examples/streams/recorded"
sed -n '/^fn append/,/^}/p' README.md > "$work/part"
case_of 'the proxy of rust/README.md' python3 -B "$top/scripts/checks/is_part.py" "$work/part" examples/proxy.rs

# unlinked NAME WORDS: what needs no library is made, with a warning in these words, and a program is not linked
unlinked() {
  for words in check 'doc --no-deps' 'build --lib'; do
    # shellcheck disable=SC2086 # the words are split
    cargo $words > "$out" 2> "$err"
    [ $? -eq 0 ] && grep "^warning: " "$err" | grep -qF "$2"
    outcome "$1: cargo $words" $?
  done
  cargo build --example listing > "$out" 2> "$err"
  [ $? -ne 0 ] && grep -qF "$2" "$err" && grep -qF 'pendratsoa_is_not_installed' "$err"
  outcome "$1: a program is not linked" $?
}

PENDRATSOA_PREFIX=$work/nowhere
unlinked 'no library below PENDRATSOA_PREFIX' \
  "pendratsoa: nothing can be linked, since there is no $work/nowhere/lib/libpendratsoa.a; "
unset PENDRATSOA_PREFIX
(
  PKG_CONFIG_PATH=$work/nowhere
  PKG_CONFIG_LIBDIR=$work/nowhere
  export PKG_CONFIG_PATH PKG_CONFIG_LIBDIR
  unlinked 'no library by pkg-config' \
    'pendratsoa: nothing can be linked, since PENDRATSOA_PREFIX is not set, and pkg-config does not know the library; '
  echo "$passed $failed" > "$work/tally"
)
read -r passed failed < "$work/tally"
PKG_CONFIG=$work/nowhere/pkg-config
export PKG_CONFIG
unlinked 'no pkg-config' \
  "pendratsoa: nothing can be linked, since PENDRATSOA_PREFIX is not set, and $PKG_CONFIG cannot be run: "
unset PKG_CONFIG PENDRATSOA_STATIC

# layout, lints (src/lib.rs asks for the pedantic ones) and pages; unsafe code is only in src/ffi.rs
CARGO_TARGET_DIR=$work/target-lints
case_of 'the pages of cargo doc' cargo doc --quiet --no-deps
if has_part fmt; then
  case_of 'the layout' cargo fmt --check
else
  left_out 'the layout' 'there is no rustfmt; the Debian package rustfmt has it'
fi
if has_part clippy; then
  case_of 'the lints' cargo clippy --quiet --all-targets -- -D warnings
else
  left_out 'the lints' 'there is no clippy; the Debian package rust-clippy has it'
fi
# the codec of tokio_util, over the crates that Debian has
registry=/usr/share/cargo/registry
CARGO_TARGET_DIR=$work/target-tokio
if ls -d $registry/tokio-util-0.7* > "$out" 2> "$err"; then
  cp -R "$top/rust/tokio" "$work/rust/"
  printf '[source.crates-io]\nreplace-with = "debian"\n\n[source.debian]\ndirectory = "%s"\n' $registry \
    > "$CARGO_HOME/config.toml"
  case_of 'the codec of tokio' tests --manifest-path tokio/Cargo.toml
  if has_part clippy; then
    case_of 'the lints of the codec' cargo clippy --quiet --manifest-path tokio/Cargo.toml --all-targets -- -D warnings
  fi
else
  left_out 'the codec of tokio' 'there is no tokio_util; the Debian package librust-tokio-util-dev has it'
fi
grep -rl 'allow(unsafe_code)' src build.rs examples tests > "$work/allowed"
echo src/ffi.rs > "$work/wanted"
same 'the file with unsafe code' "$work/wanted" "$work/allowed"

finish
