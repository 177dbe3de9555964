#!/bin/sh
# Makes prost and bytes of the Debian packages what cargo builds with: install.sh [--no-install]
#
# It installs the packages where they are missing, but not with --no-install, and writes .cargo/config.toml, which puts
# the distribution's folder of crates in the place of crates.io, and has the baseline compiled for the processor that
# the library is compiled for. Where a tool is absent it says 'not run: ..' with status 77.
set -u
cd "$(dirname "$0")" || exit 1

case $#:${1-} in
  0: | 1:--no-install) ;;
  1:--help) sed -n '2,6s/^# \{0,1\}//p' install.sh; exit 0 ;;
  *) echo 'usage: install.sh [--no-install]' >&2; exit 2 ;;
esac

packages='librust-prost-dev librust-prost-derive-dev librust-bytes-dev'
packages="$packages librust-serde-dev librust-serde-json-dev librust-base64-dev"

# not_run WHY: prints why nothing is built, and ends
not_run() {
  echo "not run: $1"
  exit 77
}

# installed: whether each of the packages is there
installed() {
  for package in $packages; do
    dpkg -s "$package" > /dev/null 2>&1 || return 1
  done
}

command -v cargo > /dev/null || not_run "there is no cargo"
command -v "${CC:-cc}" > /dev/null || not_run "there is no C compiler"
command -v dpkg > /dev/null || not_run "there are no Debian packages here"
if ! installed; then
  [ "${1-}" != --no-install ] || not_run "the packages $packages are not installed"
  # shellcheck disable=SC2086 # the packages are several words
  { apt-get install -y $packages || { apt-get update && apt-get install -y $packages; }; } > /dev/null 2>&1
  installed || not_run "the packages $packages cannot be installed"
fi

manifest=$(dpkg -L librust-prost-dev | grep '/prost-[0-9.]*/Cargo\.toml$' | sed 1q)
if [ -z "$manifest" ]; then
  echo 'install.sh: librust-prost-dev holds no crate' >&2
  exit 1
fi
registry=$(dirname "$(dirname "$manifest")")

mkdir -p .cargo
cat > .cargo/config.toml << END
[source.crates-io]
replace-with = "distribution"

[source.distribution]
directory = "$registry"

[net]
offline = true

[target.x86_64-unknown-linux-gnu]
rustflags = ["-C", "target-cpu=x86-64-v2"]
END
