#!/bin/sh
# Builds the addon, build/pendratsoa.node: build.sh [PREFIX]
#
# PREFIX is where scripts/install.sh put the library for C, whose static library goes into the addon; by default
# pkg-config says where it is. It takes Node's headers from next to node, or from where the Debian package libnode-dev
# has them. CC is the compiler, and CFLAGS are further flags.
set -eu

# not_built WHY: says in one line why nothing is built, and ends
not_built() {
  echo "build.sh: nothing is built, since $1" >&2
  exit 2
}

case $#:${1-} in
  0:) ;;
  1: | 1:-*) echo 'usage: build.sh [PREFIX]' >&2; exit 2 ;;
  1:*) prefix=$(cd "$1" 2> /dev/null && pwd) || not_built "there is no folder $1" ;;
  *) echo 'usage: build.sh [PREFIX]' >&2; exit 2 ;;
esac
cd "$(dirname "$0")"

compiler=${CC:-cc}
command -v "${compiler%% *}" > /dev/null || not_built "there is no $compiler, a C compiler"
command -v node > /dev/null || not_built 'there is no node'

# the library for C
if [ -n "${prefix-}" ]; then
  header_folder=$prefix/include
  library=$prefix/lib/libpendratsoa.a
else
  command -v pkg-config > /dev/null || not_built 'there is no pkg-config to find the library by; give its PREFIX'
  pkg-config --exists pendratsoa || not_built 'pkg-config finds no pendratsoa; PKG_CONFIG_PATH may say where it is'
  header_folder=$(pkg-config --variable=includedir pendratsoa)
  library=$(pkg-config --variable=libdir pendratsoa)/libpendratsoa.a
fi
for file in "$header_folder/pendratsoa.h" "$library"; do
  [ -e "$file" ] || not_built "there is no $file; sh scripts/install.sh PREFIX installs it"
done

# Node's headers
node_prefix=$(node -p 'require("path").resolve(process.execPath, "../..")')
for folder in "$node_prefix/include/node" /usr/include/node /usr/include/nodejs/src ''; do
  [ ! -e "$folder/node_api.h" ] || break
done
[ -n "$folder" ] || not_built 'there is no node_api.h; the Debian package libnode-dev has it'

mkdir -p build
trap 'rm -f build/new.node' EXIT
trap 'exit 143' HUP INT TERM
# The calls of the library are not seen from outside. A program that runs keeps the file that it has open.
# shellcheck disable=SC2086 # the flags are split
$compiler -std=c11 -O2 -fPIC -fvisibility=hidden -Wall -Wextra -Wpedantic -Wconversion -Wshadow ${CFLAGS-} \
  -isystem "$folder" -I "$header_folder" -shared -Wl,--exclude-libs,ALL -Wl,-z,now \
  -o build/new.node src/addon.c src/arguments.c src/room.c "$library"
mv build/new.node build/pendratsoa.node
echo 'build.sh: built build/pendratsoa.node'
