#!/bin/sh
# Compiles the module of the gem for Ruby: scripts/ruby.sh [FOLDER]; FOLDER is ruby/ or a copy of it.
#
# The module is put into FOLDER/lib, for the Ruby that compiled it, where 'gem build' takes it along; the gem does
# without it in any other Ruby. It needs make, a C compiler and the headers of Ruby, which Debian's ruby-dev has. With
# CC, the compiler for another processor, it is for that one. Nothing is downloaded.
set -eu

case $#:${1-} in
  1:--help) sed -n '2,6s/^# \{0,1\}//p' "$0"; exit 0 ;;
  *:-* | [2-9]:*) echo 'usage: ruby.sh [FOLDER]' >&2; exit 2 ;;
esac
top=$(cd "$(dirname "$0")/.." && pwd)
folder=$(cd "${1:-$top/ruby}" && pwd)
work=$(mktemp -d)
trap 'rm -rf "$work"' EXIT
trap 'exit 143' HUP INT TERM

not_compiled() {
  echo "ruby.sh: no module is compiled, since $1"
  exit 0
}
for tool in ruby make "${CC:-cc}"; do
  command -v "$tool" > /dev/null || not_compiled "there is no $tool"
done
headers=$(ruby -e 'print RbConfig::CONFIG["rubyhdrdir"]')
[ -e "$headers/ruby.h" ] || not_compiled 'there are no headers of Ruby; the Debian package ruby-dev has them'

version=$(ruby -e 'print RbConfig::CONFIG["ruby_version"]')
# mkmf takes no folder with a space in its name
cp "$folder"/ext/pendratsoa/* "$work"
cd "$work"
ruby extconf.rb > log
# it finds Ruby in the process that loads it, be that in a library or not
set -- LIBRUBYARG_SHARED= LIBPATH= LIBS=-lc
[ -z "${CC-}" ] || set -- "$@" "CC=$CC" "LDSHARED=$CC -shared"
make "$@" >> log 2>&1 || { cat log >&2; exit 1; }
mkdir -p "$folder/lib/pendratsoa/$version"
cp compiled.so "$folder/lib/pendratsoa/$version/compiled.so"
echo "ruby.sh: the module is in $folder/lib/pendratsoa/$version"
