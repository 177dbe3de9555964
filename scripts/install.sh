#!/bin/sh
# Installs the programs and the library for C below a folder, or removes what it installed:
#
#   scripts/install.sh [--library] [--target TRIPLE] [--libdir DIR] PREFIX
#   scripts/install.sh --uninstall [--libdir DIR] PREFIX
#   scripts/install.sh --from RELEASE.tar.gz [--uninstall] [PREFIX]
#
#   PREFIX       a folder, as /usr/local; it gets the programs in bin, the header in include, the static and the shared
#                library and files for pkg-config and CMake in lib, and man pages, completion for bash and zsh, the
#                script journal_view, which needs Python 3, and the dissector for Wireshark in share
#   --library    only the library, its man pages with it: no program is proved or built for that
#   --target     for aarch64-unknown-linux-gnu, by Debian's gcc-aarch64-linux-gnu
#   --libdir     where the libraries are, below PREFIX, instead of lib
#   --uninstall  removes exactly these files
#   --from       installs what is in a release, by the install.sh in it, which needs no toolchain and no compiler; where
#                a file SHA256SUMS is next to the release, it has to name it
#
# What is installed is proved. Without --from, what is not up to date is proved first: every crate below the programs
# and the library, which takes more than an hour of CPU time the first time, and no time where nothing has
# changed. The variable DESTDIR is a folder in which PREFIX is made, for a package, and CC the C compiler. Both
# libraries export the calls of the two headers and nothing else, and need only the C library.
set -eu
umask 022 # folders are for all, as the files in them

usage() {
  echo 'usage: install.sh [--library] [--target TRIPLE] [--libdir DIR] PREFIX; or --uninstall ..; or --from FILE ..' >&2
  exit 2
}

# not_installed WHY: says in one line why nothing is installed, and ends
not_installed() {
  echo "install.sh: nothing is installed, since $1" >&2
  exit 2
}

# from_release FILE [WORD..]: gives the words to the install.sh of a release, unpacked
from_release() {
  [ -f "$1" ] || not_installed "there is no file $1"
  sums=$(dirname "$1")/SHA256SUMS
  if [ -f "$sums" ]; then
    sum=$(sha256sum "$1" | cut -d ' ' -f 1)
    grep -qxF "$sum  $(basename "$1")" "$sums" || not_installed "$sums has another checksum for $1, or none"
  fi
  release=$(mktemp -d)
  trap 'rm -rf "$release"' EXIT
  trap 'exit 143' HUP INT TERM
  tar -xzf "$1" -C "$release" --strip-components=1 || not_installed "$1 cannot be unpacked"
  [ -f "$release/install.sh" ] || not_installed "$1 has no install.sh: it is none of pendratsoa-VERSION-linux-*.tar.gz"
  shift
  sh "$release/install.sh" "$@"
}

if [ "${1-}" = --from ]; then
  [ $# -gt 1 ] || usage
  shift
  from_release "$@"
  exit
fi

top=$(cd "$(dirname "$0")/.." && pwd)
# the headers; the first has the version and the calls
headers='pendratsoa.h pendratsoa_messages.h pendratsoa_reader.h'
header=$top/include/${headers%% *}
. "$top/scripts/up_to_date.sh"
programs='journal journal_list'
scripts=journal_view
action=install
machine=x86_64-unknown-linux-gnu
libdir=lib
while [ $# -gt 1 ]; do
  case $1 in
    --library) programs= scripts= links= pages= ;;
    --target) machine=$2; shift ;;
    --libdir) libdir=$2; shift ;;
    --uninstall) action=uninstall ;;
    *) usage ;;
  esac
  shift
done
case ${1-} in
  --help) sed -n '2,24s/^# \{0,1\}//p' "$0"; exit 0 ;;
  '' | -*) usage ;;
esac
case $machine in
  x86_64-unknown-linux-gnu) tools= ;;
  aarch64-unknown-linux-gnu) tools=aarch64-linux-gnu- ;;
  *) not_installed "there is nothing for $machine" ;;
esac
# below PREFIX it has one name, by which the way back to PREFIX is counted
libdir=$(echo "/$libdir/" | sed 's|//*\(\.//*\)*|/|g; s|^/||; s|/$||')
prefix=$1
target=${DESTDIR-}$prefix
version=$(cat "$top/VERSION")
soname=libpendratsoa.so.${version%%.*}
calls=$(awk '/^int64_t journal_/ { sub(/^int64_t /, ""); sub(/\(.*/, ""); print }' \
  "$header" "$top/include/pendratsoa_messages.h")
# the man pages of the library: its own, and one for each function
library_pages=$(cd "$top/share/man/man3" && printf '%s\n' *.3)

# library_files, program_files: what is installed, below PREFIX
library_files() {
  # shellcheck disable=SC2086 # the names are split
  printf 'include/%s\n' $headers
  printf "$libdir/%s\n" libpendratsoa.a "libpendratsoa.so.$version" "$soname" libpendratsoa.so pkgconfig/pendratsoa.pc \
    cmake/pendratsoa/pendratsoa-config.cmake cmake/pendratsoa/pendratsoa-config-version.cmake
  # shellcheck disable=SC2086 # the names are split
  printf 'share/man/man3/%s\n' $library_pages
}
program_files() {
  for program in $programs $scripts; do
    printf '%s\n' "bin/$program" "share/bash-completion/completions/$program.bash" "share/zsh/site-functions/_$program"
  done
  for program in $links; do
    printf '%s\n' "bin/$program" "share/bash-completion/completions/$program.bash"
  done
  for program in $programs $scripts $links $pages; do
    echo "share/man/man1/$program.1"
  done
  [ -z "$programs" ] || echo share/wireshark/pendratsoa.lua
}

# view_files: the files of journal_view, below the top and below share/pendratsoa
view_files() {
  [ -z "$scripts" ] || (cd "$top" && printf '%s\n' VERSION view/make_page.py view/dumps.py view/page.css \
    view/page.html view/protocol.json view/script/*.js)
}

if [ "$action" = uninstall ]; then
  files=$(library_files; program_files; view_files | sed 's|^|share/pendratsoa/|')
  for file in $files; do
    rm -f "$target/$file"
  done
  echo "install.sh: removed from $target: $(echo "$files" | tr '\n' ' ')"
  exit 0
fi

compiler=${CC:-${tools:+${tools}g}cc}
for tool in "$compiler" "${tools}ld" "${tools}objcopy" "${tools}ar"; do
  command -v "$tool" > /dev/null || not_installed "there is no $tool, and it needs a C compiler and binutils"
done
command -v rt > /dev/null || not_installed 'there is no rt, the command of the Rattle toolchain'

# what is built for another processor is in a folder of its own
built=out${tools:+/$machine}
python3 -B "$top/scripts/build.py" --target "$machine" journal_ffi
# one after the other: rt locks a crate and those below it, and proves its functions side by side
for program in $programs; do
  if [ -z "$tools" ]; then
    sh "$top/scripts/program.sh" "$program" > /dev/null || not_installed "$program is not proved"
  else
    python3 -B "$top/scripts/build.py" --target "$machine" "$program"
  fi
done
work=$(mktemp -d)
trap 'rm -rf "$work"' EXIT
trap 'exit 143' HUP INT TERM

# What the library allocates by is the toolchain's, which has it only for x86-64.
archive=$top/crates/journal_ffi/$built/libjournal_ffi.a
if [ -z "$tools" ]; then
  heap=$(dirname "$(rt doc)")/c/liblibc_c.a
else
  heap=$work/heap.o
  "$compiler" -std=c99 -O2 -Wall -Wextra -fPIC -ffunction-sections -c "$top/scripts/heap.c" -o "$heap"
fi

# One object of the calls and what they need, in which no other name is seen. The header has the names.
echo "$calls" > "$work/calls"
# shellcheck disable=SC2046 # the names are words
"${tools}ld" -r --gc-sections $(sed 's/^/--require-defined=/' "$work/calls") -o "$work/all.o" "$archive" "$heap"
"${tools}objcopy" --keep-global-symbols="$work/calls" --strip-unneeded --remove-section=.llvm_addrsig \
  "$work/all.o" "$work/pendratsoa.o"
"${tools}ar" rcsD "$work/libpendratsoa.a" "$work/pendratsoa.o"
{
  echo '{ global:'
  sed 's/$/;/' "$work/calls"
  echo 'local: *; };'
} > "$work/calls.map"
"$compiler" -shared -Wl,-soname,"$soname" -Wl,--version-script,"$work/calls.map" -Wl,-z,defs,-z,now \
  -o "$work/libpendratsoa.so" "$work/pendratsoa.o"

# The folder may be moved after it is installed, unless it is for a package.
above_libraries=$(echo "/$libdir" | sed 's|/[^/]*|/..|g')
if [ -n "${DESTDIR-}" ]; then
  found=$prefix
else
  found='${pcfiledir}/..'$above_libraries
fi
cat > "$work/pendratsoa.pc" << END
prefix=$found
includedir=\${prefix}/include
libdir=\${prefix}/$libdir

Name: pendratsoa
Description: The journal protocol of the Restate SDKs
Version: $version
Cflags: -I\${includedir}
Libs: -L\${libdir} -lpendratsoa
END
cat > "$work/pendratsoa-config.cmake" << END
# The targets pendratsoa::pendratsoa, the shared library, and pendratsoa::static.
if(NOT TARGET pendratsoa::pendratsoa)
  get_filename_component(pendratsoa_libraries "\${CMAKE_CURRENT_LIST_DIR}/../.." ABSOLUTE)
  get_filename_component(pendratsoa_headers "\${pendratsoa_libraries}$above_libraries/include" ABSOLUTE)
  add_library(pendratsoa::pendratsoa SHARED IMPORTED)
  set_target_properties(pendratsoa::pendratsoa PROPERTIES
    IMPORTED_LOCATION "\${pendratsoa_libraries}/libpendratsoa.so.$version"
    IMPORTED_SONAME $soname
    INTERFACE_INCLUDE_DIRECTORIES "\${pendratsoa_headers}")
  add_library(pendratsoa::static STATIC IMPORTED)
  set_target_properties(pendratsoa::static PROPERTIES
    IMPORTED_LOCATION "\${pendratsoa_libraries}/libpendratsoa.a"
    INTERFACE_INCLUDE_DIRECTORIES "\${pendratsoa_headers}")
endif()
END
cat > "$work/pendratsoa-config-version.cmake" << END
set(PACKAGE_VERSION "$version")
if(NOT PACKAGE_FIND_VERSION OR (PACKAGE_FIND_VERSION VERSION_LESS_EQUAL PACKAGE_VERSION
                                AND PACKAGE_FIND_VERSION_MAJOR EQUAL ${version%%.*}))
  set(PACKAGE_VERSION_COMPATIBLE TRUE)
endif()
if(PACKAGE_FIND_VERSION VERSION_EQUAL PACKAGE_VERSION)
  set(PACKAGE_VERSION_EXACT TRUE)
endif()
END

# place FILE MODE TARGET: puts a file where it belongs. A program that runs keeps the file that it has open.
place() {
  mkdir -p "$target/${3%/*}"
  rm -f "$target/$3"
  cp "$1" "$target/$3"
  chmod "$2" "$target/$3"
}

for name in $headers; do
  place "$top/include/$name" 644 "include/$name"
done
place "$work/libpendratsoa.a" 644 "$libdir/libpendratsoa.a"
place "$work/libpendratsoa.so" 755 "$libdir/libpendratsoa.so.$version"
place "$work/pendratsoa.pc" 644 "$libdir/pkgconfig/pendratsoa.pc"
for name in pendratsoa-config pendratsoa-config-version; do
  place "$work/$name.cmake" 644 "$libdir/cmake/pendratsoa/$name.cmake"
done
ln -sfn "libpendratsoa.so.$version" "$target/$libdir/$soname"
ln -sfn "$soname" "$target/$libdir/libpendratsoa.so"
for name in $library_pages; do
  place "$top/share/man/man3/$name" 644 "share/man/man3/$name"
done
for program in $programs; do
  place "$top/crates/$program/$built/$program" 755 "bin/$program"
done
for program in $links; do
  ln -sfn journal "$target/bin/$program"
done
for file in $(view_files); do
  place "$top/$file" 644 "share/pendratsoa/$file"
done
for program in $scripts; do
  chmod 755 "$target/share/pendratsoa/view/make_page.py"
  ln -sfn ../share/pendratsoa/view/make_page.py "$target/bin/$program"
done
for file in $(program_files | sed '/^bin/d'); do
  if [ -e "$top/$file" ]; then
    place "$top/$file" 644 "$file"
  else
    # the completion of a link is that of journal
    ln -sfn journal.bash "$target/$file"
  fi
done
echo "install.sh: installed pendratsoa $version, proved, below $target"
