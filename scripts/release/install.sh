#!/bin/sh
# Installs this release of Pendratsoa below a folder, or removes what it installed:
#
#   sh install.sh [PREFIX]
#   sh install.sh --uninstall [PREFIX]
#
#   PREFIX       a folder, /usr/local if none is named; it gets bin, include, lib and share
#   --uninstall  removes exactly what was installed below PREFIX, and the folders that were made for it
#
# It needs sh and the commands that every system has with it: no toolchain, no compiler, no network. An earlier
# release below PREFIX is removed first. No file of another's is replaced. The variable DESTDIR is a folder in which
# PREFIX is made.
set -eu
umask 022 # folders and the list are for all, as the files

usage() {
  echo 'usage: install.sh [--uninstall] [PREFIX]' >&2
  exit 2
}

# not_done WHY: says in one line why nothing is done, and ends
not_done() {
  echo "install.sh: nothing is done, since $1" >&2
  exit 2
}

action=install
if [ "${1-}" = --uninstall ]; then
  action=uninstall
  shift
fi
case $#:${1-} in
  1:--help) sed -n '2,13s/^# \{0,1\}//p' "$0"; exit 0 ;;
  0:) set -- /usr/local ;;
  1: | 1:-*) usage ;;
  1:*) ;;
  *) usage ;;
esac
top=$(cd "$(dirname "$0")" && pwd)
prefix=$1
case $prefix in
  /*) ;;
  *) prefix=$PWD/$prefix ;;
esac
target=${DESTDIR-}$prefix
# what is installed, a path a line: files, then the folders that were made, the last first, each with a slash
kept=share/doc/pendratsoa/INSTALLED
list=$target/$kept

# update_links: lets programs find the library, where the system looks below PREFIX
update_links() {
  case ${DESTDIR-}$prefix in
    /usr | /usr/local) [ "$(id -u)" -ne 0 ] || ldconfig 2> /dev/null || /sbin/ldconfig 2> /dev/null || : ;;
  esac
}

# remove: removes what the list names, and the list
remove() {
  while read -r path; do
    case $path in
      /) rmdir "$target" 2> /dev/null || : ;;
      */) rmdir "$target/$path" 2> /dev/null || : ;;
      "$kept") rm -f "$list" ;;
      *) rm -f "$target/$path" ;;
    esac
  done
}

if [ "$action" = uninstall ]; then
  [ -f "$list" ] || not_done "there is no $list: no release is installed below $prefix"
  installed=$(cat "$list")
  echo "$installed" | remove
  update_links
  echo "install.sh: removed pendratsoa from $prefix"
  exit 0
fi

# files of this release, in its folder
files=$(cat "$top/FILES")
former=
if [ -f "$list" ]; then
  former=$(cat "$list")
fi
while read -r path; do
  if [ -e "$target/$path" ] || [ -L "$target/$path" ]; then
    printf '%s\n' "$former" | grep -qxF "$path" ||
      not_done "$target/$path is there, and is of no release; scripts/install.sh --uninstall removes what it installed"
  fi
done << END
$files
END
[ -z "$former" ] || echo "$former" | remove

# folder PATH: makes a folder below PREFIX and those above it; $made names those that were not there, the last first
made=
folder() {
  if [ ! -d "$target/$1" ]; then
    case $1 in
      '') mkdir -p "$target" ;;
      */*) folder "${1%/*}"; mkdir "$target/$1" ;;
      *) folder ''; mkdir "$target/$1" ;;
    esac
    made="$1/
$made"
  fi
}
folder "${kept%/*}"
while read -r path; do
  folder "${path%/*}"
done << END
$files
END

# written first, so that what an interrupted installation leaves can be removed
printf '%s\n' "$files" "$kept" "$made" | sed '/^$/d' > "$list"
while read -r path; do
  cp -P "$top/$path" "$target/$path"
  if [ ! -L "$target/$path" ]; then
    mode=644
    [ ! -x "$top/$path" ] || mode=755
    chmod "$mode" "$target/$path"
  fi
done << END
$files
END
update_links
echo "install.sh: installed pendratsoa $(cat "$top/VERSION") below $prefix"
case $prefix in
  /usr | /usr/local) ;;
  *) echo "install.sh: PATH, LD_LIBRARY_PATH and PKG_CONFIG_PATH may name its bin, lib and lib/pkgconfig" ;;
esac
