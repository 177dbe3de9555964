#!/bin/sh
# Installs the Debian packages of scripts/packages.txt that are missing: scripts/packages.sh
#
# It does what it can: without apt-get, without the rights for it or without a network nothing is installed, which it
# says in one line, and its status is 0. It takes ten minutes at most, and removes nothing: a package that would replace
# another is left out. No test needs it: a check whose tool is absent says 'not run'.
set -u
cd "$(dirname "$0")/.." || exit 0

case ${1-} in
  '') ;;
  --help) sed -n '2,6s/^# \{0,1\}//p' scripts/packages.sh; exit 0 ;;
  *) echo 'usage: packages.sh' >&2; exit 2 ;;
esac

# after how many seconds nothing more is downloaded, and after how many it ends
downloading=400
seconds=600
wanted=$(sed 's/ *#.*//' scripts/packages.txt)

# missing: the packages that are not installed, on one line, except those whose file is there without them
missing() {
  echo "$wanted" | while read -r package file; do
    [ -n "$package" ] || continue
    [ -z "$file" ] || [ ! -e "$file" ] || continue
    case $(dpkg-query -W -f '${db:Status-Status}' "$package" 2> /dev/null) in
      installed) ;;
      *) printf ' %s' "$package" ;;
    esac
  done
}

# apt SECONDS WORD..: apt-get, until SECONDS after the start
apt() {
  left=$((start + $1 - $(date +%s)))
  shift
  [ "$left" -gt 0 ] || return 1
  DEBIAN_FRONTEND=noninteractive timeout "$left" apt-get -qq -y -o DPkg::Lock::Timeout="$left" "$@" \
    < /dev/null > /dev/null 2>&1
}

# install PACKAGE..: downloads packages first, so that a slow network interrupts no installation
install() {
  apt $downloading install --no-install-recommends --no-remove --download-only "$@" &&
    apt $seconds install --no-install-recommends --no-remove --no-download "$@"
}

for tool in apt-get dpkg-query timeout; do
  if ! command -v $tool > /dev/null; then
    echo "packages.sh: nothing is installed, since there is no $tool"
    exit 0
  fi
done
packages=$(missing)
[ -n "$packages" ] || exit 0
if [ "$(id -u)" -ne 0 ]; then
  echo "packages.sh: nothing is installed, since only root may:$packages"
  exit 0
fi

start=$(date +%s)
# the lists of packages may be absent or old
# shellcheck disable=SC2086 # the names are split
if ! install $packages; then
  apt $downloading update
  if ! install $packages; then
    # a package that cannot be had does not keep the others away
    for package in $packages; do
      install "$package"
    done
  fi
fi
packages=$(missing)
[ -z "$packages" ] || echo "packages.sh: not installed:$packages"
exit 0
