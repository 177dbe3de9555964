# What the scripts that build share. They go to the top of the repository, and say '. scripts/up_to_date.sh'.

# The names under which the program journal is a subcommand.
links='journal_dump journal_make journal_diff journal_show'

# The man pages of its other subcommands, except list.
pages='journal_cut journal_cat'

# crate_of PROGRAM: the crate of a program
crate_of() {
  case " $links " in
    *" $1 "*) echo journal ;;
    *) echo "$1" ;;
  esac
}

# below CRATE: the crates of this repository that a crate depends on
below() {
  awk -F: -v crate="$1" '
    /^#/ || !NF { next }
    { split($1, name, " "); listed[name[1]] = $2 }
    function visit(name,  words, count, i) {
      if (!(name in listed) || name in seen) return
      seen[name] = 1
      count = split(listed[name], words, " ")
      for (i = 1; i <= count; i++) visit(words[i])
      if (name != crate) print name
    }
    END { visit(crate) }' crates.txt
}

# sources CRATE..: the folders and files that they are made of
sources() {
  echo crates.txt
  for crate in "$@"; do
    for part in src specs proofs; do
      [ ! -d "crates/$crate/$part" ] || echo "crates/$crate/$part"
    done
  done
}

# is_newer FILE CRATE..: whether a file is there and none of the sources of these crates is newer
is_newer() (
  file=$1
  shift
  # shellcheck disable=SC2046 # no name has a space
  [ -e "$file" ] && [ -z "$(find $(sources "$@") -newer "$file" -print | sed 1q)" ]
)

# is_up_to_date FILE CRATE: whether a file exists and no source of the crate, or of one that it depends on, is newer
is_up_to_date() {
  # shellcheck disable=SC2046 # no name has a space
  is_newer "$1" "$2" $(below "$2")
}
