#!/bin/sh
# scripts/run.sh: its usage, arguments and status of the program, and a program that is built unproved once.
#
# It runs in a copy of the sources from another folder. An rt that only says that it was called, and waits for notes of
# the time, comes before the toolchain's where nothing may be built. A script that prints its arguments is in the place
# of each proved program.
set -u
cd "$(dirname "$0")/../.." || exit 1
. scripts/checks/lib.sh

top=$PWD
path=$PATH
mkdir "$work/no-rt" "$work/a folder" "$work/tree"
# 15 seconds are none here, so that the second note comes at once on any machine
sleep=$(command -v sleep)
printf '#!/bin/sh\n[ "$*" = 15 ] && exec "%s" 0.1\n' "$sleep" > "$work/no-rt/sleep"
cat > "$work/no-rt/rt" << END
#!/bin/sh
echo "\$*" >> '$work/called'
while [ \$((tries += 1)) -le 600 ] && ! grep -qx 'program.sh: 30 seconds' '$err'; do
  '$sleep' 0.1
done
exit 2
END
printf '#!/bin/sh\necho "${0##*/}"\nprintf "<%%s>\\n" "$@"\ncat\nexit 7\n' > "$work/stand-in"
chmod +x "$work"/no-rt/* "$work/stand-in"
for part in crates.txt scripts proto include examples; do
  cp -R $part "$work/tree/"
done
for crate in crates/*; do
  [ ! -d "$crate/src" ] || { mkdir -p "$work/tree/$crate" && cp -R "$crate/src" "$work/tree/$crate/"; }
done
cp examples/streams/replay "$work/a folder/a stream"
cd "$work/a folder" || exit 1

# run_sh ARGUMENT..: runs it, and sets $status
run_sh() {
  echo input | sh "$work/tree/scripts/run.sh" "$@" > "$out" 2> "$err"
  status=$?
}

# is_not_built: whether no rt was called
is_not_built() {
  [ ! -e "$work/called" ]
}

PATH=$work/no-rt:$PATH
for words in --help '--proved --help' ''; do
  run_sh $words
  is_not_built && said 0 && grep -q '^  scripts/run.sh ' "$out"
  outcome "run.sh $words" $?
done
for words in lists '--proved lists' '--version' '-' '--proved --proved list'; do
  run_sh $words
  is_not_built && [ "$status" -eq 2 ] && [ ! -s "$out" ] && grep -q '^  scripts/run.sh ' "$err"
  outcome "refused: run.sh $words" $?
done

# Without a program and without a toolchain that builds it there is one line more, and nothing on the output.
run_sh --proved journal dump 'a stream'
[ "$status" -eq 2 ] && [ -s "$work/called" ] && [ ! -s "$out" ]
outcome 'a program that cannot be built' $?
printf 'program.sh: %s seconds\n' 15 30 > "$work/wanted"
sed -n 2,3p "$err" > "$work/notes"
same 'what is said each 15 seconds' "$work/wanted" "$work/notes"
rm "$work/called"

# passed PROGRAM WORDS ARGUMENT..: the program gets the words, these arguments and the standard input, and its status is
# that of the run, which has other words before the arguments
passed() {
  (echo "$1"; words=$2; shift 3; printf '<%s>\n' $words "$@"; echo input) > "$work/wanted"
  typed=$3
  shift 3
  for how in '' --proved; do
    # shellcheck disable=SC2086 # the words are split
    run_sh $how $typed "$@"
    is_not_built && said 7 && cmp -s "$out" "$work/wanted"
    outcome "run.sh $how $typed $*" $?
  done
}

for crate in journal journal_list; do
  mkdir -p "$work/tree/crates/$crate/out"
  cp "$work/stand-in" "$work/tree/crates/$crate/out/$crate"
done
for command in dump make diff; do
  for typed in "journal $command" $command; do
    passed journal $command "$typed" -
    passed journal $command "$typed" 'a stream' '' '*' -- --proved --help
    passed journal $command "$typed" --help
  done
done
for typed in journal_list list; do
  passed journal_list '' $typed 'a stream' '' '*' -- --proved --help
  passed journal_list '' $typed --version
  passed journal_list '' $typed "$work/tree/examples/streams/replay"
done
passed journal '' journal --help
passed journal '' journal other --proved
passed journal_list "$work/tree/examples/streams/replay" list
PATH=$path
if ! command -v rt > /dev/null; then
  without 'a program without the proofs' rt
  finish
fi

# Built without the proofs: the next run builds nothing, unless a source is newer.
rm -r "$work"/tree/crates/*/out
unproved='run.sh: built without the proofs: it checks each access, and is hundreds of times slower than with --proved'
run_sh list
sed -e '1s/^program.sh: building journal_list without the proofs, .*/begins/' \
  -e '/^program.sh: [0-9]* seconds$/d' "$err" > "$work/steps"
printf '%s\n' begins "$unproved" > "$work/wanted"
[ "$status" -eq 0 ] && cmp -s "$work/steps" "$work/wanted"
outcome 'a program that is built without the proofs' $?
PATH=$work/no-rt:$PATH
run_sh list 'a stream' 3
is_not_built && said 0 "$unproved"
outcome 'the same program again' $?
same 'what it prints' "$top/examples/streams/replay.stdout" "$out"
run_sh list --protocol 4 'a stream'
[ "$status" -eq 2 ] && grep -q "^error: invalid value '4' for '--protocol <VERSION>'" "$err"
outcome 'arguments that the program rejects' $?
touch "$work/tree/crates/shared_core_base/src/lib.rt"
run_sh list
[ "$status" -eq 2 ] && [ -s "$work/called" ]
outcome 'a program that is older than a source is built again' $?

finish
