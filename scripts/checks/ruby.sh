#!/bin/sh
# The gem for Ruby: its tests and the test vectors without a warning, built and installed with its library, its example.
#
# It works on a copy, over the installed library and without a network. It takes the proved static library, as
# scripts/checks/c.sh does. Tests are run with the compiled module, which needs make and the headers of Ruby, and
# without. rubocop runs where it is installed.
set -u
cd "$(dirname "$0")/../.." || exit 1
. scripts/checks/lib.sh

# has_library NAME: whether Ruby has a library; the check ends where Ruby fails otherwise
has_library() {
  ruby -e 'begin; require ARGV[0]; rescue LoadError; exit 3; end' "$1" > "$out" 2> "$err"
  ended=$?
  case $ended in
    0 | 3) return $ended ;;
  esac
  outcome "a Ruby that looks for $1" 1
  finish
}

needs ruby ruby
has_library fiddle || not_run 'this Ruby has no Fiddle'
has_library minitest || not_run 'there is no minitest; the Debian package ruby-minitest has it'
installed_library

# the tests read the other folders next to their own
cp -R ruby conformance examples include proto "$work"
# what `make ruby` leaves there: a gem, and the library and the module that it is made of
rm -rf "$work/ruby/"*.gem "$work/ruby/lib/pendratsoa/"*.so "$work/ruby/lib/pendratsoa/"[0-9]*
top=$PWD
cd "$work/ruby" || exit 1

RUBYLIB=$work/ruby/lib
export RUBYLIB

# The module, which no call of the interpreter may miss.
case_of 'scripts/ruby.sh' env CFLAGS=-Werror sh "$top/scripts/ruby.sh" "$work/ruby"
compiled=$(ls lib/pendratsoa/*/compiled.so 2> /dev/null)
if [ -n "$compiled" ]; then
  nm -D --defined-only "$compiled" | awk '{ print $3 }' > "$out"
  echo Init_compiled > "$work/wanted"
  same 'the names that the compiled module shows' "$work/wanted" "$out"
  for compiler in cc clang; do
    if command -v $compiler > /dev/null; then
      case_of "the compiled module without a warning of $compiler" $compiler -std=gnu11 -O2 -Wall -Wextra -Wpedantic \
        -Wshadow -Wconversion -Wsign-conversion -Werror -fsyntax-only \
        -isystem "$(ruby -e 'print RbConfig::CONFIG["rubyhdrdir"]')" \
        -isystem "$(ruby -e 'print RbConfig::CONFIG["rubyarchhdrdir"]')" ext/pendratsoa/*.c
    else
      without "the compiled module without a warning of $compiler" $compiler
    fi
  done
else
  left_out 'the compiled module' "$(sed -n 's/.*, since //p' "$work/log")"
fi

# .rubocop.yml has what is not as rubocop has it, and why
if command -v rubocop > /dev/null; then
  case_of 'rubocop' rubocop --cache false --format emacs lib ext test examples pendratsoa.gemspec
else
  left_out 'rubocop' 'there is none; the Debian package rubocop has it'
fi

# tests: runs all tests and shows how they ended; a warning of these files fails
tests() {
  ruby -w -e 'Dir["./test/test_*.rb"].sort.each { |file| require file }' > "$work/tests" 2> "$work/warnings"
  ended=$?
  sed -n '/^Finished in/,$p' "$work/tests"
  cat "$work/warnings" >&2
  [ "$ended" -eq 0 ] && ! grep -qF "$PWD" "$work/warnings"
}
for way in '' 1; do
  PENDRATSOA_PURE=$way
  export PENDRATSOA_PURE
  case_of "the tests${way:+, without the compiled module}" tests
  counted "the test vectors${way:+, without the compiled module}" grep -xE '[0-9]+ passed, [0-9]+ failed' "$work/tests"
done
unset PENDRATSOA_PURE

# The signatures, by what is given and returned while a program runs.
if has_library rbs/test; then
  for way in '' 1; do
    case_of "the signatures${way:+, without the compiled module}" env PENDRATSOA_PURE=$way ruby test/typed.rb
  done
else
  left_out 'the signatures' 'there is no rbs, which is a bundled gem of Ruby'
fi

# The gem with the library in it needs neither this folder nor the environment. The example is run over it.
# says_compiled NAME: whether the gem that is installed in GEM_HOME has the module, which works with its library
says_compiled() {
  [ -n "$compiled" ] && echo true > "$work/wanted" || echo false > "$work/wanted"
  prints "the module of $1" "$work/wanted" \
    ruby -rpendratsoa -e 'puts Pendratsoa::Value.decode("").encode.empty? && Pendratsoa::COMPILED'
}

if command -v gem > /dev/null; then
  unset RUBYLIB
  # a gem without the library compiles its module where it is installed
  mkdir "$work/source"
  cp -R . "$work/source/ruby"
  rm -rf "$work/source/ruby/lib/pendratsoa/"[0-9]*
  case_of 'gem build, in source' gem build -C "$work/source/ruby" pendratsoa.gemspec
  GEM_HOME=$work/source/gems
  export GEM_HOME
  if [ -n "$compiled" ]; then
    case_of 'gem install, in source' gem install --local --no-document "$work/source/ruby/"pendratsoa-*.gem
    says_compiled 'a gem in source'
  fi
  cp -L "$PENDRATSOA_LIBRARY" lib/pendratsoa/
  case_of 'gem build' gem build pendratsoa.gemspec
  GEM_HOME=$work/gems
  case_of 'gem install' gem install --local --no-document pendratsoa-*.gem
  unset PENDRATSOA_LIBRARY LD_LIBRARY_PATH
  says_compiled 'the gem'
else
  without 'the gem' gem
fi

# listed STREAM VERSION: the example lists a stream as list_stream.py does
listed() {
  python3 -B "$top/scripts/checks/list_stream.py" "$2" < "$work/examples/streams/$1" > "$work/listing"
  prints "the listing of $1" "$work/listing" ruby examples/listing.rb "$2" < "$work/examples/streams/$1"
}
counted 'the proxy' python3 -B "$top/scripts/checks/proxied.py" ruby -w examples/proxy.rb
for way in '' 1; do
  counted "the replays${way:+, without the compiled module}" \
    env PENDRATSOA_PURE=$way python3 -B "$top/scripts/checks/replayed.py" ruby -w examples/replay.rb
done

# The page: its program, its part of the proxy, and its expressions, of functions, a numbering, journals and a replay.
awk -v folder="$work" '
  /^```ruby$/ { file = folder "/page" ++blocks ".rb"; next }
  /^```$/ { file = "" }
  file != "" { print > file }
' README.md
case_of 'the program of ruby/README.md' inside "$work" ruby page1.rb
printf '%s\n' 'Start 19' 'InputCommand 9' 'GetLazyStateCompletionNotification 4' > "$work/wanted"
cut -d ' ' -f 1,2 "$work/log" > "$out"
same 'what it prints' "$work/wanted" "$out"
case_of 'the proxy of ruby/README.md' python3 -B "$top/scripts/checks/is_part.py" "$work/page2.rb" examples/proxy.rb
ruby -rpendratsoa -I test -rdescriptors -e 'print Descriptors::SMALL' > "$work/set.binpb"
for part in 3 4 5 6; do
  case_of "the expressions of ruby/README.md, part $part" ruby -C "$work" -rpendratsoa -e '
    checked = File.foreach(ARGV[0]).count do |line|
      found, wanted = TOPLEVEL_BINDING.eval(line).inspect, line[/# => (.*)/, 1]
      abort "#{line}is #{found}" unless wanted.nil? || found == wanted
      wanted
    end
    abort "no line says what it is" if checked.zero?' page$part.rb
done

listed replay 8
listed cut_short 7
listed unknown_type 9

finish
