# frozen_string_literal: true

# Checks the replay that comes on the standard input by a recording: ruby replay.rb RECORDING [5..9]
#
# It prints each command that is the same. Where the replay leaves the recording it prints how, where both are, which
# command the recording has next, the text that the SDKs report, and the fields that differ. The status is 0 if both are
# the same, 1 if they differ, and 2 if either cannot be read: a file, a message of more than a mebibyte, a stream or a
# recording that ends within an item, a command that is malformed.

require "pendratsoa"

LIMIT = 1 << 20
MALFORMED = %i[bad_recorded bad_replayed].freeze

# Ends with the status 2, and reports the reason.
def fail_with(text)
  warn text
  exit 2
end

# Prints a mismatch, and returns the status.
def print_mismatch(found, replay)
  places = "recorded at offset #{found.recorded_offset || "-"}, replayed at offset #{found.replayed_offset}"
  puts "#{found.kind}, command #{found.index}, #{places}"
  following = replay.expected
  puts "next #{following.type} at offset #{following.offset}" if following
  puts found.text unless found.text.empty?
  found.fields.each { |field| puts "field #{field.name}: recorded #{field.recorded}, replayed #{field.replayed}" }
  MALFORMED.include?(found.kind) ? 2 : 1
end

# Prints each command that is the same, and returns the first mismatch.
def first_mismatch(replay)
  Pendratsoa::Stream.read($stdin.binmode, version: replay.version, max_message_size: LIMIT) do |item|
    index = replay.index
    found = replay.check(item)
    return found if found

    puts "same #{Pendratsoa.type_name(item.code)} at offset #{item.offset}" if replay.index > index
  end
  replay.finish
end

name, version, *others = ARGV.length == 1 ? [*ARGV, "8"] : ARGV
fail_with "usage: replay.rb RECORDING [5..9]" unless version&.match?(/\A[5-9]\z/) && others.empty?

begin
  replay = Pendratsoa::Replay.new(Integer(version), File.binread(name))
  found = first_mismatch(replay)
  exit print_mismatch(found, replay) if found

  rest = replay.recorded_rest
  fail_with "replay.rb: the recording ends within an item, after #{rest} bytes of it" if rest.positive?

  puts "same, #{replay.index} commands"
rescue Pendratsoa::Error, SystemCallError => error
  fail_with "replay.rb: #{error.message}"
end
