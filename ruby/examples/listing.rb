# frozen_string_literal: true

# Lists a stream on the standard input, of version 8 or of that which the argument says: one line per item, and at
# last the number of bytes that are in none. ruby listing.rb [5..9] < STREAM

require "pendratsoa"

abort "usage: listing.rb [5..9]" unless ARGV.length <= 1 && ARGV.all?(/\A[5-9]\z/)

stream = Pendratsoa::Stream.new(version: Integer(ARGV.fetch(0, 8)))
stream.read($stdin.binmode, strict: false) { |item| puts item }
puts "rest #{stream.rest}"
