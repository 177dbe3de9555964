# frozen_string_literal: true

require_relative "pendratsoa/version"
require_relative "pendratsoa/protocol"
require_relative "pendratsoa/declared"
require_relative "pendratsoa/errors"
require_relative "pendratsoa/library"
require_relative "pendratsoa/frozen"
require_relative "pendratsoa/shown"
require_relative "pendratsoa/call"
require_relative "pendratsoa/named"
require_relative "pendratsoa/functions"
require_relative "pendratsoa/fields"
require_relative "pendratsoa/records"
require_relative "pendratsoa/messages"
require_relative "pendratsoa/earlier"
require_relative "pendratsoa/compiled"
require_relative "pendratsoa/items"
require_relative "pendratsoa/numbered"
require_relative "pendratsoa/numbering"
require_relative "pendratsoa/pending"
require_relative "pendratsoa/stream"
require_relative "pendratsoa/replay"

# The journal protocol of the Restate SDKs, by the calls of Pendratsoa's shared library.
#
#     stream = Pendratsoa::Stream.new(version: 8)
#     File.open("journal", "rb") do |file|
#       stream.read(file) { |item| p item.type, item.message if item.is_a?(Pendratsoa::Message) }
#     end
#
# What a call rejects is an exception below Pendratsoa::Error, whose text names the argument and its value, of a payload
# only its length; what is no String or no Integer is a TypeError. A schema is given by its number or by the name of its
# record, as "SleepCommandMessage". Bytes are Strings of any encoding; those that are returned are binary, and texts are
# UTF-8. All may be called from any thread.
#
# The first call loads the library: the file that PENDRATSOA_LIBRARY names, or else that which is copied into this gem,
# or else what the system finds as libpendratsoa.so.0. Where there is none, the call is a LoadError. COMPILED tells
# whether the compiled module makes the calls; it is not used where PENDRATSOA_PURE is set.
module Pendratsoa
end
