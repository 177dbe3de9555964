# frozen_string_literal: true

# Measures the gem against protobuf's own: ruby measure.rb FOLDER, which has journal_pb.rb, made by protoc.
#
# A line is the record, the work, microseconds here and there, and how many times as fast this gem is. Protobuf's has no
# streams; it is used with the framing that a user writes, below.

$LOAD_PATH.unshift ARGV.fetch(0)
require "google/protobuf"
require "journal_pb"
require "pendratsoa"

PEER = Pendratsoa::Journal
READS = {
  "SetStateCommandMessage" => [->(one) { [one.key, one.value.content] }] * 2,
  "CallCommandMessage" => [->(one) { [one.service_name, one.parameter] }] * 2,
  "CallCompletionNotificationMessage" => [
    ->(one) { [one.completion_id, one.result.content] }, ->(one) { [one.completion_id, one.value.content] }
  ]
}.freeze
COUNT = 20000
LANGUAGE = Pendratsoa::COMPILED ? "ruby" : "ruby-fiddle"

# How many frames a stream has, and how many bytes come at a time.
FRAMES = 1000
CHUNK = 1 << 16

# Yields the messages of a stream that comes in chunks: the code, the flags and the payload of each.
def peer_items(chunks, limit: 1 << 24)
  rest = String.new
  chunks.each do |chunk|
    rest << chunk
    at = 0
    while rest.bytesize - at >= 8
      code, flags, length = rest.unpack("nnN", offset: at)
      raise RangeError, format("a message of type 0x%04x has %d bytes", code, length) if length > limit
      break if rest.bytesize - at - 8 < length

      yield code, flags, rest.byteslice(at + 8, length)
      at += 8 + length
    end
    rest = rest.byteslice(at..)
  end
end

# The index of the first command in which a replay that comes in chunks differs, or nil.
def peer_check(recorded, chunks, classes)
  others = []
  peer_items([recorded]) { |code, _flags, payload| others << [code, payload] }
  index = 0
  peer_items(chunks) do |code, _flags, payload|
    other_code, other = others[index]
    return index unless other_code == code

    # what is not well-formed is an error
    message = classes[code].decode(payload)
    return index if payload != other && message != classes[code].decode(other)

    index += 1
  end
  index == others.length ? nil : index
end

# The frame of a message.
def peer_frame(code, message)
  payload = message.class.encode(message)
  [code, 0, payload.bytesize].pack("nnN") << payload
end

# Yields the items of a stream that comes in chunks.
def items_of(chunks, &block)
  stream = Pendratsoa::Stream.new(version: 8)
  chunks.each { |chunk| stream.feed(chunk).each(&block) }
end

# What is said first of a replay that comes in chunks.
def check(recorded, chunks)
  replay = Pendratsoa::Replay.new(8, recorded)
  items_of(chunks) do |item|
    mismatch = replay.check(item)
    return mismatch if mismatch
  end
  replay.finish
end

# Microseconds of CPU time of a round, since the machine may be busy.
def measured(count, per)
  start = Process.clock_gettime(Process::CLOCK_PROCESS_CPUTIME_ID)
  count.times { yield }
  (Process.clock_gettime(Process::CLOCK_PROCESS_CPUTIME_ID) - start) / count / per * 1e6
end

File.foreach(File.join(__dir__, "messages.txt")) do |line|
  next if line.start_with?("#")

  name, digits = line.split
  payload = [digits].pack("H*")
  here, there = Pendratsoa.const_get(name), PEER.const_get(name)
  read_here, read_there = READS.fetch(name)
  ours, theirs = here.decode(payload), there.decode(payload)
  raise name unless read_here[ours] == read_there[theirs] && [ours.encode, there.encode(theirs)] == [payload] * 2

  raise name unless ours.frame(8) == peer_frame(here::CODE, theirs)

  whole = ours.frame(8) * FRAMES
  chunks = (0...whole.bytesize).step(CHUNK).map { |at| whole.byteslice(at, CHUNK).freeze }
  classes = { here::CODE => there }
  text = Pendratsoa.to_json(name, payload)
  raise name unless [Pendratsoa.from_json(name, text), there.encode(there.decode_json(text))] == [payload] * 2

  works = {
    "decode" => [-> { read_here[here.decode(payload)] }, -> { read_there[there.decode(payload)] }],
    "encode" => [-> { ours.encode }, -> { there.encode(theirs) }],
    "items" => [-> { items_of(chunks) { |item| item } }, -> { peer_items(chunks) { |_, _, payload| payload } }, FRAMES],
    "items-read" => [
      -> { items_of(chunks) { |item| read_here[item.message] } },
      -> { peer_items(chunks) { |code, _, payload| read_there[classes[code].decode(payload)] } }, FRAMES
    ],
    "frame" => [-> { ours.frame(8) }, -> { peer_frame(here::CODE, theirs) }],
    "to-json" => [-> { Pendratsoa.to_json(here::SCHEMA, payload) }, -> { there.encode_json(there.decode(payload)) }],
    "from-json" => [-> { Pendratsoa.from_json(here::SCHEMA, text) }, -> { there.encode(there.decode_json(text)) }]
  }
  # a replay of notifications has nothing to compare
  if name.include?("Command")
    raise name if check(whole, chunks) || peer_check(whole, chunks, classes)

    works["replay"] = [-> { check(whole, chunks) }, -> { peer_check(whole, chunks, classes) }, FRAMES]
  end
  works.each do |work, (first, second, per)|
    # each in its fastest round; the rounds take turns
    rounds = Array.new(9) { [first, second].map { |one| measured(COUNT / (per || 1), per || 1, &one) } }
    first, second = rounds.transpose.map(&:min)
    puts format("%s %s %s %.2f %.2f %.2f", LANGUAGE, name, work, first, second, second / first)
  end
end
