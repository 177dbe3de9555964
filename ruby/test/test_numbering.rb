# frozen_string_literal: true

require_relative "helper"
require_relative "descriptors"
require "stringio"
require "tempfile"

# Payloads, streams and messages at the field numbers of a descriptor set.
class TestNumbering < Minitest::Test
  SMALL = Descriptors::SMALL
  ALL = Descriptors::ALL

  # A state that is set, at the protocol's own numbers and at those of the small set.
  OURS = ["0a01611a030a013162016e"].pack("H*").freeze
  THEIRS = ["0a016e12031a0131220161"].pack("H*").freeze
  SCHEMA = Pendratsoa::SetStateCommandMessage::SCHEMA

  # The record vectors: canonical payloads of each schema.
  PAYLOADS = File.readlines(File.join(TOP, "conformance/records.txt")).grep(/\Arecord /).map do |line|
    _, name, word = line.split
    [name, [word.delete_prefix("-")].pack("H*")]
  end.freeze

  # Messages with flags that no encoder sets, a custom entry, eight bytes of no type, and the beginning of a message.
  HEAD = ["04031234"].pack("H*").freeze
  PLAIN = ["04030000"].pack("H*").freeze
  OTHERS = ["fc01ffff00000001ff0008a5a500000000"].pack("H*").freeze
  TRAILING = ["040000000000000972"].pack("H*").freeze

  def small = Pendratsoa::Numbering.new(SMALL)

  def all = Pendratsoa::Numbering.new(ALL)

  def stream_of(name) = read("examples/streams/#{name}")

  # A message of a head.
  def framed(payload, head = HEAD)
    head + [payload.bytesize].pack("N") + payload
  end

  def block(...) = Descriptors.block(...)

  def test_payloads
    [SCHEMA, "SetStateCommandMessage"].each do |schema|
      assert_equal THEIRS, small.write_payload(schema, OURS)
      assert_equal OURS, small.read_payload(schema, THEIRS.dup.force_encoding(Encoding::UTF_8))
    end
    assert_equal Encoding::BINARY, small.read_payload(SCHEMA, THEIRS).encoding
    # fields and messages that only one of them has
    assert_equal OURS, small.read_payload(SCHEMA, THEIRS + block(9, "x") + block(77, 5))
    assert_equal THEIRS, small.write_payload(SCHEMA, OURS + block(77, "x"))
    assert_equal "", small.write_payload("InputCommandMessage", INPUT[8..])
  end

  def test_all_payloads
    numbering = all
    assert_operator PAYLOADS.length, :>, 100
    PAYLOADS.each do |name, payload|
      theirs = numbering.write_payload(name, payload)
      assert_equal Descriptors.at_other_numbers(Pendratsoa.const_get(name), payload), theirs, name
      assert_equal payload, numbering.read_payload(name, theirs), name
    end
    record = Pendratsoa::SetStateCommandMessage.new(value: Pendratsoa::Value.new(content: "x" * 300_000))
    assert_equal record.encode, numbering.read_payload(SCHEMA, numbering.write_payload(SCHEMA, record.encode))
  end

  def test_what_is_no_payload
    ["\n", "\x22\x05a", "\x12\x02\x1a\x05", "\x10\x01", "\xff"].each do |payload|
      text = "read_payload: payload of #{payload.bytesize} byte#{"s" if payload.bytesize > 1} is malformed"
      error = assert_error(Pendratsoa::Malformed, text) { small.read_payload(SCHEMA, payload) }
      assert_equal [:payload, payload], [error.argument, error.value]
    end
    %i[read_payload write_payload].each do |call|
      [Pendratsoa::SCHEMAS, -1, 1 << 32, "Values"].each do |schema|
        error = assert_raises(Pendratsoa::Unknown) { small.public_send(call, schema, "") }
        assert_equal [:schema, schema], [error.argument, error.value]
      end
      assert_raises(TypeError) { small.public_send(call, nil, "") }
      assert_raises(TypeError) { small.public_send(call, SCHEMA, 5) }
    end
  end

  def test_any_bytes
    random = Random.new(1)
    numbering = all
    kept = 0
    1000.times do
      name, payload = PAYLOADS.sample(random: random)
      payload = numbering.write_payload(name, payload)
      random.rand(3).times { payload.insert(random.rand(payload.bytesize + 1), random.rand(256).chr) }
      %i[read_payload write_payload].each do |call|
        numbering.public_send(call, name, payload)
        kept += 1
      rescue Pendratsoa::Malformed
        next
      end
    end
    assert_operator kept, :>, 250
  end

  def test_where_a_set_comes_from
    Tempfile.create do |file|
      file.binmode
      file.write(SMALL)
      file.flush
      assert_equal THEIRS, Pendratsoa::Numbering.load(file.path).write_payload(SCHEMA, OURS)
    end
    assert_raises(Errno::ENOENT) { Pendratsoa::Numbering.load("/nowhere") }
    [nil, 5, [SMALL]].each { |set| assert_raises(TypeError) { Pendratsoa::Numbering.new(set) } }
  end

  def test_its_text
    numbering = small
    assert_equal Encoding::UTF_8, numbering.to_s.encoding
    assert_match(/^SetStateCommandMessage\.key .* renumbered$/, numbering.to_s)
    assert_equal "#<Pendratsoa::Numbering of 4 fields>", numbering.inspect
    assert Ractor.shareable?(numbering)
  end

  def test_renames
    fetch = Descriptors.set_of(Descriptors.message("Fetch", Descriptors.field("key", 3, 12),
                                                   Descriptors.field("result_completion_id", 9, 13)))
    payload = Pendratsoa::GetLazyStateCommandMessage.new(key: "k", result_completion_id: 7).encode
    [{ "Fetch" => "GetLazyStateCommandMessage" }, { Fetch: :GetLazyStateCommand }].each do |renames|
      numbering = Pendratsoa::Numbering.new(fetch, renames: renames)
      theirs = numbering.write_payload("GetLazyStateCommandMessage", payload)
      assert_equal "\x1a\x01k\x48\x07".b, theirs
      assert_equal payload, numbering.read_payload("GetLazyStateCommandMessage", theirs)
    end
    error = assert_raises(Pendratsoa::NumberingError) { Pendratsoa::Numbering.new(fetch) }
    assert_equal "no field of the protocol's messages", error.text
  end

  def test_renames_that_are_none
    [{ "Fetch" => "SetStateCommandMessage" }, { "Value" => "Fetch" }, { "" => "Value" }, { "Value" => "" },
     { "Value=Value" => "Value" }, { "Value" => "Value\nValue=Value" }, { "\xff" => "Value" }].each do |renames|
      error = assert_raises(Pendratsoa::NumberingError) { Pendratsoa::Numbering.new(SMALL, renames: renames) }
      assert_equal [:no_rename, :renames, renames], [error.reason, error.argument, error.value]
      assert_match(/\S/, error.text)
      assert_equal "Numbering: renames: #{error.text}", error.message
    end
    error = assert_raises(Pendratsoa::NumberingError) { Pendratsoa::Numbering.new(SMALL, renames: { "A=B": "Value" }) }
    assert_equal '"A=B" is not the name of a message', error.text
    [nil, 5, ["Value"], "Value=Value", { 5 => "Value" }, { "Value" => nil }].each do |renames|
      assert_raises(TypeError) { Pendratsoa::Numbering.new(SMALL, renames: renames) }
    end
  end

  def test_sets_that_are_none
    twice = Descriptors.set_of(Descriptors.message("Value", Descriptors.field("content", 3, 12),
                                                   Descriptors.field("other", 3, 12)))
    [twice, SMALL[..-2], "syntax = \"proto3\";", "\xff", "\0" * 100, block(1, block(4, "\n\x05"))].each do |set|
      error = assert_raises(Pendratsoa::NumberingError) { Pendratsoa::Numbering.new(set) }
      assert_equal ["Numbering", :descriptor_set, set], [error.call, error.argument, error.value]
      assert_equal :no_set, error.reason
      assert_match(/\S/, error.text)
      assert_equal "Numbering: descriptor set: #{error.text}", error.message
    end
    error = assert_raises(Pendratsoa::NumberingError) { Pendratsoa::Numbering.new(twice) }
    assert_equal "a.proto: a.Value.other: number of a later field", error.text
    error = assert_raises(Pendratsoa::NumberingError) { Pendratsoa::Numbering.new("") }
    assert_equal "no field of the protocol's messages", error.text
  end

  def test_any_bytes_as_a_set
    random = Random.new(2)
    made = 0
    300.times do
      set = SMALL.dup
      random.rand(1..2).times { set.setbyte(random.rand(set.bytesize), random.rand(256)) }
      length = [set.bytesize, random.rand(set.bytesize)].sample(random: random)
      numbering = Pendratsoa::Numbering.new(set.byteslice(0, length))
      made += 1
      numbering.read_payload(SCHEMA, numbering.write_payload(SCHEMA, OURS))
    rescue Pendratsoa::NumberingError, Pendratsoa::Malformed
      next
    end
    assert_operator made, :>, 10
  end

  def test_whole_streams
    ours = framed(OURS) + OTHERS + framed(OURS) + TRAILING
    theirs = framed(THEIRS) + OTHERS + framed(THEIRS) + TRAILING
    assert_equal theirs, small.write_stream(8, ours)
    assert_equal ours, small.read_stream(8, theirs)
    assert_equal "", small.read_stream(8, "")
    # a skipped message is copied, with a payload that is none
    skipped = unhex("0008000000000002ffff")
    assert_equal skipped + framed(THEIRS), small.write_stream(9, skipped + framed(OURS))
    %w[recorded replay replayed_other_handler].each do |name|
      written = all.write_stream(8, stream_of(name))
      refute_equal stream_of(name), written
      assert_equal stream_of(name), all.read_stream(8, written)
    end
  end

  def test_suspensions_of_each_version
    { 6 => "0a0401020103", 7 => "22120a010122080a010222030a010122030a0103" }.each do |version, digits|
      payload = unhex(digits)
      ours = framed(payload, "\0\x01\0\0".b)
      theirs = all.write_stream(version, ours)
      record = Pendratsoa::Message.new(version, 1, payload).message.class
      assert_equal Descriptors.at_other_numbers(record, payload), theirs.byteslice(8..)
      assert_equal ours, all.read_stream(version, theirs)
    end
  end

  def test_errors_of_streams
    text = "SetStateCommand at offset 17: payload of 1 byte is malformed"
    error = assert_error(Pendratsoa::Malformed, text) { small.read_stream(8, OTHERS + framed("\n")) }
    assert_equal [CODES[:set_state], 17], [error.code, error.offset]
    %i[read_stream write_stream].each do |call|
      [4, 10, -1, 1 << 32].each do |version|
        error = assert_raises(Pendratsoa::Unknown) { small.public_send(call, version, framed("")) }
        assert_equal [:version, version], [error.argument, error.value]
      end
      assert_raises(TypeError) { small.public_send(call, 8, nil) }
    end
  end

  def test_a_dump
    payload = block(9, "x") + THEIRS
    text = small.dump(8, framed(payload, PLAIN) + TRAILING)
    assert_equal Encoding::UTF_8, text.encoding
    fields = { "extra" => "eA==", "key" => "YQ==", "name" => "n", "value" => { "content" => "MQ==" } }
    size = payload.bytesize
    message = { "offset" => 0, "type" => "SetStateCommand", "code" => 1027, "length" => size, "message" => fields }
    rest = { "offset" => 8 + size, "rest" => 9, "bytes" => [TRAILING].pack("m0") }
    assert_equal([message, rest], text.lines.map { |line| JSON.parse(line) })
    assert_error(Pendratsoa::Unknown, "dump: unknown protocol version 4 (5 to 9)") { small.dump(4, "") }
    assert_raises(TypeError) { small.dump(8, 5) }
  end

  def test_items
    theirs = framed(THEIRS) + OTHERS + framed(THEIRS) + TRAILING
    numbering = small
    (1..theirs.bytesize).each do |size|
      stream = Pendratsoa::Stream.new(numbering: numbering)
      items = theirs.scan(/.{1,#{size}}/mn).flat_map { |chunk| stream.feed(chunk).to_a }
      assert_equal [0, 19, 28, 36], items.map(&:offset)
      assert_equal theirs, items.map(&:bytes).join + stream.trailing
      assert_equal [OURS, "\xff".b, OURS], items.grep(Pendratsoa::Message).map(&:payload)
      record = Pendratsoa::SetStateCommandMessage.decode(OURS)
      assert_equal [record, record], [items[3].message, items[3].record(record.class)]
      assert_equal [OURS, framed(OURS, PLAIN)], [items[0].canonical, items[0].frame]
      assert Ractor.shareable?(items[0])
      error = assert_raises(Pendratsoa::Incomplete) { stream.finish }
      assert_equal [9, theirs.bytesize - 9], [error.rest, error.offset]
    end
  end

  def test_items_that_are_read
    theirs = framed(THEIRS) * 3
    items = Pendratsoa::Stream.read(StringIO.new(theirs), size: 7, numbering: small).to_a
    assert_equal([[0, OURS], [19, OURS], [38, OURS]], items.map { |item| [item.offset, item.payload] })
    assert_equal theirs, items.each_with_object(StringIO.new("".b)) { |item, out| item.write_to(out) }.string
    assert_equal [framed(THEIRS), 19], [items[1].dup.bytes, items[1].dup.offset]
    stream = Pendratsoa::Stream.new(numbering: small).feed(theirs)
    assert_equal stream.dup.to_a, stream.to_a
    [5, SMALL, Object.new].each do |numbering|
      text = "Stream: numbering must be a Numbering, not #{numbering.class}"
      assert_error(TypeError, text) { Pendratsoa::Stream.new(numbering: numbering) }
    end
  end

  def test_a_limit_is_that_of_the_stream_as_it_came
    payload = THEIRS + block(9, "x" * 50)
    size = payload.bytesize
    stream = Pendratsoa::Stream.new(max_message_size: size, numbering: small)
    assert_equal [OURS], stream.feed(framed(payload)).map(&:payload)
    stream = Pendratsoa::Stream.new(max_message_size: size - 1, numbering: small)
    error = assert_raises(Pendratsoa::MessageTooLong) { stream.feed(framed(THEIRS) + framed(payload)).to_a }
    assert_equal [size, 19], [error.length, error.offset]
  end

  def test_a_payload_that_is_none_in_a_stream
    stream = Pendratsoa::Stream.new(numbering: small).feed(framed(THEIRS) + framed("\n") + framed(THEIRS))
    found = []
    text = "SetStateCommand at offset 19: payload of 1 byte is malformed"
    error = assert_error(Pendratsoa::Malformed, text) { stream.each { |item| found << item.offset } }
    assert_equal [CODES[:set_state], 19, [0]], [error.code, error.offset, found]
    # the next loop goes on after it
    assert_equal [28], stream.map(&:offset)
  end

  def test_replays
    recorded = stream_of("recorded")
    %w[recorded replayed_other_handler replayed_other_payload].each do |name|
      ours = stream_of(name)
      streams = [Pendratsoa::Stream.new.feed(ours),
                 Pendratsoa::Stream.new(numbering: all).feed(all.write_stream(8, ours))]
      said = streams.map do |stream|
        replay = Pendratsoa::Replay.new(8, recorded)
        found = stream.filter_map do |item|
          mismatch = replay.check(item)
          next unless mismatch

          assert_equal item.offset, mismatch.replayed_offset
          [mismatch.kind, mismatch.index, mismatch.recorded_offset, mismatch.fields]
        end
        [found, replay.index, replay.finish]
      end
      assert_equal(*said)
    end
    replay = Pendratsoa::Replay.new(8, framed(OURS) * 2)
    payload = THEIRS + block(9, "extra")
    Pendratsoa::Stream.new(numbering: small).feed(framed(payload)).each { |item| assert_nil replay.check(item) }
    assert_equal 8 + payload.bytesize, replay.finish.replayed_offset
  end

  def test_frames
    numbering = small
    wanted = framed(THEIRS, PLAIN)
    record = Pendratsoa::SetStateCommandMessage.decode(OURS)
    made = Pendratsoa::Message.of(:SetStateCommand, OURS)
    out = +"x".b
    written = StringIO.new("".b)
    assert_equal wanted, record.frame(numbering: numbering)
    assert_equal wanted, record.frame(9, numbering: numbering)
    assert_equal record.frame, record.frame(8, numbering: nil)
    assert_equal [wanted, wanted], [made.frame(numbering: numbering), made.frame(9, numbering: numbering)]
    assert_equal wanted, Pendratsoa.frame(8, CODES[:set_state], OURS, numbering: numbering)
    assert_same out, made.append_frame(out, numbering: numbering)
    assert_same out, Pendratsoa.append_frame(out, 8, CODES[:set_state], OURS, numbering: numbering)
    made.write_frame(written, numbering: numbering)
    assert_equal ["x#{wanted * 2}".b, wanted], [out, written.string]
    item = Pendratsoa::Stream.new(numbering: numbering).feed(framed(THEIRS)).first
    assert_equal [record.frame, wanted], [item.frame, item.frame(numbering: numbering)]
  end

  def test_frames_of_suspensions
    record = Pendratsoa::SuspensionMessageV6.new(waiting_completions: [1, 300])
    theirs = record.frame(6, numbering: all)
    assert_equal block(Descriptors.renumbered(1), "\x01\xac\x02"), theirs.byteslice(8..)
    assert_equal theirs, Pendratsoa::Message.new(6, 1, record.encode).frame(5, numbering: all)
    assert_raises(Pendratsoa::Unknown) { record.frame(7, numbering: all) }
  end

  def test_errors_of_frames
    out = +"x"
    made = Pendratsoa::Message.of(:SetStateCommand, "\n")
    assert_raises(Pendratsoa::Malformed) { made.append_frame(out, numbering: small) }
    assert_equal "x", out
    record = Pendratsoa::SetStateCommandMessage.new
    [record, made.class.of(:SetStateCommand)].each do |one|
      assert_error(TypeError, "frame: numbering must be a Numbering, not String") { one.frame(numbering: SMALL) }
      assert_raises(ArgumentError) { one.frame(other: 1) }
    end
    assert_raises(TypeError) { Pendratsoa.frame(8, 0, "", numbering: SMALL) }
  end

  def test_memory
    numbering = small
    theirs = framed(THEIRS) * 10
    assert_keeps_no_memory(300) do
      numbering.write_stream(8, numbering.read_stream(8, theirs))
      Pendratsoa::Stream.new(numbering: numbering).feed(theirs).each(&:frame)
      Pendratsoa::Numbering.new(SMALL)
    end
  end
end
