# frozen_string_literal: true

require_relative "helper"
require "stringio"

class TestCopies < Minitest::Test
  # Flags that no encoder sets, long lengths of fields, a custom entry, and what is of no type.
  FAITHFUL = {
    8 => "040012340000000972070a05696e707574040300000000000b0a81000a1a050a82007879" \
         "fc01ffff00000001ff0008a5a5000000000003000000000000",
    9 => "0008a5a5000000020003fc01000000000000"
  }.freeze

  def test_items_as_they_came
    FAITHFUL.each do |version, digits|
      stream = unhex(digits)
      [1, 7, stream.bytesize].each do |size|
        items = Pendratsoa::Stream.read(StringIO.new(stream), version: version, size: size).to_a
        assert_equal stream, items.map(&:bytes).join
        assert_equal stream, items.each_with_object(StringIO.new("".b)) { |item, out| item.write_to(out) }.string
        assert_equal stream, items.map(&:dup).map(&:bytes).join
        assert(items.all? { |item| Ractor.shareable?(item) })
      end
    end
  end

  def test_a_message_that_is_made
    message = Pendratsoa::Message.of(:ProposeRunCompletion, unhex("088100"))
    assert_equal unhex("0005800000000003088100"), message.bytes
    assert_nil message.word
    came = Pendratsoa::Stream.new.feed(message.bytes).first
    assert_equal message, came
    assert_equal 0x0005_8000_0000_0003, came.word
    assert_raises(Pendratsoa::Unknown) { Pendratsoa::Message.new(8, 8, "").bytes }
  end

  def test_frames_with_a_destination
    message = Pendratsoa::Message.of("InputCommand", INPUT[8..])
    out = +"\xFF".b
    assert_same out, message.append_frame(out)
    assert_equal "\xFF".b + INPUT, out
    assert_raises(Pendratsoa::Malformed) { Pendratsoa.append_frame(out, 8, CODES[:input], INPUT[8..10]) }
    assert_raises(TypeError) { message.append_frame(nil) }
    assert_equal "\xFF".b + INPUT, out
    written = StringIO.new("".b)
    assert_same message, message.write_frame(written, 9)
    assert_equal INPUT, written.string
  end

  # Suspensions received at a version, and their frames at another: the digits, or the error that it has none.
  V6 = "08010a0202030804"
  V7 = "22120a010122080a010222030a010122030a0103"
  SUSPENSIONS = [
    [6, V6, 6, "00010000000000060a0401020304"],
    [6, V6, 5, "00010000000000060a0401020304"],
    [5, V6, 6, "00010000000000060a0401020304"],
    [6, V6, 7, Pendratsoa::Unknown],
    [5, V6, 9, Pendratsoa::Unknown],
    [6, V6, 10, Pendratsoa::Unknown],
    [6, "0a04", 6, Pendratsoa::Malformed],
    [7, V7, 7, "0001000000000014#{V7}"],
    [9, V7, 8, "0001000000000014#{V7}"],
    [9, V7, 6, "00010000000000060a0401020103"],
    [7, V7, 5, "00010000000000060a0401020103"]
  ].freeze

  def test_suspensions_of_each_version
    SUSPENSIONS.each do |came, payload, version, wanted|
      message = Pendratsoa::Message.new(came, 1, unhex(payload))
      out = +"\xFF".b
      if wanted.is_a?(Class)
        assert_raises(wanted) { message.frame(version) }
        assert_raises(wanted) { message.append_frame(out, version) }
        assert_equal "\xFF".b, out
      else
        frame = unhex(wanted)
        assert_equal frame, message.frame(version)
        assert_equal "\xFF".b + frame, message.append_frame(out, version)
        assert_equal frame, message.message.frame(version)
      end
    end
    message = Pendratsoa::Message.new(6, 1, "")
    assert_error(Pendratsoa::Unknown, "frame: protocol version 8 has no SuspensionMessageV6") { message.frame(8) }
    assert_raises(TypeError) { message.append_frame(nil) }
  end

  def test_the_end_of_a_stream
    stream = Pendratsoa::Stream.new
    assert_same stream, stream.feed(INPUT).each(&:bytes).finish
    text = "the stream ended within an item at offset 17, after 1 byte of it"
    error = assert_error(Pendratsoa::Incomplete, text) { stream.feed("x").finish }
    assert_equal [1, 17, nil], [error.rest, error.offset, error.code]
  end

  def test_an_input_that_ends_within_an_item
    [{}, { strict: true }].each do |strict|
      items = Pendratsoa::Stream.read(StringIO.new(INPUT + INPUT[0, 5]), **strict)
      assert_equal "InputCommand 9", items.next.to_s
      text = "the stream ended within InputCommand at offset 17, after 5 bytes of it"
      error = assert_error(Pendratsoa::Incomplete, text) { items.next }
      assert_equal ["read", 5, CODES[:input]], [error.call, error.rest, error.code]
      taken = []
      stream = Pendratsoa::Stream.new
      assert_error(Pendratsoa::Incomplete, text) do
        stream.read(StringIO.new(INPUT + INPUT[0, 5]), **strict) { |item| taken << item.to_s }
      end
      assert_equal [["InputCommand 9"], INPUT[0, 5]], [taken, stream.trailing]
    end
  end

  def test_an_input_that_is_still_being_written
    stream = Pendratsoa::Stream.new
    assert_equal 1, stream.read(StringIO.new(INPUT + INPUT[0, 5]), strict: false).count
    assert_equal INPUT[0, 5], stream.trailing
    assert_equal 1, stream.read(StringIO.new(INPUT[5..])).count
    taken = []
    input = StringIO.new(INPUT + INPUT[0, 5])
    stream = Pendratsoa::Stream.read(input, strict: false) { |item| taken << item.to_s }
    assert_equal [["InputCommand 9"], 5], [taken, stream.rest]
  end

  def test_the_code_of_an_item_that_is_cut
    { "04" => [nil, "an item"], "0400" => [0x0400, "InputCommand"], "0008" => [8, "code 0x0008"],
      "fc010000000000" => [0xfc01, "CustomEntry(64513)"] }.each do |digits, (code, name)|
      stream = Pendratsoa::Stream.new.feed(unhex(digits))
      assert_empty stream.to_a
      error = assert_raises(Pendratsoa::Incomplete) { stream.finish }
      assert_equal [code, digits.length / 2], [error.code, error.rest]
      assert_operator error.message, :start_with?, "the stream ended within #{name} at offset 0, after "
    end
  end

  def test_the_end_of_a_stream_whose_items_are_not_taken
    stream = Pendratsoa::Stream.new
    INPUT.each_char { |byte| stream.feed(byte) }
    text = "the stream ended within InputCommand at offset 0, after 17 bytes of it"
    error = assert_error(Pendratsoa::Incomplete, text) { stream.finish }
    assert_equal [17, 0, CODES[:input]], [error.rest, error.offset, error.code]
    assert_equal 1, stream.count
  end

  def test_patterns_with_the_type
    found = [INPUT, unhex("fc01000000000000"), unhex("0008000000000000")].map do |bytes|
      case Pendratsoa::Stream.new.feed(bytes).first
      in Pendratsoa::Message[type: "InputCommand", version: 8, payload:] then payload
      in Pendratsoa::Message[type: /Custom/ => type, **others] then [type, others.keys]
      in Pendratsoa::UnknownCode[code: 8] then :unknown
      end
    end
    assert_equal [INPUT[8..], ["CustomEntry(64513)", %i[version code payload requested_ack]], :unknown], found
    assert_equal({ code: 8, type: nil }, Pendratsoa::Message.new(8, 8, "").deconstruct_keys(%i[code type]))
    assert_equal({}, Pendratsoa::Message.new(8, 8, "").deconstruct_keys(%i[none code type]).except(:type))
  end

  def test_types_as_symbols
    assert_equal Pendratsoa::Message.of("InputCommand"), Pendratsoa::Message.of(:InputCommand)
    assert_raises(Pendratsoa::Unknown) { Pendratsoa::Message.of(:Input) }
  end
end
