# frozen_string_literal: true

require_relative "helper"
require "stringio"

# Custom entries, which have no record: loops over all items of a stream that has some. Where each item begins, which
# record it has, and what an error of a payload says of its message.
class TestCustom < Minitest::Test
  include Pendratsoa

  # Custom entries whose codes are above all others, that of a command, and that of a notification.
  CUSTOM = %w[fc01ffff00000001ff 0500000000000003707172 8500000000000000].map { |digits| [digits].pack("H*") }.freeze
  UNKNOWN = ["0008a5a500000000"].pack("H*").freeze
  MALFORMED = ["04030000000000010a"].pack("H*").freeze

  STATE = SetStateCommandMessage.new(key: "counter", value: Value.new(content: "1"))
  FIRST = InputCommandMessage.new(value: Value.new(content: "input"))
  RECORDS = [FIRST, nil, STATE, nil, nil, STATE, nil, EndMessage.new].freeze

  # A stream of all of them, and where each item begins.
  def parts
    set = STATE.frame
    [INPUT, CUSTOM[0], set, CUSTOM[1], UNKNOWN, set, CUSTOM[2], EndMessage.new.frame]
  end

  def items_of(*parts, version: 8)
    Stream.read(StringIO.new(parts.join), version: version).to_a
  end

  def test_a_loop_over_all_items
    assert_equal(RECORDS, items_of(*parts).map { |item| item.message if item.is_a?(Message) })
    assert_equal parts.join, items_of(*parts).map(&:bytes).join
  end

  def test_each_code_that_is_of_no_named_type
    [*FIRST_VERSION..LAST_VERSION].product([0x041f, 0x0500, 0x3f3f, 0x7fff, 0x8500, 0xfc01, 0xffff]) do |version, code|
      assert_nil Message.new(version, code, "\xff").message
      assert_nil Message.new(version, code, "\xff").record(SetStateCommandMessage)
    end
  end

  def test_what_is_no_type_or_no_version
    [[8, 8], [8, 0x03ff], [4, 0xfc01], [10, 0x0403], [8, 1 << 16]].each do |version, code|
      assert_raises(Unknown) { Message.new(version, code, "").message }
      assert_raises(Unknown) { Message.new(version, code, "").record(EndMessage) }
    end
  end

  # What a pattern finds of an item.
  def found(item)
    case item
    in Message[type: "SetStateCommand", message: { key:, value: { content: } }] then [key, content]
    in Message[message: nil, code:] then code
    in Message[type:, message: Record] then type
    in UnknownCode[code:, offset:] then [code, offset]
    end
  end

  def test_patterns
    state = %w[counter 1]
    at = parts.take(4).sum(&:bytesize)
    wanted = ["InputCommand", 0xfc01, state, 0x0500, [8, at], state, 0x8500, "End"]
    assert_equal(wanted, items_of(*parts).map { |item| found(item) })
    items_of(*parts)[1] => Message[offset:, word:]
    assert_equal [17, 0xfc01_ffff_0000_0001], [offset, word]
  end

  def test_a_pattern_does_not_pass_a_malformed_message_on
    text = "SetStateCommand at offset 17: payload of 1 byte is malformed"
    _, item = items_of(INPUT, MALFORMED)
    [
      -> { item in Message[type: "SetStateCommand", message: { key: String }] },
      -> { item in Message[message: nil] },
      -> { found(item) }
    ].each { |pattern| assert_error(Malformed, text, &pattern) }
    # one that does not name the record reads no payload
    assert((item in Message[type: "SetStateCommand", payload: "\n"]))
    assert_raises(Unknown) { Message.new(8, 8, "") in Message[message: Record] }
  end

  def test_they_are_not_compared
    verdict = Pendratsoa.compare_journals(8, parts.join, [INPUT, STATE.frame, STATE.frame, EndMessage.new.frame].join)
    assert_equal [:same, 3], [verdict.kind, verdict.index]
  end

  def test_a_record_or_nil
    items_of(*parts).zip(RECORDS) do |item, wanted|
      [InputCommandMessage, SetStateCommandMessage, EndMessage].each do |record|
        expected = wanted.instance_of?(record) ? wanted : nil
        expected ? assert_equal(expected, item.record(record)) : assert_nil(item.record(record))
      end
      [Value, Record, MessageRecord, String, "EndMessage", EndMessage.new, nil].each do |record|
        what = record.is_a?(Module) ? record : "an object of #{record.class}"
        text = "record: record must be the class of a message's record, not #{what}"
        assert_error(TypeError, text) { item.record(record) }
      end
    end
    assert_nil Skipped.new(9, 8, 0, "").record(EndMessage)
    assert_nil items_of(MALFORMED).first.record(InputCommandMessage)
    assert_raises(Malformed) { items_of(MALFORMED).first.record(SetStateCommandMessage) }
  end

  def test_the_record_of_its_version
    message = Message.new(6, CODES[:suspension], "")
    assert_equal SuspensionMessageV6.new, message.record(SuspensionMessageV6)
    assert_nil message.record(SuspensionMessage)
  end

  def test_where_each_item_begins
    offsets = parts.each_index.map { |index| parts.take(index).sum(&:bytesize) }
    [1, 7, 1000].each do |size|
      items = Stream.read(StringIO.new(parts.join), size: size).to_a
      assert_equal offsets, items.map(&:offset)
      assert_equal offsets, items.map(&:dup).map(&:offset)
    end
    assert_equal [0, 8], items_of(UNKNOWN, EndMessage.new.frame, version: 9).map(&:offset)
    [Message.new(8, 0, ""), UnknownCode.new(8, 8, 0), Skipped.new(9, 8, 0, "")].each { |item| assert_nil item.offset }
    assert_equal(*items_of(STATE.frame, STATE.frame))
  end

  def test_errors_of_a_payload
    came = items_of(INPUT, MALFORMED).last
    made = Message.new(8, CODES[:set_state], "\n")
    out = +""
    [[came, 17, " at offset 17"], [made, nil, ""]].each do |item, offset, where|
      {
        "message" => -> { item.message },
        "record" => -> { item.record(SetStateCommandMessage) },
        "json" => -> { item.json },
        "canonical" => -> { item.canonical },
        "frame" => -> { item.frame },
        "append_frame" => -> { item.append_frame(out) }
      }.each do |call, read|
        error = assert_error(Malformed, "SetStateCommand#{where}: payload of 1 byte is malformed", &read)
        assert_equal [call, :payload, "\n"], [error.call, error.argument, error.value]
        offset ? assert_equal(offset, error.offset) : assert_nil(error.offset)
        assert_equal CODES[:set_state], error.code
      end
    end
    assert_equal "", out
    error = assert_raises(Malformed) { Pendratsoa.frame(8, CODES[:input], "\n") }
    assert_equal [nil, nil], [error.code, error.offset]
  end

  def test_errors_of_a_notification
    {
      "\x22\x00" => [NoId, "has no id"],
      "\x10\x11" => [NoResult, "has an id, and no result"]
    }.each do |payload, (kind, what)|
      item = items_of(Pendratsoa.header(8, CODES[:signal], 2) + payload).first
      text = "SignalNotification at offset 0: payload of 2 bytes #{what}"
      error = assert_error(kind, text) { item.notification }
      assert_equal [CODES[:signal], 0], [error.code, error.offset]
    end
  end
end
