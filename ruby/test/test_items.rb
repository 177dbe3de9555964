# frozen_string_literal: true

require_relative "helper"

class TestItems < Minitest::Test
  def test_message
    call = Pendratsoa::Stream.new.feed(read("examples/streams/recorded")).find { |item| item.code == CODES[:call] }
    assert_equal "CallCommand", call.type
    assert_equal "CallCommandMessage", Pendratsoa::SCHEMA_NAMES[call.schema]
    assert_equal %w[Greeter greet], call.json.values_at("serviceName", "handlerName")
    assert_equal Pendratsoa.header(8, call.code, call.payload.bytesize) + call.payload, call.frame
    assert_equal call.payload, call.canonical
    assert_equal [true, false, false], [call.command?, call.notification?, call.requested_ack?]
    assert_raises(Pendratsoa::Unknown) { call.notification }
  end

  def test_items_that_are_no_messages
    [Pendratsoa::UnknownCode.new(8, 8, 8 << 48), Pendratsoa::Skipped.new(9, 8, 8 << 48, "\n")].each do |item|
      assert_equal [nil, false, false], [item.type, item.command?, item.notification?]
    end
  end

  def test_errors_of_the_code_of_a_message
    custom = Pendratsoa::Message.of(CODES[:custom_entry])
    {
      "0xfc01" => [custom, %i[schema json canonical frame notification]],
      "0x0008" => [Pendratsoa::Message.new(8, 8, ""), %i[type schema message]]
    }.each do |digits, (message, calls)|
      text = "unknown code #{digits}, or not of the kind that the call is for"
      calls.each do |call|
        error = assert_error(Pendratsoa::Unknown, text) { message.public_send(call) }
        assert_equal [:code, message.code], [error.argument, error.value]
      end
    end
    error = assert_error(Pendratsoa::Unknown, "frame: unknown protocol version 4 (5 to 9)") { custom.frame(4) }
    assert_equal ["frame", :version, 4], [error.call, error.argument, error.value]
  end

  def test_items_are_frozen
    message = Pendratsoa::Message.new(8, CODES[:input], +"bytes")
    skipped = Pendratsoa::Skipped.new(9, 8, 0, +"bytes")
    [message, skipped, Pendratsoa::UnknownCode.new(8, 8, 0)].each do |item|
      assert_raises(FrozenError) { item.code = 1 }
      assert_equal item, item.dup
      assert_equal 1, { item => 1 }[item.dup]
    end
    [message, skipped].each { |item| assert_raises(FrozenError) { item.payload << "more" } }
    assert Ractor.shareable?(message)
  end

  def test_copies_of_items_are_frozen
    message = Pendratsoa::Stream.new.feed(read("examples/streams/recorded")).first
    [message, Pendratsoa::UnknownCode.new(8, 8, 0), Pendratsoa::Skipped.new(9, 8, 0, "")].each do |item|
      [item.dup, item.clone(freeze: false)].each do |copy|
        assert_predicate copy, :frozen?
        assert_equal [item, item.bytes], [copy, copy.bytes]
      end
    end
    assert_raises(FrozenError) { message.dup.payload = "" }
  end

  def test_a_skipped_message_has_a_copy
    text = +"\u00e9"
    skipped = Pendratsoa::Skipped.new(9, 0xfff0, (0xfff0 << 48) | 2, text)
    refute_predicate text, :frozen?
    assert_equal "\xff\xf0\0\0\0\0\0\x02\xc3\xa9".b, skipped.bytes
  end

  def test_a_message_of_ones_own
    bytes = +"0\u00e9"
    message = Pendratsoa::Message.new(8, CODES[:custom_entry], bytes)
    bytes << "more"
    assert_equal ["0\u00e9".b, false, "CustomEntry(64513)"], [message.payload, message.requested_ack, message.type]
    assert_raises(TypeError) { Pendratsoa::Message.new(8, 1, nil) }
    assert_raises(Pendratsoa::Unknown) { message.json }
    assert_equal "code 0x0008 0", Pendratsoa::Message.new(8, 8, "").to_s
    assert_match(/\A#<Pendratsoa::Message code 0x0008 0/, Pendratsoa::Message.new(8, 8, "").inspect)
    [nil, "1", 1 << 16, -1].each do |code|
      message = Pendratsoa::Message.new(8, code, "")
      assert_raises(TypeError, Pendratsoa::Unknown) { message.type }
    end
  end

  def test_the_word_of_a_message
    data = read("examples/streams/recorded")
    # flags that no type has, and one that requests an acknowledgement
    data += unhex("fc01ffff00000000fc01800000000000")
    Pendratsoa::Stream.new.feed(data).each do |item|
      assert_equal data.unpack1("Q>", offset: item.offset), item.word
      assert_equal item.word, item.dup.word
    end
    assert_equal 1, Pendratsoa::Message.new(8, CODES[:input], "", word: 1).word
    assert_equal "\xff".b * 8, Pendratsoa::UnknownCode.new(8, 8, (1 << 64) - 1).bytes
    { -1 => RangeError, 1 << 64 => RangeError, 1.5 => TypeError, "1" => TypeError }.each do |word, error|
      items = Pendratsoa::Message.new(8, CODES[:input], "", word: word), Pendratsoa::UnknownCode.new(8, 8, word),
              Pendratsoa::Skipped.new(9, 8, word, "")
      items.each { |item| assert_raises(error, item.inspect) { item.bytes } }
    end
    assert_nil Pendratsoa::Message.new(8, CODES[:input], "", offset: 1).word
  end

  def test_a_message_of_a_type
    { 6 => false, 7 => true }.each do |version, requested_ack|
      message = Pendratsoa::Message.of("ProposeRunCompletion", "\x08\x01", version: version)
      assert_equal Pendratsoa::Message.new(version, CODES[:propose_run_completion], "\x08\x01", requested_ack), message
    end
    assert_equal Pendratsoa::Message.new(8, CODES[:input], ""), Pendratsoa::Message.of(CODES[:input])
    assert_raises(Pendratsoa::Unknown) { Pendratsoa::Message.of("Input") }
    assert_raises(Pendratsoa::Unknown) { Pendratsoa::Message.of(8) }
    assert_raises(Pendratsoa::Unknown) { Pendratsoa::Message.of(0, version: 4) }
    [[nil], [0, nil], [1.5]].each { |words| assert_raises(TypeError) { Pendratsoa::Message.of(*words) } }
  end

  def test_the_message_of_a_record
    record = Pendratsoa::SetStateCommandMessage.new(key: "a")
    message = Pendratsoa::Message.of_record(record, version: 9)
    assert_equal ["SetStateCommand", 9, record], [message.type, message.version, message.message]
    assert_equal record.frame(8), Pendratsoa::Message.of_record(record).bytes
    earlier = Pendratsoa::SuspensionMessageV6.new(waiting_completions: [7])
    assert_equal earlier, Pendratsoa::Message.of_record(earlier, version: 6).message
    assert_raises(Pendratsoa::Unknown) { Pendratsoa::Message.of_record(earlier, version: 7) }
    [Pendratsoa::Value.new, Pendratsoa::SetStateCommandMessage, nil].each do |other|
      assert_raises(TypeError) { Pendratsoa::Message.of_record(other) }
    end
  end

  def test_pattern_matching
    case Pendratsoa::Message.new(8, CODES[:input], "x")
    in Pendratsoa::Message[code:, payload: "x"] then assert_equal CODES[:input], code
    end
  end

  def test_a_frame_of_its_own_version_and_of_another
    proposal = unhex("0801720178")
    { 6 => "00", 7 => "80", 9 => "80" }.each do |version, flags|
      message = Pendratsoa::Message.new(version, CODES[:propose_run_completion], proposal)
      length = [proposal.bytesize].pack("N")
      assert_equal unhex("0005#{flags}00") + length + proposal, message.frame
      assert_equal unhex("00050000") + length + proposal, message.frame(5)
      assert_equal unhex("00058000") + length + proposal, message.frame(8)
    end
  end

  def test_the_schema_of_its_own_version
    schemas = (5..9).map { |version| Pendratsoa::Message.new(version, CODES[:suspension], "").schema }
    assert_equal [12, 12, 11, 11, 11], schemas
  end

  def test_kinds_by_the_code
    { 0x03ff => [false, false], 0x0400 => [true, false], 0x7fff => [true, false], 0x8000 => [false, true],
      0xfbff => [false, true], 0xfc00 => [false, false] }.each do |code, kinds|
      message = Pendratsoa::Message.new(8, code, "")
      assert_equal kinds, [message.command?, message.notification?]
    end
  end
end
