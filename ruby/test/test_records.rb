# frozen_string_literal: true

require_relative "helper"

class TestRecords < Minitest::Test
  COMMAND = Pendratsoa::SetStateCommandMessage.new(key: "counter", value: Pendratsoa::Value.new(content: "1"))

  def test_the_messages_of_a_stream
    found = Pendratsoa::Stream.new.feed(read("examples/streams/recorded")).filter_map do |item|
      assert_equal item.bytes, item.message.frame
      case item.message
      in Pendratsoa::SetStateCommandMessage[key:, value: { content: }] then [key, content]
      in Pendratsoa::CallCompletionNotificationMessage[result: Pendratsoa::Value[content:]] then content
      else nil
      end
    end
    assert_equal [%w[counter 1], "hi"], found
  end

  def test_eql_is_as_hash
    one, other = [1, 1.0].map { |code| Pendratsoa::Failure.new(code: code) }
    assert_equal one, other
    refute one.eql?(other)
    assert one.eql?(Pendratsoa::Failure.new(code: 1))
    assert_equal one.hash, Pendratsoa::Failure.new(code: 1).hash
  end

  def test_each_schema
    names = Pendratsoa::RECORDS.map { |record| record.name.delete_prefix("Pendratsoa::") }
    assert_equal Pendratsoa::SCHEMA_NAMES, names
    assert_equal((0...Pendratsoa::SCHEMAS).to_a, Pendratsoa::RECORDS.map { |record| record::SCHEMA })
    Pendratsoa::RECORDS.each { |record| assert_equal record.new, record.decode("") }
    set_state = Pendratsoa::SetStateCommandMessage
    assert_equal ["SetStateCommand", CODES[:set_state]], [set_state::TYPE, set_state::CODE]
  end

  def test_they_are_values
    decoded = Pendratsoa::SetStateCommandMessage.decode(COMMAND.encode)
    assert_equal COMMAND, decoded
    assert_equal 1, { COMMAND => 1 }[decoded]
    assert_equal COMMAND, Marshal.load(Marshal.dump(decoded))
    assert_predicate decoded, :frozen?
    assert_predicate decoded.key, :frozen?
    assert_equal [Encoding::BINARY, Encoding::UTF_8], [decoded.key.encoding, decoded.name.encoding]
    changed = decoded.with(name: "other")
    assert_equal [decoded.key, decoded.value, "other"], [changed.key, changed.value, changed.name]
    assert_equal decoded, Pendratsoa::SetStateCommandMessage.decode(changed.encode).with(name: "")
    assert_raises(ArgumentError) { decoded.with(valu: 1) }
    assert_raises(ArgumentError) { Pendratsoa::Value.new(contents: "") }
  end

  def test_bytes_are_binary_in_a_record_that_is_made
    text = "\u00e9"
    [text, text.encode("UTF-16LE"), "e"].each do |given|
      [
        Pendratsoa::SetStateCommandMessage.new(key: given, value: Pendratsoa::Value.new(content: given), name: text),
        Pendratsoa::StateKeys.new(keys: ["binary".b, given]),
        Pendratsoa::ProposeRunCompletionMessage.new(result: given),
        Pendratsoa::Value.new.with(content: given)
      ].each do |record|
        decoded = record.class.decode(record.encode)
        assert_equal record, decoded
        assert_equal 1, { record => 1 }[decoded]
      end
    end
    framed = Pendratsoa::SetStateCommandMessage.new(key: text, value: Pendratsoa::Value.new(content: text), name: text)
    assert_equal framed, Pendratsoa::Stream.new.feed(framed.frame).first.message
    assert_equal ["\xC3\xA9".b, Encoding::BINARY, true], [framed.key, framed.key.encoding, framed.key.frozen?]
    assert_equal [text, Encoding::UTF_8], [framed.name, framed.name.encoding]
  end

  def test_binary_bytes_are_not_copied
    bytes = "\xC3".b
    keys = [bytes]
    assert_same bytes, Pendratsoa::Value.new(content: bytes).content
    assert_same keys, Pendratsoa::StateKeys.new(keys: keys).keys
    refute_predicate bytes, :frozen?
  end

  def test_presence
    record = Pendratsoa::ErrorMessage.new(related_command_index: 0, related_command_name: "")
    assert_equal record, Pendratsoa::ErrorMessage.decode(record.encode)
    assert_equal "", Pendratsoa::ErrorMessage.new(code: 0, behavior: :RETRY).encode
    [nil, 0, 5, "", "name"].each do |signal|
      record = Pendratsoa::SignalNotificationMessage.new(signal_id: signal, result: Pendratsoa::Void.new)
      assert_equal record, Pendratsoa::SignalNotificationMessage.decode(record.encode)
    end
    [Pendratsoa::NotificationTemplateCompletionId, Pendratsoa::NotificationTemplateSignalId].each do |member|
      record = Pendratsoa::NotificationTemplate.new(id: member.new(5))
      assert_equal record, Pendratsoa::NotificationTemplate.decode(record.encode)
    end
  end

  def test_enums
    { RETRY: :RETRY, PAUSE: :PAUSE, 1 => :PAUSE, -1 => -1, 7 => 7 }.each do |given, found|
      assert_equal found, Pendratsoa::ErrorMessage.decode(Pendratsoa::ErrorMessage.new(behavior: given).encode).behavior
    end
  end

  def test_another_encoding_and_many_fields
    assert_equal [1, 2, 3], Pendratsoa::SuspensionMessageV6.decode(unhex("08010a020203")).waiting_completions
    keys = Pendratsoa::StateKeys.new(keys: Array.new(5000, &:to_s))
    assert_equal keys, Pendratsoa::StateKeys.decode(keys.encode)
    text = "decode: payload of 1 byte is malformed"
    assert_error(Pendratsoa::Malformed, text) { Pendratsoa::Value.decode("\n") }
    assert_nil Pendratsoa::Message.new(8, CODES[:custom_entry], "").message
  end

  def test_a_record_at_each_version
    suspension = Pendratsoa::SuspensionMessage.new(awaiting_on: Pendratsoa::Future.new(waiting_completions: [7]))
    [COMMAND, suspension].each do |record|
      (5..9).each do |version|
        assert_equal Pendratsoa.frame(version, record.class::CODE, record.encode), record.frame(version)
      end
      [4, 10].each do |version|
        error = assert_raises(Pendratsoa::Unknown) { record.frame(version) }
        assert_equal "frame: unknown protocol version #{version} (5 to 9)", error.message
      end
    end
  end

  def test_a_record_of_earlier_versions
    record = Pendratsoa::SuspensionMessageV6.new(waiting_completions: [1, 2])
    assert_equal unhex("00010000000000040a020102"), record.frame(6)
    assert_equal record, Pendratsoa::Message.new(6, CODES[:suspension], record.encode).message
    assert_raises(Pendratsoa::Unknown) { record.frame(7) }
  end

  def test_wrong_fields
    header = Pendratsoa::Header
    {
      Pendratsoa::Failure.new(code: -1) => "code",
      Pendratsoa::Failure.new(code: 1 << 32) => "code",
      Pendratsoa::Failure.new(code: 1 << 64) => "code",
      Pendratsoa::ErrorMessage.new(behavior: 1 << 31) => "behavior",
      Pendratsoa::ErrorMessage.new(behavior: -(1 << 65)) => "behavior",
      Pendratsoa::InputCommandMessage.new(headers: [header.new, header.new(value: "\xff")]) => "headers[1].value"
    }.each do |record, path|
      error = assert_raises(Pendratsoa::FieldError) { record.encode }
      assert_equal path, error.path
      why = { out_of_range: "out of range", not_utf8: "not UTF-8" }.fetch(error.reason)
      assert_equal "encode: field #{path}: #{why}", error.message
    end
    {
      Pendratsoa::Failure.new(code: "1") => "code must be an Integer, not String",
      Pendratsoa::Value.new(content: 1) => "content must be a String, not Integer",
      Pendratsoa::InputCommandMessage.new(headers: [5]) => "headers[0] must be Pendratsoa::Header, not Integer",
      Pendratsoa::OutputCommandMessage.new(result: 5) => "result must be one of Value, Failure, not Integer",
      Pendratsoa::ErrorMessage.new(behavior: :NONE) =>
        "behavior must be a name of ErrorBehavior or an Integer, not Symbol"
    }.each { |record, text| assert_error(TypeError, "encode: #{text}") { record.encode } }
  end
end
