# frozen_string_literal: true

require_relative "helper"

class TestConstants < Minitest::Test
  HEADER = File.read(File.join(Helper::TOP, "include/pendratsoa.h"), encoding: "UTF-8")

  def defined_numbers
    HEADER.scan(/^#define JOURNAL_(\w+) \(?(-?\d+)\)?/).to_h.transform_values { |number| Integer(number) }
  end

  def test_errors_are_those_of_the_header
    errors = Pendratsoa.send(:const_get, :ERRORS)
    numbers = defined_numbers.select { |_, number| number.negative? }
    kinds = numbers.select { |_, number| number > -16 }.invert
    # no call returns the kind of what is unknown by itself
    assert_equal numbers.except("UNKNOWN").values.sort, errors.keys.sort
    errors.each do |number, (kind, _)|
      assert_equal kinds[number.remainder(16)].delete("_"), kind.to_s.upcase
    end
  end

  def test_kinds_are_those_of_the_header
    families = { "" => Pendratsoa::ID_KINDS, "RESULT_" => Pendratsoa::RESULT_KINDS,
                 "VERDICT_" => Pendratsoa::VERDICT_KINDS, "JSON_" => [nil, *Pendratsoa::JSON_REASONS],
                 "LIST_" => [nil, *Pendratsoa::NUMBERING_REASONS] }
    families.each do |family, kinds|
      kinds.each_with_index do |kind, number|
        assert_equal number, defined_numbers[family + kind.to_s.upcase], kind if kind
      end
    end
    assert_equal [3, 5, 7],
                 [Pendratsoa::ID_KINDS, Pendratsoa::RESULT_KINDS, Pendratsoa::VERDICT_KINDS].map(&:length)
  end

  def test_numbers_are_those_of_the_header
    %w[FIRST_VERSION LAST_VERSION SCHEMAS].each do |name|
      assert_equal defined_numbers[name], Pendratsoa.const_get(name)
    end
  end

  def test_types_are_those_of_the_header
    codes = HEADER.scan(/^#define JOURNAL_TYPE_(\w+) 0x(\h+)$/).to_h { |name, digits| [name.to_sym, digits.hex] }
    names = Pendratsoa.constants.grep(/\ACODE_/)
    found = names.to_h { |name| [name.to_s.delete_prefix("CODE_").to_sym, Pendratsoa.const_get(name)] }
    assert_equal codes, found
    codes.each_value { |code| assert_equal code, Pendratsoa.type_code(Pendratsoa.type_name(code)) }
  end

  def test_functions_are_those_of_the_header
    library = Pendratsoa.send(:const_get, :Library)
    assert_equal HEADER.scan(/^int64_t (journal_\w+)\(/).flatten.map(&:to_sym), library::PARAMETERS.keys
  end

  def test_version_of_the_library
    assert_equal Pendratsoa::VERSION, Pendratsoa.library_version
    assert_equal Encoding::UTF_8, Pendratsoa.library_version.encoding
  end
end

class TestNames < Minitest::Test
  def test_types_have_their_codes
    rows = read("proto/types.txt").lines.grep_v(/^#/).map(&:split)
    assert_operator rows.length, :>, 40
    rows.each do |digits, name|
      assert_equal name, Pendratsoa.type_name(digits.hex)
      assert_equal digits.hex, Pendratsoa.type_code(name)
      assert_equal "#{name}Message", Pendratsoa::SCHEMA_NAMES[Pendratsoa.schema(9, digits.hex)]
    end
  end

  def test_a_schema_by_its_name
    assert_equal Pendratsoa.to_json(13, "\x12\x01x"), Pendratsoa.to_json("ErrorMessage", "\x12\x01x")
    text = 'canonical: unknown schema "Error"; did you mean "ErrorMessage"?'
    error = assert_error(Pendratsoa::Unknown, text) do
      Pendratsoa.canonical("Error", "")
    end
    assert_equal ["canonical", :schema, "Error"], [error.call, error.argument, error.value]
  end

  def test_what_does_not_exist
    or_not = ", or not of the kind that the call is for"
    {
      "type_name: unknown code 0x0008#{or_not}" => -> { Pendratsoa.type_name(8) },
      "type_name: unknown code 0x10000#{or_not}" => -> { Pendratsoa.type_name(1 << 16) },
      "type_name: unknown code -1#{or_not}" => -> { Pendratsoa.type_name(-1) },
      'type_code: unknown type "Sleep"' => -> { Pendratsoa.type_code("Sleep") },
      "schema: unknown protocol version 4 (5 to 9)" => -> { Pendratsoa.schema(4, 8) },
      "schema: unknown code 0xfc01#{or_not}" => -> { Pendratsoa.schema(8, 64_513) },
      "header: unknown code 0x0008#{or_not}" => -> { Pendratsoa.header(8, 8, 0) },
      "frame: unknown protocol version 10 (5 to 9)" => -> { Pendratsoa.frame(10, 0, "") },
      "frame: unknown code 0xfc01#{or_not}" => -> { Pendratsoa.frame(8, 64_513, "") },
      "canonical: unknown schema #{Pendratsoa::SCHEMAS} (0 to #{Pendratsoa::SCHEMAS - 1})" =>
        -> { Pendratsoa.canonical(Pendratsoa::SCHEMAS, "") },
      "notification: unknown code 0x040d#{or_not}" => -> { Pendratsoa.notification(1037, "") },
      "header_eq?: unknown code 0x0000#{or_not}" => -> { Pendratsoa.header_eq?(0, "", "") },
      "difference: unknown code 0x0000#{or_not}" => -> { Pendratsoa.difference(0, "", "") },
      "compare_journals: unknown protocol version 4 (5 to 9)" => -> { Pendratsoa.compare_journals(4, "", "") }
    }.each { |text, call| assert_error(Pendratsoa::Unknown, text, &call) }
  end

  def test_controls_of_a_name_are_escaped
    controls = [*0x00..0x1f, *0x7f..0x9f, *0x2028..0x202e, *0x2066..0x2069]
    [*0x0000..0x20ff, 0xe000, 0x1f600].each do |code|
      name = [code].pack("U")
      shown = controls.include?(code) ? format("\\u%04x", code) : name
      assert_error(Pendratsoa::Unknown, "type_code: unknown type \"#{shown}\"") { Pendratsoa.type_code(name) }
    end
  end

  def test_names_that_are_none
    ["", "CustomEntry(64513)", "Sleep\0Command", "\xff", "x" * 1_000_000].each do |name|
      error = assert_raises(Pendratsoa::Unknown) { Pendratsoa.type_code(name) }
      assert_operator error.message.length, :<, 200
    end
    assert_raises(Pendratsoa::Unknown) { Pendratsoa.type_code("SleepCommand".encode("UTF-16LE")) }
  end
end

class TestPayloads < Minitest::Test
  def test_payloads
    payload = unhex("08010a0202030804")
    canonical = Pendratsoa.canonical("SuspensionMessageV6", payload)
    assert_equal unhex("0a0401020304"), canonical
    assert_equal Encoding::BINARY, canonical.encoding
    refute canonical.frozen?
    assert_equal unhex("0a03010203"), Pendratsoa.merge(12, "\x08\x01", "\x0a\x02\x02\x03")
    assert Pendratsoa.well_formed?(14, "")
    refute Pendratsoa.well_formed?(14, "\x0e\x00")
  end

  def test_json_is_utf8
    json = Pendratsoa.to_json("ErrorMessage", "\x12\x02\xc3\xa9")
    assert_equal "{\"message\":\"\u00e9\"}", json
    assert_equal Encoding::UTF_8, json.encoding
  end

  def test_no_bytes
    Pendratsoa::SCHEMAS.times do |schema|
      assert_equal "", Pendratsoa.canonical(schema, "")
      assert_equal "", Pendratsoa.merge(schema, "", "")
      assert_equal "{}", Pendratsoa.to_json(schema, "")
    end
  end

  def test_more_than_the_first_room
    payload = "\x12\xe8\x07#{"\x01" * 1000}"
    assert_equal payload.b, Pendratsoa.canonical("ErrorMessage", payload)
    assert_equal "{\"message\":\"#{'\u0001' * 1000}\"}", Pendratsoa.to_json("ErrorMessage", payload)
  end

  def test_frames
    payload = unhex("22120a010122080a010222030a010122030a0103")
    assert_equal unhex("00010000000000060a0401020103"), Pendratsoa.frame(6, CODES[:suspension], payload)
    header = Pendratsoa.header(7, CODES[:suspension], payload.bytesize)
    assert_equal header + payload, Pendratsoa.frame(7, CODES[:suspension], payload)
  end

  def test_lengths_of_a_header
    assert_equal unhex("040d0000ffffffff"), Pendratsoa.header(8, CODES[:call], (1 << 32) - 1)
    text = "header: payload of 4294967296 bytes is too long: more than 4,294,967,295 bytes"
    assert_error(Pendratsoa::TooLong, text) do
      Pendratsoa.header(8, CODES[:call], 1 << 32)
    end
    assert_error(ArgumentError, "header: payload_length -1 is negative") { Pendratsoa.header(8, CODES[:call], -1) }
    assert_raises(Pendratsoa::TooLong) { Pendratsoa.header(8, CODES[:call], 1 << 100) }
  end

  def test_malformed
    error = assert_error(Pendratsoa::Malformed, "canonical: payload of 1 byte is malformed") do
      Pendratsoa.canonical("ErrorMessage", "\x12")
    end
    assert_equal ["canonical", :payload, "\x12"], [error.call, error.argument, error.value]
    text = "to_json: payload of 33 bytes is malformed"
    assert_error(Pendratsoa::Malformed, text) { Pendratsoa.to_json(13, "\x0e" * 33) }
    text = "merge: first payload of 1 byte is malformed"
    assert_error(Pendratsoa::Malformed, text) { Pendratsoa.merge(13, "\x12", "") }
    text = "merge: second payload of 1 byte is malformed"
    assert_error(Pendratsoa::Malformed, text) { Pendratsoa.merge(13, "", "\x12") }
    assert_error(Pendratsoa::Malformed, "difference: second payload of 1 byte is malformed") do
      Pendratsoa.difference(CODES[:set_state], "", "\n")
    end
  end

  def test_no_text_has_bytes_of_a_payload
    bad = "\x0a\x40a secret"
    came = Pendratsoa::Stream.new.feed(Pendratsoa.header(8, CODES[:set_state], bad.bytesize) + bad).first
    [
      -> { Pendratsoa.canonical("Value", bad) },
      -> { Pendratsoa.merge("Value", bad, "") },
      -> { Pendratsoa.merge("Value", "", bad) },
      -> { Pendratsoa.frame(8, CODES[:set_state], bad) },
      -> { Pendratsoa.notification(CODES[:signal], "\x22\x0a\x0a\x08a secret") },
      -> { Pendratsoa::Value.decode(bad) },
      -> { came.message },
      -> { came.json },
      -> { came.frame },
      -> { Pendratsoa.from_json("Value", '{"content":"a secret"}') },
      -> { Pendratsoa.from_json("Value", '{"content":"a secret"') },
      -> { Pendratsoa::Message.from_json(:SetStateCommand, { "key" => "a secret" }) }
    ].each do |call|
      error = assert_raises(Pendratsoa::Malformed, Pendratsoa::NoId, Pendratsoa::JsonError, &call)
      assert_match(/: (first |second )?(payload|JSON) of /, error.message)
      refute_includes error.inspect, "secret"
    end
  end
end

class TestReading < Minitest::Test
  SLEEP = "SleepCommandMessage"

  def test_one_value_in_many_forms
    ['{"wakeUpTime":"5","name":"x"}', " { \"name\" : \"\\u0078\" , \"wake_up_time\" : 0.5e1 } "].each do |json|
      payload = Pendratsoa.from_json(SLEEP, json)
      assert_equal unhex("0805620178"), payload
      assert_equal Encoding::BINARY, payload.encoding
    end
    Pendratsoa::SCHEMAS.times { |schema| assert_equal "", Pendratsoa.from_json(schema, "{}") }
  end

  def test_what_is_not_taken
    deep = "#{'{"nestedFutures":[' * 102}#{"]}" * 102}"
    [
      ["Value", "", :not_json, 0, "", "not JSON at byte 0"],
      ["Value", "{\"content\":\"\xff\"}", :not_json, 12, "", "not JSON at byte 12"],
      ["Value", '{"a":1}', :unknown_member, nil, "a", "a: unknown member"],
      [SLEEP, '{"name":"","name":""}', :repeated_member, nil, "name", "name: repeated member"],
      ["ProposeRunCompletionMessage", '{"value":"","failure":{}}', :several_members, nil, "failure",
       "failure: several members of a oneof"],
      ["Value", "[]", :wrong_kind, nil, "", "wrong kind of value"],
      ["InputCommandMessage", '{"headers":[{},{"key":1}]}', :wrong_kind, nil, "headers[1].key",
       "headers[1].key: wrong kind of value"],
      [SLEEP, '{"wakeUpTime":-1}', :out_of_range, nil, "wakeUpTime", "wakeUpTime: out of range"],
      ["Value", '{"content":"a"}', :not_base64, nil, "content", "content: not base64"]
    ].each do |schema, json, reason, offset, path, why|
      text = "from_json: JSON of #{json.bytesize} bytes: #{why}"
      error = assert_error(Pendratsoa::JsonError, text) { Pendratsoa.from_json(schema, json) }
      offset ? assert_equal(offset, error.offset) : assert_nil(error.offset)
      assert_equal [reason, path, "from_json", :json, json],
                   [error.reason, error.path, error.call, error.argument, error.value]
    end
    error = assert_raises(Pendratsoa::JsonError) { Pendratsoa.from_json("Future", deep) }
    assert_equal :too_deep, error.reason
    assert_operator error.message.length, :<, 5000
  end

  def test_messages
    message = Pendratsoa::Message.from_json("ProposeRunCompletion", '{"resultCompletionId":1,"value":"eA=="}')
    assert_equal [8, CODES[:propose_run_completion], unhex("0801720178"), true], message.to_a
    assert_equal message, Pendratsoa::Message.from_json(message.code, message.json)
    assert_equal unhex("0a0101"), Pendratsoa::Message.from_json(1, { waitingCompletions: [1] }, version: 6).payload
    assert_raises(Pendratsoa::JsonError) { Pendratsoa::Message.from_json(1, { waitingCompletions: [1] }, version: 8) }
    assert_raises(Pendratsoa::Unknown) { Pendratsoa::Message.from_json(CODES[:custom_entry], "{}") }
    assert_raises(Pendratsoa::Unknown) { Pendratsoa::Message.from_json("Sleep", "{}") }
    assert_raises(Pendratsoa::Unknown) { Pendratsoa::Message.from_json(1, "{}", version: 4) }
    [nil, 5, [1], :"{}"].each { |json| assert_raises(TypeError) { Pendratsoa::Message.from_json(1, json) } }
    circular = {}
    circular["value"] = circular
    assert_raises(JSON::NestingError) { Pendratsoa::Message.from_json(0x0400, circular) }
  end
end

class TestNotifications < Minitest::Test
  def test_each_id_and_result
    ids = {
      "0802" => [:completion_id, 2], "1011" => [:signal_id, 17], "1a00" => [:signal_name, ""],
      "1a0361c3a9" => [:signal_name, "a\u00e9"], "0800" => [:completion_id, 0]
    }
    results = {
      "2200" => [:void, ""], "2a030a0178" => [:value, unhex("0a0178")], "3203088500" => [:failure, unhex("0805")],
      "82010469c3a976" => [:invocation_id, "i\u00e9v"], "8a01030a0161" => [:state_keys, unhex("0a0161")]
    }
    ids.to_a.product(results.to_a).each do |(id_digits, id), (result_digits, result)|
      found = Pendratsoa.notification(CODES[:signal], unhex(id_digits + result_digits))
      assert_equal Pendratsoa::Notification.new(*id, *result), found
      assert_equal found.result_kind == :invocation_id ? Encoding::UTF_8 : Encoding::BINARY, found.result.encoding
      assert Ractor.shareable?(found)
    end
  end

  def test_of_a_message
    message = Pendratsoa::Message.new(8, CODES[:call_completion], unhex("08022a040a026869"))
    assert_predicate message, :notification?
    assert_equal [:completion_id, 2, :value, unhex("0a026869")], message.notification.to_a
  end

  def test_without_id_or_result
    result = unhex("2200")
    id = unhex("1011")
    assert_error(Pendratsoa::NoId, "notification: payload of 2 bytes has no id") do
      Pendratsoa.notification(CODES[:signal], result)
    end
    assert_error(Pendratsoa::NoResult, "notification: payload of 2 bytes has an id, and no result") do
      Pendratsoa.notification(CODES[:signal], id)
    end
  end
end

class TestComparisons < Minitest::Test
  FIRST, SECOND = %w[0a01611a030a0131 0a01611a030a0132].map { |digits| [digits].pack("H*") }

  def test_commands
    assert Pendratsoa.header_eq?(CODES[:set_state], FIRST, FIRST)
    refute Pendratsoa.header_eq?(CODES[:set_state], FIRST, SECOND)
    assert Pendratsoa.header_eq?(CODES[:set_state], FIRST, SECOND, ignore_payloads: true)
    refute Pendratsoa.header_eq?(CODES[:set_state], FIRST, SECOND, ignore_payloads: nil)
    assert_equal "\n   value: '1' != '2'", Pendratsoa.difference(CODES[:set_state], FIRST, SECOND)
    assert_equal "", Pendratsoa.difference(CODES[:set_state], FIRST, FIRST)
  end

  def test_a_difference_is_utf8
    text = Pendratsoa.difference(CODES[:set_state], "\n\x02\xc3\xa9", "")
    assert_equal "\n   key: '\u00e9' != ''", text
    assert_equal [Encoding::UTF_8, true], [text.encoding, text.valid_encoding?]
  end

  def test_journals
    recorded, replayed = %w[recorded replayed_other_payload].map { |name| read("examples/streams/#{name}") }
    verdict = Pendratsoa.compare_journals(8, recorded, replayed)
    assert_equal [:header_mismatch, 1], [verdict.kind, verdict.index]
    assert verdict.text.end_with?("\n   value: '1' != '2'")
    assert_equal Pendratsoa::Verdict.new(:same, 4, ""),
                 Pendratsoa.compare_journals(8, recorded, replayed, ignore_payloads: true)
    assert_equal [:recorded_ended, 0, ""], Pendratsoa.compare_journals(8, "", recorded).to_a
    assert_equal [:replayed_ended, 0, ""], Pendratsoa.compare_journals(8, recorded, "").to_a
  end
end
