# frozen_string_literal: true

require_relative "helper"
require_relative "descriptors"

# Copies, and what Marshal loads: both are frozen, as what they are made of.
class TestMarshal < Minitest::Test
  # A class below an item, with a variable of its own.
  class Noted < Pendratsoa::Message
    attr_reader :note

    def initialize(*members, note:)
      @note = note
      super(*members)
    end
  end

  CALL = Pendratsoa::CallCommandMessage.new(
    service_name: +"Greeter", parameter: +"\xFF", headers: [Pendratsoa::Header.new(key: +"a", value: "b")]
  )
  FUTURE = Pendratsoa::Future.new(waiting_named_signals: [+"a", +"b"], nested_futures: [Pendratsoa::Future.new])

  ITEMS = [
    Pendratsoa::Message.new(8, CODES[:set_state], +"\n\x01a", true),
    Pendratsoa::Message.new(8, CODES[:set_state], "a", word: 0x0403_0000_0000_0001, offset: 17, received: +"b"),
    Pendratsoa::UnknownCode.new(8, 8, 8 << 48, offset: 3),
    Pendratsoa::Skipped.new(9, 8, (8 << 48) | 2, +"\u00e9", offset: 5)
  ].freeze

  FIELDS = [Pendratsoa::ChangedField.new("name", "'a'", +"'b'")].freeze

  VALUES = [
    *ITEMS,
    CALL,
    FUTURE,
    Pendratsoa::EndMessage.new,
    Pendratsoa::NotificationTemplate.new(id: Pendratsoa::NotificationTemplateSignalName.new(+"a")),
    Pendratsoa::Notification.new(:signal_name, +"a", :value, +"\n\x01b"),
    Pendratsoa::Verdict.new(:same, 2, +""),
    Pendratsoa::Mismatch.new(:header_mismatch, 1, 17, nil, +"text", FIELDS)
  ].freeze

  def loaded(value) = Marshal.load(Marshal.dump(value))

  def test_what_is_loaded
    VALUES.each do |value|
      found = loaded(value)
      assert_equal [value.class, value, value.hash], [found.class, found, found.hash]
      # all that it holds is frozen too
      assert Ractor.shareable?(found), value.class.name
    end
  end

  def test_copies
    VALUES.each do |value|
      [value.dup, value.clone, value.clone(freeze: false)].each do |copy|
        assert_predicate copy, :frozen?
        assert_equal value, copy
      end
    end
  end

  def test_what_items_have_in_variables
    ITEMS.zip(loaded(ITEMS)).each do |item, found|
      assert_equal [item.offset, item.word], [found.offset, found.word]
      assert_equal item.bytes, found.bytes if found.word
    end
    noted = loaded(Noted.new(8, CODES[:input], "", note: +"seen"))
    assert_equal [Noted, "seen", true], [noted.class, noted.note, Ractor.shareable?(noted)]
  end

  def test_encodings_are_kept
    assert_equal [Encoding::BINARY, "\xC3\xA9".b], [loaded(ITEMS.last).payload.encoding, loaded(ITEMS.last).payload]
    call = loaded(CALL)
    assert_equal [Encoding::UTF_8, Encoding::BINARY], [call.service_name.encoding, call.parameter.encoding]
  end

  def test_one_object_is_loaded_once
    first, second = loaded([FUTURE, FUTURE])
    assert_same first, second
    message, payload = loaded([ITEMS[0], ITEMS[0].payload])
    assert_same message.payload, payload
  end

  def test_a_field_that_is_of_no_record
    dumped = Marshal.dump(Pendratsoa::Value.new(content: "a")).sub("content", "another")
    assert_raises(ArgumentError) { Marshal.load(dumped) } # rubocop:disable Security/MarshalLoad
  end

  def test_a_numbering
    numbering = Pendratsoa::Numbering.new(Descriptors::SMALL, renames: {})
    schema = Pendratsoa::SetStateCommandMessage::SCHEMA
    payload = unhex("0a016e12031a0131220161")
    [loaded(numbering), numbering.dup].each do |found|
      assert_equal [numbering.to_s, true], [found.to_s, Ractor.shareable?(found)]
      assert_equal numbering.read_payload(schema, payload), found.read_payload(schema, payload)
    end
  end

  def test_what_goes_on_is_not_dumped
    [Pendratsoa::Stream.new, Pendratsoa::Replay.new(8, INPUT)].each do |one|
      assert_raises(TypeError) { Marshal.dump(one) }
    end
  end
end
