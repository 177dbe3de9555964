# frozen_string_literal: true

module Pendratsoa
  # Values as texts show them: of what is long, its beginning.
  module Shown
    # Why a JSON text or a field is rejected, where that is not the name of the reason.
    REASONS = { not_json: "not JSON", not_utf8: "not UTF-8", several_members: "several members of a oneof",
                wrong_kind: "wrong kind of value" }.freeze

    # What ends a line, a terminal takes as a command, or turns the text after it around.
    CONTROLS = /[\u0000-\u001f\u007f-\u009f\u2028-\u202e\u2066-\u2069]/

    # How many characters of a name are shown.
    MOST_SHOWN = 64

    # A text from outside, as texts of errors have it: on one line, and with no command for a terminal.
    def self.escaped(text)
      text.b.force_encoding(Encoding::UTF_8).scrub.gsub(CONTROLS) { |control| format("\\u%04x", control.ord) }
    end

    # A name from outside, in quotes, of a long one its beginning.
    def self.quoted(name)
      text = name.b.force_encoding(Encoding::UTF_8)
      "\"#{escaped(text[0, MOST_SHOWN])}\"#{".." if text.length > MOST_SHOWN}"
    end

    # Why a JSON text or a field is rejected.
    def self.reason(reason)
      REASONS.fetch(reason) { reason.name.tr("_", " ") }
    end

    # A value as `inspect` has it.
    def self.value(value)
      text = value.inspect
      text.length <= 80 ? text : "#{text[0, 77]}..."
    end

    # A number of bytes.
    def self.byte_count(count)
      count == 1 ? "1 byte" : "#{count} bytes"
    end

    # The bytes of a String as `inspect` has them; of more than 32 the first 16, and how many there are. No error shows
    # those of a payload, which may be a secret.
    def self.bytes(string)
      bytes = string.b
      return bytes.inspect if bytes.bytesize <= 32

      "#{bytes.byteslice(0, 16).inspect}... (#{bytes.bytesize} bytes)"
    end

    # The code of a type in hexadecimal digits.
    def self.code(code)
      (0...(1 << 64)).cover?(code) ? format("0x%04x", code) : value(code)
    end

    # The name of a type, or its code if no type has it.
    def self.type(code)
      Pendratsoa.type_name(code)
    rescue Unknown
      "code #{code(code)}"
    end

    # The name of a type and its code, or only the code if no type has it.
    def self.type_and_code(code)
      "#{Pendratsoa.type_name(code)} (#{code(code)})"
    rescue Unknown
      code(code)
    end
  end
  private_constant :Shown
end
