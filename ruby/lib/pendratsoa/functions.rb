# frozen_string_literal: true

# The calls that take numbers, names and payloads.
module Pendratsoa
  # How many schemas there are; their numbers begin at 0.
  SCHEMAS = SCHEMA_NAMES.length

  # The id and the result of a notification.
  #
  # The kind of the id is one of ID_KINDS, and the id a number, or the name of a signal in UTF-8. The kind of the result
  # is one of RESULT_KINDS, and the result the canonical payload of a `Value`, a `Failure` or `StateKeys`, or the text
  # of an invocation id in UTF-8; of a void it is empty.
  Notification = Struct.new(:id_kind, :id, :result_kind, :result) do
    include FrozenStruct

    def initialize(*)
      super
      freeze
    end
  end

  # How two journals compare: one of VERDICT_KINDS, the index of the first command that differs, or the number of
  # commands if none does, and the text of a mismatch, which is empty without one.
  Verdict = Struct.new(:kind, :index, :text) do
    include FrozenStruct

    def initialize(*)
      super
      freeze
    end
  end

  class << self
    # The version of the library, as "0.3.0".
    def library_version
      Named.call(Named::LIBRARY_VERSION, "library_version").force_encoding(Encoding::UTF_8)
    end

    # The number of the schema that payloads of a type have at a version.
    #
    # Unknown if there is no such version, or the code is not that of a named type: a custom entry has no schema.
    def schema(version, code)
      Named.call(Named::SCHEMA, "schema", version, code)
    end

    # The name of the type that has a code, as "SleepCommand", or "CustomEntry(64513)". Unknown if no type has it.
    def type_name(code)
      Named.call(Named::TYPE_NAME, "type_name", code).force_encoding(Encoding::UTF_8)
    end

    # The code of the named type that has a name, as "SleepCommand". Unknown if none has it.
    def type_code(name)
      Named.call(Named::TYPE_CODE, "type_code", name)
    end

    # The eight bytes before a payload of a length in bytes.
    #
    # Unknown if there is no such version or type, TooLong for a length of more than 4,294,967,295, and an ArgumentError
    # for one below 0.
    def header(version, code, payload_length)
      Named.call(Named::HEADER, "header", version, code, payload_length)
    end

    # The frame, at a version, of the message that a payload means: its header, and the canonical payload after it, at
    # the field numbers of a numbering if one is given.
    #
    # Unknown if there is no such version, or the code is not that of a named type; Malformed, TooLong, OutOfMemory.
    def frame(version, code, payload, numbering: nil)
      Numbered.frame("frame", numbering, version, Named.call(Named::FRAME, "frame", version, code, payload))
    end

    # Appends the frame that `frame` returns to a binary String, which it returns. The errors are those of `frame`;
    # after one of them the String is as it was.
    def append_frame(out, version, code, payload, numbering: nil)
      raise TypeError, "append_frame: out must be a String, not #{out.class}" unless out.is_a?(String)

      frame = Named.call(Named::FRAME, "append_frame", version, code, payload)
      out << Numbered.frame("append_frame", numbering, version, frame)
    end

    # Whether a payload is well-formed for a schema. Unknown if there is no such schema.
    def well_formed?(schema, payload)
      Named.call(Named::IS_WELL_FORMED, "well_formed?", schema, payload) == 1
    end

    # The canonical encoding of what a payload means.
    #
    # Unknown if there is no such schema; Malformed, TooLong, OutOfMemory.
    def canonical(schema, payload)
      Named.call(Named::CANONICAL, "canonical", schema, payload)
    end

    # The canonical payload of the second payload merged into the first, as protobuf merges messages.
    #
    # Unknown if there is no such schema; Malformed, TooLong, OutOfMemory.
    def merge(schema, first, second)
      Named.call(Named::MERGE, "merge", schema, first, second)
    end

    # The JSON of what a payload means, in protobuf's own form, as a text.
    #
    # Unknown if there is no such schema; Malformed, TooLong, OutOfMemory.
    def to_json(schema, payload)
      Named.call(Named::JSON, "to_json", schema, payload).force_encoding(Encoding::UTF_8)
    end

    # The canonical payload of what a JSON text means, which is in protobuf's own form.
    #
    # JsonError if it means no value of the schema; Unknown if there is no such schema; TooLong, OutOfMemory.
    def from_json(schema, json)
      found, kind, offset = Named.call(Named::PAYLOAD_OF_JSON, "from_json", schema, json)
      return found if kind.zero?

      call = Call.new("from_json", schema: schema, json: json)
      reason = call.kind([nil, *JSON_REASONS], kind, "JSON text")
      raise call.not_taken(reason, offset, found.force_encoding(Encoding::UTF_8).freeze)
    end

    # The id and the result of a notification.
    #
    # Unknown if the code is not that of a notification; Malformed, NoId, NoResult, TooLong, OutOfMemory.
    def notification(code, payload)
      found, id_kind, number, name_length, result_kind =
        Named.call(Named::NOTIFICATION, "notification", code, payload)
      call = Call.new("notification", code: code, payload: payload)
      id_kind = call.kind(ID_KINDS, id_kind, "id")
      result_kind = call.kind(RESULT_KINDS, result_kind, "result")
      name = found.byteslice(0, name_length).force_encoding(Encoding::UTF_8)
      result = found.byteslice(name_length..)
      result.force_encoding(Encoding::UTF_8) if result_kind == :invocation_id
      Notification.new(id_kind, id_kind == :signal_name ? name.freeze : number, result_kind, result.freeze)
    end

    # Whether two commands of a type are the same for a replay; `ignore_payloads` leaves the content of user data out of
    # the comparison, but not that of a signal.
    #
    # Unknown if the code is not that of a command; Malformed, OutOfMemory.
    def header_eq?(code, first, second, ignore_payloads: false)
      Named.call(Named::HEADER_EQ, "header_eq?", code, first, second, ignore_payloads) == 1
    end

    # A line for each printed field in which two commands of a type differ, each after a line feed; empty if none does.
    #
    # Unknown if the code is not that of a command; Malformed, OutOfMemory.
    def difference(code, first, second)
      Named.call(Named::DIFFERENCE, "difference", code, first, second).force_encoding(Encoding::UTF_8)
    end

    # Compares a recorded journal with a replayed one, both streams of a version, command by command.
    #
    # Other items, custom entries among them, and trailing bytes are skipped. Unknown if there is no
    # such version; OutOfMemory.
    def compare_journals(version, recorded, replayed, ignore_payloads: false)
      text, kind, index =
        Named.call(Named::VERDICT, "compare_journals", version, recorded, replayed, ignore_payloads)
      call = Call.new("compare_journals", version: version, recorded: recorded, replayed: replayed)
      text.force_encoding(Encoding::UTF_8).freeze
      Verdict.new(call.kind(VERDICT_KINDS, kind, "verdict"), index, text)
    end
  end
end
