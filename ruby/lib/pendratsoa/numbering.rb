# frozen_string_literal: true

module Pendratsoa
  # The field numbers of a runtime's own .proto file, by a descriptor set of it.
  #
  #     numbering = Pendratsoa::Numbering.load("set.binpb")
  #     Pendratsoa::Stream.read(file, version: 8, numbering: numbering) { |item| puts item }
  #
  # `protoc --include_imports -o set.binpb FILE.proto` writes a set. Messages and fields are found by their names.
  # `renames` has the messages with other names there, as `{ "Fetch" => "GetLazyStateCommandMessage" }`. A field that
  # only the set has is left out in reading, and one that only the protocol has in writing. Headers and the codes of
  # types are the same. A NumberingError reports why there is none.
  #
  # It is frozen, and any thread may use it.
  class Numbering
    include Frozen

    # Which argument is wrong, if no numbering comes of them.
    WRONG = { no_set: :descriptor_set, no_rename: :renames }.freeze

    # How many bytes an entry of a table has.
    ENTRY = 8 * RENUMBERING_NUMBERS
    private_constant :WRONG, :ENTRY

    # The numbering of a set in a file.
    def self.load(path, renames: {})
      new(File.binread(path), renames: renames)
    end

    # The numbering of a set in a String.
    def initialize(descriptor_set, renames: {})
      call = Call.new("Numbering", descriptor_set: descriptor_set, renames: renames)
      make(call, [call.data(:descriptor_set), lines(call, renames)])
    end

    # The list of fields: which are the same, renumbered, only there, only here, or of another kind.
    def to_s
      @text
    end

    # A payload at the field numbers of the set, at the protocol's own numbers. If it is canonical there, it is
    # canonical here. A field that only the set has is left out. Unknown if there is no such schema; Malformed, TooLong,
    # OutOfMemory.
    def read_payload(schema, payload)
      renumbered("read_payload", @reading, schema, payload)
    end

    # A payload at the protocol's own field numbers, at the numbers of the set. If it is canonical here, it is canonical
    # there. A field that the set has not is left out. Unknown if there is no such schema; Malformed, TooLong,
    # OutOfMemory.
    def write_payload(schema, payload)
      renumbered("write_payload", @writing, schema, payload)
    end

    # A stream at the field numbers of the set, at the protocol's own numbers.
    #
    # Of a message only the payload and its length change. Custom entries, other items and trailing bytes are copied.
    # Unknown if there is no such version; Malformed, which names the message; TooLong, OutOfMemory.
    def read_stream(version, stream)
      stream_at("read_stream", @reading, version, stream)
    end

    # A stream at the protocol's own field numbers, at the numbers of the set; all else is as in `read_stream`.
    def write_stream(version, stream)
      stream_at("write_stream", @writing, version, stream)
    end

    # A stream at the field numbers of the set as JSON, as `journal dump --schema` prints it: an object on one line for
    # each item, and a last one for the trailing bytes. It has all fields that the set has. Unknown if there is no such
    # version; TooLong, OutOfMemory.
    def dump(version, stream)
      Named.call(Named::NUMBERING_DUMP, "dump", version, *@given, stream).force_encoding(Encoding::UTF_8)
    end

    def inspect
      "#<#{self.class} of #{@reading.bytesize / ENTRY} fields>"
    end

    private

    # Makes the tables of a set and renames, as lines.
    def make(call, given)
      @given = given.freeze
      text, kind = Named.call(Named::NUMBERING_TEXT, "Numbering", *given)
      @text = text.force_encoding(Encoding::UTF_8).scrub.freeze
      reason = call.kind(LIST_KINDS, kind, "numbering")
      raise no_numbering(call, reason, @text) if NUMBERING_REASONS.include?(reason)

      @reading, @writing = %i[reading writing].map do |direction|
        Named.call(Named::NUMBERING, "Numbering", NUMBERING_DIRECTIONS.index(direction), *given).freeze
      end
      freeze
    end

    def marshal_dump
      @given
    end

    # What Marshal loads is made again, since the tables are those of one library, and is frozen too.
    def marshal_load(given)
      set, renames = given.each(&:freeze)
      make(Call.new("Numbering", descriptor_set: set, renames: renames), given)
    end

    # Renames as lines.
    def lines(call, renames)
      raise TypeError, "Numbering: renames must be a Hash, not #{renames.class}" unless renames.is_a?(Hash)

      renames.map { |names| "#{names.map { |name| name_of(call, name) }.join("=")}\n" }.join.b.freeze
    end

    # The name of a message in renames.
    def name_of(call, name)
      text = name.is_a?(Symbol) ? name.name : name
      raise TypeError, "Numbering: a name in renames must be a String, not #{name.class}" unless text.is_a?(String)
      return text.b unless text.b.match?(/[=\n]/)

      raise no_numbering(call, :no_rename, "#{Shown.quoted(text)} is not the name of a message")
    end

    # The error that no numbering comes of a set and renames: which of them has a fault, and the fault.
    def no_numbering(call, reason, text)
      wrong = WRONG.fetch(reason)
      said = "#{wrong.name.tr("_", " ")}: #{Shown.escaped(text)}"
      call.error(NumberingError, said, wrong, reason: reason, text: text)
    end

    def renumbered(name, table, schema, payload)
      number = Call.new(name, schema: schema).known_schema(:schema)
      Named.call(Named::RENUMBER, name, number, table, payload)
    end

    def stream_at(name, table, version, stream)
      Named.call(Named::RENUMBER_STREAM, name, version, table, stream)
    rescue Malformed
      check(name, table, Stream.new(version: version).feed(stream))
      raise
    end

    # Raises the error of the first message whose payload cannot be written at other field numbers.
    def check(name, table, stream)
      stream.each do |item|
        Numbered.payload(name, item) { |schema, payload| Named.call(Named::RENUMBER, name, schema, table, payload) }
      end
    end
  end
end
