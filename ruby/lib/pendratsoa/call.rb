# frozen_string_literal: true

module Pendratsoa
  # One call by its name in this gem, with its arguments by their names. A method that takes the name of an argument
  # checks it, and returns what the library takes in its place.
  class Call
    IS_TOO_LONG = "is too long: more than 4,294,967,295 bytes"

    # What is wrong with a payload, which comes before these words.
    OF_PAYLOAD = {
      Malformed => "is malformed",
      NoId => "has no id",
      NoResult => "has an id, and no result",
      NotCanonical => "is not canonical",
      TooLong => IS_TOO_LONG
    }.freeze

    # What is wrong with a call.
    OF_CALL = {
      NoRoom => "not enough room",
      OutOfMemory => "out of memory",
      Unknown => "unknown, or not of the kind that the call is for"
    }.freeze

    # What each argument is that may be unknown, and which values are known.
    KNOWN = {
      version: ["protocol version", " (#{FIRST_VERSION} to #{LAST_VERSION})"],
      schema: ["schema", " (0 to #{SCHEMA_NAMES.length - 1})"],
      name: ["type", ""],
      code: ["code", ", or not of the kind that the call is for"]
    }.freeze

    # What checks each argument that is no String.
    CHECKS = { version: :version, code: :code, schema: :schema, payload_length: :length, index: :length,
               direction: :length, ignore_payloads: :flag }.freeze

    def initialize(name, **arguments)
      @name = name
      @arguments = arguments
    end

    # All arguments, as the library takes them.
    def checked
      @arguments.each_key.map { |argument| public_send(CHECKS.fetch(argument, :data), argument) }
    end

    # The number of a version.
    def version(argument = :version)
      unsigned(argument, 32)
    end

    # The code of a type.
    def code(argument)
      unsigned(argument, 16)
    end

    # The number of a schema, which may be given by the name of its record.
    def schema(argument)
      name = @arguments.fetch(argument)
      return unsigned(:schema, 32) unless name.is_a?(String)

      SCHEMA_NAMES.index(name) || raise(unknown(:schema))
    end

    # The number of a schema that this gem knows.
    def known_schema(argument)
      number = schema(argument)
      raise unknown(argument) if number >= SCHEMA_NAMES.length

      number
    end

    # The length of a payload in bytes.
    def length(argument)
      number = integer(argument)
      shown = Shown.value(number)
      raise ArgumentError, "#{@name}: #{argument} #{shown} is negative" if number.negative?
      return number if number < 1 << 32

      text = argument == :payload_length ? "payload of #{shown} bytes" : "#{argument} #{shown}"
      raise error(TooLong, "#{text} #{IS_TOO_LONG}", argument)
    end

    # Whether something is so, as a number.
    def flag(argument)
      @arguments.fetch(argument) ? 1 : 0
    end

    # Bytes. They are a frozen copy, which shares what is long: no thread can change it.
    def data(argument)
      value = @arguments.fetch(argument)
      raise TypeError, "#{@name}: #{argument} must be a String, not #{value.class}" unless value.is_a?(String)

      String.new(value).force_encoding(Encoding::BINARY).freeze
    end

    # What a function returns, if that is not an error.
    def returned(number)
      raise refused(number) if number.negative?

      number
    end

    # The bytes that a function writes, which has these parameters before them, into room that is tried first: for a
    # number of what has this unit of bytes.
    def written(function, parameters, room, unit = 1)
      loop do
        Fiddle::Pointer.malloc([unit * room, 1].max, Fiddle::RUBY_FREE) do |out|
          needed = returned(Library.call(function, *parameters, out, room))
          return out[0, unit * needed] if needed <= room

          room = needed
        end
      end
    end

    # The error of a rejected JSON text: the reason, the offset, and the path to the rejected value.
    def not_taken(reason, offset, path)
      size = Shown.byte_count(@arguments.fetch(:json).bytesize)
      where = "#{Shown.escaped(path)}: " unless path.empty?
      at = " at byte #{offset}" if reason == :not_json
      offset = nil unless at
      text = "JSON of #{size}: #{where}#{Shown.reason(reason)}#{at}"
      error(JsonError, text, :json, reason: reason, offset: offset, path: path)
    end

    # The error of a message that is longer than the limit of a stream.
    def message_too_long(code, offset, length, limit)
      what = "a message of type #{Shown.type_and_code(code)} at offset #{offset} has #{length} bytes"
      details = { call: @name, argument: :max_message_size, value: @arguments.fetch(:max_message_size) }
      MessageTooLong.new("#{what}, more than the limit of #{limit}",
                         code: code, length: length, limit: limit, offset: offset, **details)
    end

    # Raises the error of a number in place of an item: a negative one, or that of a kind of items that is not known.
    def no_item(number)
      kind(ITEM_KINDS, number, "item") unless number.negative?
      raise refused(number)
    end

    # The kind of a number among these. A later library may have further ones.
    def kind(kinds, number, what)
      raise unexpected("the kind of #{what} #{number}") unless number < kinds.length

      kinds[number]
    end

    # The error of a negative number. A later library may have further ones.
    def refused(number)
      name, arguments = ERRORS[number]
      kind = name && Pendratsoa.const_get(name)
      argument = arguments&.find { |candidate| @arguments.key?(candidate) }
      return unknown(argument) if kind == Unknown && argument
      return unexpected("the error #{number}") unless kind
      return error(kind, OF_CALL.fetch(kind)) if OF_CALL.key?(kind)

      error(kind, "#{payload_text(argument)} #{OF_PAYLOAD.fetch(kind)}", argument)
    end

    # The error that there is no such argument.
    def unknown(argument)
      value = @arguments.fetch(argument)
      name, known = KNOWN.fetch(argument)
      shown = case value
              when String then "#{Shown.quoted(value)}#{meant(argument, value)}"
              else "#{argument == :code ? Shown.code(value) : Shown.value(value)}#{known}"
              end
      error(Unknown, "unknown #{name} #{shown}", argument)
    end

    # An error of this call. Its text begins with the name of the call if it is about one of the arguments.
    def error(kind, text, argument = nil, **details)
      return kind.new(text, call: @name, **details) unless argument

      kind.new("#{@name}: #{text}", call: @name, argument: argument, value: @arguments.fetch(argument), **details)
    end

    # The error that a later library may return something new.
    def unexpected(what)
      error(Error, "the library returned #{what}, which this package does not know")
    end

    private

    # A payload as texts have it, by the name of the argument that it is, if that is known.
    def payload_text(argument)
      return "payload" unless argument

      size = Shown.byte_count(@arguments.fetch(argument).bytesize)
      "#{argument unless argument == :payload} payload of #{size}".lstrip
    end

    # The question whether another name was meant: that of a type's record in place of the type's, or the reverse.
    def meant(argument, name)
      of_schema = argument == :schema
      other = of_schema ? "#{name}Message" : name.b.partition("Message").first
      "; did you mean #{Shown.quoted(other)}?" if other != name && SCHEMA_NAMES.include?(of_schema ? other : name)
    end

    def integer(argument)
      value = @arguments.fetch(argument)
      raise TypeError, "#{@name}: #{argument} must be an Integer, not #{value.class}" unless value.is_a?(Integer)

      value
    end

    # A number that fits its parameter; Fiddle would cut another.
    def unsigned(argument, bits)
      number = integer(argument)
      raise unknown(argument) unless (0...(1 << bits)).cover?(number)

      number
    end
  end
  private_constant :Call
end
