# frozen_string_literal: true

module Pendratsoa
  # What the records of messages have: constants TYPE and CODE, and a frame.
  module MessageRecord
    # Its frame at a version: the header, and its canonical payload, at the field numbers of a numbering if one is
    # given. Unknown if it is not a record of the version.
    def frame(version = 8, numbering: nil)
      return Numbered.frame("frame", numbering, version, frame(version)) if numbering

      payload = encode
      type = self.class
      return Earlier.frame("frame", version, type::CODE, type::SCHEMA, payload) if type.const_defined?(:BEFORE_VERSION)

      Pendratsoa.frame(version, type::CODE, payload)
    end
    # of the compiled module, which has a `frame` of its own
    alias frame_in_ruby frame
    private :frame_in_ruby
  end

  # A member of a oneof where its class does not tell it apart: it holds a value.
  class Member
    include Frozen

    attr_reader :value

    # A class of its own for a member.
    def self.of
      Class.new(self)
    end

    def initialize(value)
      @value = value
      freeze
    end

    def ==(other)
      other.instance_of?(self.class) && other.value == value
    end

    def eql?(other)
      other.instance_of?(self.class) && other.value.eql?(value)
    end

    def hash
      [self.class, value].hash
    end

    def deconstruct
      [value]
    end

    def deconstruct_keys(_keys)
      { value: value }
    end

    def inspect
      "#<#{self.class} #{value.inspect}>"
    end

    private

    def marshal_dump
      [value]
    end

    # What Marshal loads is frozen too.
    def marshal_load(dumped)
      initialize(dumped.first.freeze)
    end
  end

  # What all records have. Each is a frozen class below this one, made with keywords: what is left out is absent, or
  # what the field is by default. A String of another encoding for a field of bytes becomes a binary one, with the same
  # bytes, so that a record equals the one that its payload is decoded to.
  #
  #     command = Pendratsoa::SetStateCommandMessage.new(key: "counter", value: Pendratsoa::Value.new(content: "1"))
  #     command.frame(8)
  #     command.with(name: "set") # as command, except its name
  #
  #     case message.message
  #     in Pendratsoa::SetStateCommandMessage[key:, value: { content: }] then ..
  #     end
  class Record
    include Frozen

    # A field: its name, or that of the oneof that it is a member of, its number, its kind, its shape, what it holds,
    # and of a member of a oneof its own name, its class, and whether that is made for it.
    Row = Struct.new(:name, :number, :kind, :shape, :holds, :member, :member_class, :is_wrapped) do
      # What it holds, which may be a class that comes later in the file.
      def held
        @held ||= Pendratsoa.const_get(holds)
      end

      # The class of the member, of Ruby itself or of this gem.
      def member_held
        @member_held ||= Pendratsoa.const_get(member_class)
      end
    end
    private_constant :Row

    class << self
      # The record that a payload means, in any encoding. Malformed if it is not well-formed.
      def decode(payload)
        bytes = Call.new("decode", payload: payload).data(:payload)
        numbers, bytes = Fields.of(self::SCHEMA, bytes)
        Fields::Reader.new(numbers, bytes).record(self, 0)
      end
      # of the compiled module, which has a `decode` of its own
      alias decode_in_ruby decode
      private :decode_in_ruby

      # A record of the values of its fields, in their order.
      def of_values(values)
        record = allocate
        record.instance_variable_set(:@values, values.freeze)
        record.freeze
      end

      # The names of its fields.
      attr_reader :members

      # What the table of fields has of it: rows by their numbers, by their names, and what each field is by default.
      attr_reader :by_number, :entries, :defaults

      # The places of the values that are bytes, lists of bytes, or a oneof with a member of bytes.
      attr_reader :places_of_bytes

      private

      def has(defaults, rows)
        @defaults = defaults.each_value(&:freeze).freeze
        @members = defaults.keys.freeze
        found = rows.map { |row| Row.new(*row) }
        @by_number = found.to_h { |row| [row.number, row] }.freeze
        @entries = found.group_by(&:name).transform_values { |of_name| of_name[0].member ? of_name : of_name[0] }.freeze
        bytes = found.select { |row| row.kind == Fields::Kinds::BYTES }
        @places_of_bytes = bytes.map { |row| @members.index(row.name) }.freeze
        @members.each_with_index do |name, place|
          class_eval "def #{name} = @values[#{place}]", __FILE__, __LINE__ # def key = @values[0]
        end
      end
    end

    def initialize(**fields)
      record = self.class
      values = record.defaults.merge(fields).values
      if values.length > record.members.length
        unknown = (fields.keys - record.members).map { |name| Shown.escaped(name.to_s) }
        raise ArgumentError, "#{record} has no field #{unknown.join(", ")}"
      end

      record.places_of_bytes.each do |place|
        value = values[place]
        case value
        when String then values[place] = value.b.freeze unless value.encoding == Encoding::BINARY
        when Array then values[place] = binary(value)
        end
      end
      @values = values.freeze
      freeze
    end

    # The same record with other values of these fields.
    def with(**fields)
      self.class.new(**to_h, **fields)
    end

    # Its canonical payload. A FieldError names the field that a value is wrong for; a value of another class is a
    # TypeError.
    def encode
      Fields::Writer.new(self.class).payload(self)
    end
    # of the compiled module, which has an `encode` of its own
    alias encode_in_ruby encode
    private :encode_in_ruby

    # Its fields by their names.
    def to_h
      self.class.members.zip(@values).to_h
    end

    # What `case .. in` takes.
    def deconstruct_keys(_keys)
      to_h
    end

    def ==(other)
      other.instance_of?(self.class) && other.to_h == to_h
    end

    # As `hash` has it: 1 and 1.0 are two.
    def eql?(other)
      other.instance_of?(self.class) && other.to_h.eql?(to_h)
    end

    def hash
      [self.class, @values].hash
    end

    def inspect
      "#<#{[self.class, *to_h.map { |name, value| "#{name}: #{value.inspect}" }].join(" ")}>"
    end
    alias to_s inspect

    private

    def marshal_dump
      to_h
    end

    # What Marshal loads is frozen too, and so are its texts and lists, as those of what is decoded. A field that is not
    # there, as in what an earlier gem dumped, is what it is by default.
    def marshal_load(fields)
      fields.each_value { |value| value.is_a?(Array) ? value.each(&:freeze).freeze : value.freeze }
      initialize(**fields)
    end

    # A list with the same bytes in binary Strings. What is no String is left to `encode`, which rejects it.
    def binary(values)
      return values unless values.any? { |value| other_encoding?(value) }

      values.map { |value| other_encoding?(value) ? value.b.freeze : value }.freeze
    end

    # Whether a value is a String that is not binary.
    def other_encoding?(value)
      value.is_a?(String) && value.encoding != Encoding::BINARY
    end
  end
end
