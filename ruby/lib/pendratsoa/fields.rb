# frozen_string_literal: true

module Pendratsoa
  # Records and the table of fields: a record is read from the fields that the library finds in a payload, and written
  # as those of which the library makes one. Nothing is known here of how a payload is encoded.
  module Fields
    # How many numbers an entry has, and how many entries there is room for at first.
    NUMBERS = FIELD_NUMBERS
    ENTRIES = 64
    NOT_CANONICAL = ERRORS.find { |_, (name, _)| name == :NotCanonical }.first
    U64 = (0...(1 << 64))

    # The kinds of fields, by the numbers of the library.
    module Kinds
      BOOL, ENUM, TEXT, BYTES, MESSAGE = %i[field_bool field_enum field_string field_bytes field_message].map do |name|
        FIELD_KINDS.index(name)
      end
    end

    # The numbers of the entries of a payload, and the payload that they are places in: it, or its canonical encoding.
    def self.of(schema, bytes)
      count, numbers = read(schema, bytes, ENTRIES)
      if count == NOT_CANONICAL
        bytes = Pendratsoa.canonical(schema, bytes)
        count, numbers = read(schema, bytes, ENTRIES)
      end
      _, numbers = read(schema, bytes, count) if count > ENTRIES
      raise Call.new("decode", schema: schema, payload: bytes).refused(count) if count.negative?

      [numbers, bytes]
    end

    def self.read(schema, bytes, entries)
      # a String is memory that needs not be freed; only it has what a call writes
      room = String.new(capacity: 8 * NUMBERS * entries)
      count = Library.call(:journal_fields, schema, bytes, bytes.bytesize, room, entries)
      return [count, []] unless count.positive?

      [count, Fiddle::Pointer[room][0, 8 * NUMBERS * [count, entries].min].unpack("Q*")]
    end
    private_class_method :read

    # What leads to the last entry of a table, as "value.content".
    def self.path(record, numbers)
      records = [record]
      counts = [Hash.new(0)]
      names = []
      numbers.each_slice(NUMBERS) do |level, number, kind|
        records = records.take(level + 1)
        counts = counts.take(level + 1)
        row = records.last.by_number.fetch(number)
        name = (row.member || row.name).to_s
        name += "[#{counts.last[number]}]" if row.shape == :repeated
        counts.last[number] += 1
        names = [*names.take(level), name]
        next unless kind == Kinds::MESSAGE

        records << row.held
        counts << Hash.new(0)
      end
      names.join(".")
    end

    # Reads records from the entries of a payload.
    # @private
    class Reader
      def initialize(numbers, bytes)
        @numbers = numbers
        @bytes = bytes
        @at = 0
      end

      # The record of the entries of a level, from the next one on.
      def record(record, level)
        fields = record.defaults.dup
        by_number = record.by_number
        lists = nil
        while @numbers[@at] == level
          _, number, _, value, offset, length = @numbers[@at, NUMBERS]
          @at += NUMBERS
          row = by_number[number] || raise(unknown(record, number))
          found = value(row, value, offset, length, level)
          if row.shape == :repeated
            list = (lists ||= {})[row.name] ||= []
            list << found
          else
            fields[row.name] = row.is_wrapped ? row.member_held.new(found) : found
          end
        end
        lists&.each { |name, values| fields[name] = values.freeze }
        record.of_values(fields.values)
      end

      private

      def value(row, value, offset, length, level)
        case row.kind
        when Kinds::BYTES then @bytes.byteslice(offset, length).freeze
        when Kinds::TEXT then @bytes.byteslice(offset, length).force_encoding(Encoding::UTF_8).freeze
        when Kinds::MESSAGE then record(row.held, level + 1)
        when Kinds::BOOL then value != 0
        when Kinds::ENUM
          signed = value >= 1 << 63 ? value - (1 << 64) : value
          row.held.key(signed) || signed
        else value
        end
      end

      def unknown(record, number)
        Call.new("decode").unexpected("the field #{number} of #{record.name.split("::").last}")
      end
    end

    # The table of a record, and the bytes that its entries are places in.
    # @private
    class Writer
      def initialize(record)
        @record = record
        @numbers = []
        @bytes = String.new
      end

      def payload(record)
        fields(record, 0)
        # pack would cut a number that has not 64 bits
        least, greatest = @numbers.minmax
        raise FieldError.of(path, :out_of_range) if least && (least.negative? || greatest >= U64.end)

        call = Call.new("encode", payload: @bytes)
        found = nil
        kind, index = Library.numbers(WRITING_NUMBERS) do |room|
          table = @numbers.pack("Q*"), @numbers.length / NUMBERS
          parameters = @record::SCHEMA, *table, @bytes, @bytes.bytesize, room, WRITING_NUMBERS
          found = call.written(:journal_payload_of_fields, parameters, 256 + @bytes.bytesize)
        end
        reason = call.kind([nil, *FIELD_REASONS], kind, "table")
        return found unless reason

        raise FieldError.of(Fields.path(@record, @numbers[0, NUMBERS * (index + 1)]), reason)
      end

      private

      def fields(record, level)
        values = record.to_h
        record.class.entries.each do |name, row|
          value = values[name]
          next if value.nil?

          if row.is_a?(Array)
            member(row, value, level)
          elsif row.shape == :repeated
            wrong(row, level, value, "an Array") unless value.is_a?(Array)
            value.each { |element| value(row, element, level) }
          else
            value(row, value, level)
          end
        end
      end

      def member(rows, value, level)
        row = rows.find { |candidate| of_member?(candidate, value) }
        wrong(rows[0], level, value, "one of #{rows.map(&:member_class).join(", ")}", rows[0].name) unless row
        value(row, row.is_wrapped ? value.value : value, level)
      end

      def of_member?(row, value)
        row.member_class == :bool ? [true, false].include?(value) : value.is_a?(row.member_held)
      end

      def value(row, value, level)
        case row.kind
        when Kinds::MESSAGE
          record = row.held
          wrong(row, level, value, record) unless value.instance_of?(record)
          @numbers.push(level, row.number, row.kind, record::SCHEMA, 0, 0)
          fields(value, level + 1)
        when Kinds::BYTES, Kinds::TEXT
          wrong(row, level, value, "a String") unless value.is_a?(String)
          value = value.encode(Encoding::UTF_8) if row.kind == Kinds::TEXT && transcoded?(value)
          @numbers.push(level, row.number, row.kind, 0, @bytes.bytesize, value.bytesize)
          @bytes << value.b
        when Kinds::BOOL
          wrong(row, level, value, "true or false") unless [true, false].include?(value)
          @numbers.push(level, row.number, row.kind, value ? 1 : 0, 0, 0)
        else number(row, value, level)
        end
      end

      # Whether a text is in an encoding that is neither UTF-8 nor bytes.
      def transcoded?(value)
        ![Encoding::UTF_8, Encoding::BINARY, Encoding::US_ASCII].include?(value.encoding)
      end

      def number(row, value, level)
        found = row.kind == Kinds::ENUM && value.is_a?(Symbol) ? row.held[value] : value
        taken = row.holds ? "a name of #{row.holds} or an Integer" : "an Integer"
        wrong(row, level, value, taken) unless found.is_a?(Integer)
        # as the table has a negative number; one below or above any enum's is none of 64 bits, and is refused
        found += 1 << 64 if row.kind == Kinds::ENUM && (found.between?(-(1 << 63), -1) || found >= 1 << 63)
        @numbers.push(level, row.number, row.kind, found, 0, 0)
      end

      def wrong(row, level, value, wanted, name = nil)
        @numbers.push(level, row.number, row.kind, 0, 0, 0)
        where = Fields.path(@record, @numbers)
        where = [*where.split(".")[0...-1], name].join(".") if name
        raise TypeError, "encode: #{where} must be #{wanted}, not #{value.class}"
      end

      # What leads to the first number that is none of 64 bits.
      def path
        index = @numbers.index { |number| !U64.cover?(number) } / NUMBERS
        Fields.path(@record, @numbers[0, NUMBERS * (index + 1)])
      end
    end
  end
  private_constant :Fields
end
