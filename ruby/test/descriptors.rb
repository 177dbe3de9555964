# frozen_string_literal: true

# Descriptor sets, as protoc writes them, of other field numbers, and what payloads are at these.
module Descriptors
  # The types of descriptor.proto, at the kinds of fields.
  TYPES = [nil, 13, 4, 8, 14, 9, 12, 11].freeze
  REPEATED = 3

  module_function

  # A number as a varint.
  def varint(number)
    bytes = []
    while number > 127
      bytes << ((number & 127) | 128)
      number >>= 7
    end
    [*bytes, number].pack("C*")
  end

  # The record of bytes, or of a number.
  def block(number, content)
    return varint(number << 3) + varint(content) if content.is_a?(Integer)

    varint((number << 3) | 2) + varint(content.bytesize) + content.b
  end

  # The descriptor of a field.
  def field(name, number, type, label: 1, type_name: nil, oneof: nil, optional: false)
    parts = [block(1, name), block(3, number), block(4, label), block(5, type)]
    parts << block(6, type_name) if type_name
    parts << block(9, oneof) if oneof
    parts << block(10, name.gsub(/_+(.)/) { Regexp.last_match(1).upcase })
    parts << block(17, 1) if optional
    block(2, parts.join)
  end

  # The descriptor of a message, of its fields and oneofs.
  def message(name, *parts)
    block(4, block(1, name) + parts.join)
  end

  # A set of one file of these messages.
  def set_of(*messages)
    block(1, [block(1, "a.proto"), block(2, "a"), *messages, block(12, "proto3")].join)
  end

  # The number that a field of the protocol has in the set of all messages.
  def renumbered(number)
    2000 - number
  end

  # The class of the record that a field holds, or nil.
  def record_of(row)
    held = row.holds && row.held
    held if held.is_a?(Class)
  end

  # The descriptor of a record's message at other numbers.
  def message_of(record)
    rows = record.by_number.values.sort_by { |row| -row.number }
    oneofs = rows.select { |row| row.shape == :member }.map { |row| row.name.to_s }.uniq
    # those of fields that may be absent come last
    oneofs += rows.select { |row| row.shape == :optional }.map { |row| "_#{row.name}" }
    fields = rows.map { |row| field_of(row, oneofs) }
    message(name_of(record), *fields, *oneofs.map { |oneof| block(8, block(1, oneof)) })
  end

  def name_of(record)
    record.name.delete_prefix("Pendratsoa::")
  end

  def field_of(row, oneofs)
    record = record_of(row)
    type_name = record ? ".a.#{name_of(record)}" : ".a.Enum" if row.holds
    oneof = { member: row.name.to_s, optional: "_#{row.name}" }[row.shape]
    field((row.member || row.name).to_s, renumbered(row.number), TYPES.fetch(row.kind),
          label: row.shape == :repeated ? REPEATED : 1, type_name: type_name,
          oneof: oneof && oneofs.index(oneof), optional: row.shape == :optional)
  end

  # The varint at the front of bytes, which is taken.
  def number_of(bytes)
    value = shift = 0
    loop do
      byte = bytes.shift
      value |= (byte & 127) << shift
      shift += 7
      return value if byte < 128
    end
  end

  # The number and the value of each record of a payload that has only varints and bytes.
  def records_of(payload)
    bytes = payload.bytes
    found = []
    until bytes.empty?
      key = number_of(bytes)
      value = number_of(bytes)
      found << [key >> 3, key & 7 == 2 ? bytes.shift(value).pack("C*") : value]
    end
    found
  end

  # A canonical payload of a record at the numbers of the set of all messages, in the order in which these come.
  def at_other_numbers(record, payload)
    found = records_of(payload).each_with_index.map do |(number, value), index|
      row = record.by_number.fetch(number)
      inner = record_of(row)
      value = at_other_numbers(inner, value) if inner
      # a oneof comes where the first of its members would
      others = record.by_number.values.select { |other| other.name == row.name }
      [others.map { |other| renumbered(other.number) }.min, index, block(renumbered(number), value)]
    end
    found.sort.map(&:last).join
  end

  # A state that is set, in another order, with a field that only this set has.
  SMALL = set_of(
    message("SetStateCommandMessage", field("extra", 9, 12), field("key", 4, 12), field("name", 1, 9),
            field("value", 2, 11, type_name: ".a.Value")),
    message("Value", field("content", 3, 12))
  ).freeze

  # Each message of the protocol, at other numbers.
  ALL = set_of(
    *Pendratsoa::RECORDS.map { |record| message_of(record) },
    block(5, block(1, "Enum") + block(2, block(1, "NONE") + block(2, 0)))
  ).freeze
end
