# frozen_string_literal: true

module Pendratsoa
  # The calls of the library by their names in this gem. They are those of the compiled module, where it is in use,
  # which has a `call` of its own, and otherwise made here, by Fiddle. What they take, and what is wrong with it, is one
  # list for both.
  module Named
    NAMED_CALLS.each_with_index { |call, place| const_set(call.function.name.delete_prefix("journal_").upcase, place) }

    # The call at a place of the list, by a name, with its arguments: a number or the bytes that it writes, or an array
    # of that, of the numbers that it writes, and of a String of those that it is given and changes.
    def self.call(place, name, *given)
      row = NAMED_CALLS[place]
      call = request(place, name, given)
      values = call.checked
      struct = row.given.zero? ? "" : values.pop
      result = numbers = nil
      changed = Library.bytes(struct) do |room|
        numbers = Library.numbers(row.numbers) do |out|
          result = made(row, call, values, [[room, row.given], [out, row.numbers]])
        end
      end
      return result if row.numbers.zero?

      row.changes ? [result, *numbers, changed] : [result, *numbers]
    end
    # of the compiled module, which has a `call` of its own
    singleton_class.alias_method :call_by_fiddle, :call
    private_class_method :call_by_fiddle

    # What a call returns, or the bytes that it writes, with its checked arguments and its structs of numbers.
    def self.made(row, call, values, structs)
      given = values.zip(row.takes)
      parameters = given.flat_map { |value, name| parameters_of(row, name, value) }
      structs.each { |struct, count| parameters.push(struct, count) if count.positive? }
      return call.returned(Library.call(row.function, *parameters)) if row.unit.zero?

      # what is written is as long as what is read but a table
      read = given.sum { |value, name| value.is_a?(String) && name != :table ? value.bytesize : 0 }
      call.written(row.function, parameters, row.more + (row.times * read), row.unit)
    end
    private_class_method :made

    # A checked argument as parameters of C: a String is two, and so is a table of entries.
    def self.parameters_of(row, name, value)
      return [value] unless value.is_a?(String)

      [value, name == :table ? value.bytesize / row.entry : value.bytesize]
    end
    private_class_method :parameters_of

    # A call with its arguments by their names.
    def self.request(place, name, given)
      row = NAMED_CALLS[place]
      Call.new(name, **row.takes.zip(given).to_h)
    end
    private_class_method :request

    # The arguments of a call as the library takes them; raises what is wrong with one.
    def self.checked(place, name, given)
      request(place, name, given).checked
    end

    # Raises the error of a negative number that a call returned.
    def self.refused(place, name, given, number)
      raise request(place, name, given).refused(number)
    end
  end
  private_constant :Named
end
