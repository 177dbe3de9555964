# frozen_string_literal: true

require "rbconfig"

module Pendratsoa
  # The compiled module, where it is there for this Ruby: it makes all calls of the library, reads and writes records,
  # and takes items from streams. Where it is not, since there was no compiler or it is of another Ruby, or where
  # PENDRATSOA_PURE is set, all of it is done in Ruby, by Fiddle. The first call loads the library, whose functions the
  # module takes by their addresses.
  module Compiled
    FILE = File.join(__dir__, RbConfig::CONFIG.fetch("ruby_version"), "compiled.so")
    SHAPES = %i[plain optional repeated member].freeze

    # The records, as the module takes them.
    def self.records
      addresses = Library.record_writers
      RECORDS.zip(addresses).map do |record, address|
        code = record < MessageRecord ? record::CODE : -1
        [record, code, record.defaults.values.freeze, record.entries.values.flatten.map { |row| row_of(row) }, address]
      end
    end

    def self.row_of(row)
      held = row.holds && row.held
      names = held.invert.freeze if held.is_a?(Hash)
      schema = held.is_a?(Class) ? held::SCHEMA : -1
      member = row.member_held if row.member && row.member_class != :bool
      shape = SHAPES.index(row.shape)
      [row.number, row.kind, shape, row.name, schema, names, names && held, member, row.is_wrapped ? true : false]
    end
    private_class_method :row_of

    # Whether the module is there, and is to be used.
    def self.load
      return false unless ENV.fetch("PENDRATSOA_PURE", "").empty? && File.exist?(FILE)

      require FILE
      true
    rescue LoadError
      false
    end

    # Gives it the functions of the library, once that is loaded, and what else it takes; later other functions.
    def self.start(functions)
      return unless COMPILED

      addresses = CALLS.each_key.map { |name| functions.fetch(name).to_i }
      return point(addresses) if @is_started

      use(addresses, records, [Message, UnknownCode, Skipped], SCHEMA_NAMES.each_with_index.to_h.freeze)
      @is_started = true
    end

    # What comes of a stream and is in no item yet.
    def self.pending(version, limit)
      (COMPILED ? self::Pending : Pendratsoa.const_get(:Pending)).new(version, limit)
    end
  end
  private_constant :Compiled

  # Whether the compiled module makes the calls.
  COMPILED = Compiled.load
end
