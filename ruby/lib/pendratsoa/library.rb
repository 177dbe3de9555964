# frozen_string_literal: true

require "fiddle"

module Pendratsoa
  # The shared library: where it is found, and its functions. The first call loads it, so that the gem can be required,
  # and its pages made, where there is none.
  module Library
    # The library that is copied into this gem, and the name by which the system finds another.
    BUNDLED = File.join(__dir__, "libpendratsoa.so")
    SONAME = "libpendratsoa.so.0"

    # What each word of a call's parameters is for Fiddle.
    TYPES = {
      u16: [-Fiddle::TYPE_SHORT],
      u32: [-Fiddle::TYPE_INT],
      slice: [Fiddle::TYPE_VOIDP, Fiddle::TYPE_SIZE_T]
    }.freeze

    # The functions with their parameters.
    PARAMETERS = CALLS.transform_values { |words| words.flat_map { |word| TYPES.fetch(word) } }.freeze

    # Where a library comes from.
    SOURCES = "the gem of a release has one, 'make ruby' in a clone copies one into it, and PENDRATSOA_LIBRARY names " \
              "its file"
    LOCK = Mutex.new
    private_constant :LOCK

    # The file that PENDRATSOA_LIBRARY names, or else that of this gem, or else the name that the system knows.
    def self.find
      named = ENV.fetch("PENDRATSOA_LIBRARY", "")
      return named unless named.empty?

      File.exist?(BUNDLED) ? BUNDLED : SONAME
    end

    # The functions of the library of a name. A LoadError if it is not there, or lacks a function.
    #
    # A call holds the interpreter's lock, so that no other thread changes the bytes that it reads.
    def self.load(name)
      handle = Fiddle.dlopen(name)
      PARAMETERS.to_h do |function, parameters|
        [function, Fiddle::Function.new(handle[function.to_s], parameters, Fiddle::TYPE_LONG_LONG, need_gvl: true)]
      end.freeze
    rescue Fiddle::DLError => error
      raise LoadError, "pendratsoa: the library #{name} cannot be used: #{error.message}; #{SOURCES}"
    end

    # The addresses of the functions that write the records as structs, by their schemas; 0 if there is none.
    def self.record_writers
      handle = Fiddle.dlopen(find)
      SCHEMA_NAMES.map { |name| address_of(handle, "journal_encode_#{name}") }
    end

    # The address of a function, or 0.
    def self.address_of(handle, name)
      handle[name]
    rescue Fiddle::DLError
      0
    end
    private_class_method :address_of

    # The functions, which are loaded once. A LoadError if there is no library.
    def self.functions
      @functions || LOCK.synchronize { @functions ||= load(find).tap { |found| Compiled.start(found) } }
    end

    # What a function returns. Bytes are passed as a String or a pointer, and their number.
    def self.call(function, *parameters)
      functions.fetch(function).call(*parameters)
    end

    # Numbers of 64 bits that a function writes: yields room for a number of them, and returns them.
    def self.numbers(count, &)
      bytes("\0".b * (8 * count), &).unpack("Q*")
    end

    # Bytes that a function may change: yields a copy of them, and returns what they are then.
    def self.bytes(given)
      Fiddle::Pointer.malloc([given.bytesize, 1].max, Fiddle::RUBY_FREE) do |room|
        room[0, given.bytesize] = given unless given.empty?
        yield room
        room[0, given.bytesize]
      end
    end
  end
  private_constant :Library
end
