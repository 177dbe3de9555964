# frozen_string_literal: true

require_relative "helper"
require "minitest/mock"
require "rbconfig"
require "open3"

class TestArguments < Minitest::Test
  # Each function with arguments that are right, and what kind each of them is.
  CALLS = {
    schema: [[:version, 8], [:code, 0]],
    type_name: [[:code, 0]],
    type_code: [[:bytes, "Start"]],
    header: [[:version, 8], [:code, 0], [:length, 0]],
    frame: [[:version, 8], [:code, 0], [:bytes, ""]],
    well_formed?: [[:schema, 13], [:bytes, ""]],
    canonical: [[:schema, 13], [:bytes, ""]],
    merge: [[:schema, 13], [:bytes, ""], [:bytes, ""]],
    to_json: [[:schema, 13], [:bytes, ""]],
    from_json: [[:schema, 13], [:bytes, "{}"]],
    notification: [[:code, Helper::CODES[:signal]], [:bytes, "\x10\x11\x22\x00"]],
    header_eq?: [[:code, Helper::CODES[:call]], [:bytes, ""], [:bytes, ""]],
    difference: [[:code, Helper::CODES[:call]], [:bytes, ""], [:bytes, ""]],
    compare_journals: [[:version, 8], [:bytes, ""], [:bytes, ""]]
  }.freeze

  # Yields each call with one argument after the other replaced: the function, the arguments, and the kind of the one.
  def each_replaced(replacements)
    CALLS.each do |function, arguments|
      arguments.each_with_index do |(kind, _), index|
        replacements.fetch(kind, []).each do |value|
          yield -> { Pendratsoa.public_send(function, *arguments.map(&:last).tap { |all| all[index] = value }) }, kind
        end
      end
    end
  end

  def test_the_calls_are_right
    CALLS.each { |function, arguments| Pendratsoa.public_send(function, *arguments.map(&:last)) }
  end

  def test_values_of_another_kind
    nothing = [nil, true, 1.0, 8r, 8i, [8], { 8 => 8 }, :"8", 0..8, Float::INFINITY, Object.new, BasicObject]
    numbers = nothing + ["8".b]
    each_replaced(version: numbers, code: numbers, length: numbers, schema: nothing, bytes: nothing + [8]) do |call, _|
      assert_raises(TypeError, &call)
    end
  end

  def test_no_number_is_cut
    unsigned = [-1, 1 << 16, (1 << 32) + 8, 8 - (1 << 32), 1 << 64, -(1 << 63), 1 << 1000]
    each_replaced(version: unsigned, code: unsigned, schema: unsigned) do |call, kind|
      error = assert_raises(Pendratsoa::Unknown, &call)
      assert_equal kind, error.argument
      assert_operator error.message.length, :<, 150
    end
    each_replaced(length: [1 << 32, (1 << 32) + 8, 1 << 64, 1 << 1000]) do |call, _|
      assert_operator assert_raises(Pendratsoa::TooLong, &call).message.length, :<, 150
    end
    each_replaced(length: [-1, 8 - (1 << 32), -(1 << 1000)]) { |call, _| assert_raises(ArgumentError, &call) }
  end

  def test_strings_of_every_kind
    payload = "\x12\x04text"
    subclass = Class.new(String) { def bytesize = 1 << 40 }
    [payload.dup, payload.b, payload.encode("UTF-8").freeze, payload.dup.force_encoding("UTF-16LE"),
     payload.dup.force_encoding("UTF-7"), subclass.new(payload), "..#{payload}..".byteslice(2, 6)].each do |bytes|
      assert_equal payload.b, Pendratsoa.canonical(13, bytes)
      assert_equal payload.b, Pendratsoa.merge(13, "", bytes)
    end
    assert_raises(TypeError) { Pendratsoa.canonical(13, Struct.new(:to_str).new(payload)) }
  end

  def test_arguments_are_unchanged
    payload = +"\x08\x05\x12\x04text"
    before = [payload.dup, payload.encoding, payload.frozen?]
    Pendratsoa.canonical(13, payload)
    Pendratsoa::Stream.new.feed(payload)
    assert_equal before, [payload, payload.encoding, payload.frozen?]
  end

  def test_random_bytes
    random = Random.new(1)
    5_000.times do
      first, second = Array.new(2) { random.bytes(random.rand(32)).tr("\x80-\xff".b, "\x00-\x7f".b) }
      CALLS.each do |function, arguments|
        values = arguments.map { |kind, value| random_value(random, kind, value, [first, second]) }
        Pendratsoa.public_send(function, *values)
      rescue Pendratsoa::Error => error
        refute_instance_of Pendratsoa::Error, error
      end
      stream = Pendratsoa::Stream.new(version: random.rand(5..9)).feed(first)
      stream.feed(second).each(&:inspect)
    end
  end

  private

  def random_value(random, kind, value, bytes)
    case kind
    when :bytes then bytes.sample(random: random)
    when :schema then random.rand(-1..Pendratsoa::SCHEMAS)
    when :version then random.rand(4..10)
    else random.rand(2).zero? ? value : random.rand(1 << 16)
    end
  end
end

class TestLaterLibrary < Minitest::Test
  LIBRARY = Pendratsoa.send(:const_get, :Library)

  COMPILED = Pendratsoa.send(:const_get, :Compiled)

  # Runs a block in which the library returns this number, and writes these; for the compiled module too.
  def returning(number, numbers = nil)
    found = LIBRARY.functions
    # a Function holds what it is made of, so that it stays
    replace(LIBRARY::PARAMETERS.transform_values do |types|
      Fiddle::Function.new(closure(types, number, numbers), types, Fiddle::TYPE_LONG_LONG, need_gvl: true)
    end)
    yield
  ensure
    replace(found) if found
  end

  def closure(types, number, numbers)
    Fiddle::Closure::BlockCaller.new(Fiddle::TYPE_LONG_LONG, types) do |*parameters|
      if numbers
        # the slice of numbers is the last one that has this length
        place, = parameters.each_cons(2).to_a.reverse.find { |_, count| count == numbers.length }
        Fiddle::Pointer.new(place.to_i)[0, 8 * numbers.length] = numbers.pack("Q*") if place
      end
      number
    end
  end

  def replace(functions)
    LIBRARY.instance_variable_set(:@functions, functions)
    COMPILED.start(functions)
  end

  def test_a_short_record_needs_no_table
    skip "not run: the compiled module is not in use" unless Pendratsoa::COMPILED
    record = Pendratsoa::SetStateCommandMessage.new(key: "counter", value: Pendratsoa::Value.new(content: "1"))
    payload = record.encode
    returning(-2) do
      assert_equal payload, record.encode
      assert_raises(Pendratsoa::OutOfMemory) { record.with(name: "x" * 1025).encode }
    end
  end

  def test_another_error
    returning(-12) do
      assert_error(Pendratsoa::Error, "the library returned the error -12, which this package does not know") do
        Pendratsoa.canonical(13, "")
      end
      assert_raises(Pendratsoa::Error) { Pendratsoa::Stream.new }
    end
  end

  def test_errors_of_the_whole_call
    returning(-2) do
      assert_error(Pendratsoa::OutOfMemory, "out of memory") { Pendratsoa.merge(13, "", "") }
    end
    returning(-4) do
      text = "payload is too long: more than 4,294,967,295 bytes"
      assert_error(Pendratsoa::TooLong, text) { Pendratsoa.merge(13, "", "") }
    end
  end

  def test_another_kind
    stream = Pendratsoa::Stream.new.feed("12345678")
    returning(0, [3, 0, 0, 0, 8, 8]) do
      text = "the library returned the kind of item 3, which this package does not know"
      2.times { assert_error(Pendratsoa::Error, text) { stream.first } }
    end
    assert_equal 8, stream.rest
    if Pendratsoa::COMPILED
      # of a later library, or of none
      [[9, 8], [8, 9]].each do |size, payload|
        returning(0, [0, 0, 0, 0, size, payload]) { assert_raises(RuntimeError) { stream.first } }
      end
    end
    returning(0, [3, 0, 0, 0]) { assert_raises(Pendratsoa::Error) { Pendratsoa.notification(0x8000, "") } }
    returning(0, [0, 0, 0, 5]) { assert_raises(Pendratsoa::Error) { Pendratsoa.notification(0x8000, "") } }
    returning(0, [9, 0]) { assert_raises(Pendratsoa::Error) { Pendratsoa.from_json(13, "[{}]") } }
    returning(0, [1 << 63, 0]) { assert_raises(Pendratsoa::Error) { Pendratsoa.from_json(13, "[{}]") } }
    returning(0, [7, 0]) { assert_raises(Pendratsoa::Error) { Pendratsoa.compare_journals(8, "", "") } }
    returning(0, [1 << 63, 0]) { assert_raises(Pendratsoa::Error) { Pendratsoa.compare_journals(8, "", "") } }
  end
end

class TestThreadsAndMemory < Minitest::Test
  STREAM = Helper::INPUT * 50

  # What several calls return.
  def work
    items = Pendratsoa::Stream.new.feed(STREAM).to_a
    [items.map(&:json), items.map(&:frame), Pendratsoa.compare_journals(8, STREAM, STREAM).to_a]
  end

  def test_threads
    expected = work
    Array.new(8) { Thread.new { Array.new(10) { work } } }.each { |thread| assert_equal [expected] * 10, thread.value }
  end

  def test_bytes_that_another_thread_changes
    bytes = "\x12\xe8\x07".b + ("x" * 1000)
    calls = changes = 0
    changing = Thread.new do
      # until there were calls too, which may begin late
      until changes >= 20_000 && calls >= 100
        bytes.replace(bytes.reverse) && (bytes << "x") && bytes.chop!
        changes += 1
      end
    end
    while changing.alive?
      Pendratsoa.well_formed?(13, bytes)
      calls += 1
    end
    # raises what ended it before
    changing.join
    assert_equal "", Pendratsoa.canonical(13, "")
  ensure
    changing&.kill
  end

  def test_memory_does_not_grow
    assert_keeps_no_memory(1000) { work }
  end

  def test_moved_objects
    skip "not run: objects are not moved here" unless GC.respond_to?(:compact)
    expected = work
    GC.compact
    assert_equal expected, work
  end
end

class TestLibrary < Minitest::Test
  # Modules of Ruby are moved too: the error of a call once went by the old address of one.
  def test_moved_modules
    skip "not run: objects are not moved here" unless GC.respond_to?(:compact)
    words = "garbage = Array.new(400_000) { Object.new }; require 'pendratsoa'; garbage = nil; GC.compact; " \
            "begin; Pendratsoa.canonical(99, ''); rescue => e; puts e.class; end"
    lib = File.expand_path("../lib", __dir__)
    output, status = Open3.capture2e(RbConfig.ruby, "-w", "-I", lib, "-e", words)
    assert_equal ["Pendratsoa::Unknown\n", true], [output, status.success?]
  end

  # What Ruby prints where PENDRATSOA_LIBRARY is this, once it has required the gem.
  def load_with(library, words)
    lib = File.expand_path("../lib", __dir__)
    command = RbConfig.ruby, "-w", "-I", lib, "-r", "pendratsoa", "-e", words
    Open3.capture2e({ "PENDRATSOA_LIBRARY" => library }, *command)
  end

  # What is not there, what is another library, and what is none.
  NONE = ["/nowhere/libpendratsoa.so", "libc.so.6", __FILE__].freeze

  def test_it_can_be_required_without_the_library
    NONE.each do |library|
      output, status = load_with(library, "p Pendratsoa::RECORDS.length, Pendratsoa::Value.new(content: '1'), " \
                                          "[true, false].include?(Pendratsoa::COMPILED)")
      assert_predicate status, :success?
      assert_equal "#{Pendratsoa::RECORDS.length}\n#<Pendratsoa::Value content: \"1\">\ntrue\n", output
    end
  end

  def test_the_first_call_says_what_is_missing
    calls = %w[.library_version ::Stream.new ::Value.new.encode ::Value.decode("")]
    words = calls.map { |call| "begin; Pendratsoa#{call}; rescue LoadError => error; puts error; end" }
    NONE.each do |library|
      output, status = load_with(library, words.join("\n"))
      assert_predicate status, :success?
      assert_equal calls.length, output.lines.length, output
      output.each_line(chomp: true) do |line|
        assert line.start_with?("pendratsoa: the library #{library} cannot be used: "), line
        assert line.end_with?("; #{Pendratsoa.send(:const_get, :Library)::SOURCES}"), line
      end
    end
  end

  def test_no_warnings
    output, status = load_with(ENV.fetch("PENDRATSOA_LIBRARY", ""), "puts Pendratsoa.library_version")
    assert_predicate status, :success?
    assert_equal "#{Pendratsoa::VERSION}\n", output
  end
end
