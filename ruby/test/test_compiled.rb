# frozen_string_literal: true

require_relative "helper"
require "open3"

# The compiled module: what it leaves to Ruby, and its memory. All other tests are run with it too.
class TestCompiled < Minitest::Test
  include Pendratsoa

  LONG = "\u00e9" * 3000
  DEEP = (1..99).reduce(Future.new) { |future, _| Future.new(nested_futures: [future]) }

  # Records of each kind and shape of field, and of long values.
  SAMPLES = [
    Void.new,
    SetStateCommandMessage.new(key: "counter", value: Value.new(content: "1"), name: "text"),
    CallCommandMessage.new(
      service_name: "a", headers: [Header.new(key: "k", value: "\u00e9")] * 70, idempotency_key: LONG
    ),
    ErrorMessage.new(code: 5, message: "text", behavior: -7, next_retry_delay: 1 << 63),
    ErrorMessage.new(behavior: :PAUSE),
    Future.new(waiting_completions: [1, 2], waiting_named_signals: %w[a b], nested_futures: [Future.new] * 2),
    DEEP,
    NotificationTemplate.new(id: NotificationTemplateSignalId.new(3)),
    ProposeRunCompletionMessage.new(result: "bytes"),
    ProposeRunCompletionMessage.new(result: Failure.new(code: 500, message: "text")),
    StateKeys.new(keys: Array.new(500, &:to_s)),
    OutputCommandMessage.new(result: Value.new(content: "\0" * 70_000)),
    # as long as what is written as a struct, and longer; as many elements as there is memory for, and more
    *[1016, 1017, 1024, 1025].map { |length| SetStateCommandMessage.new(name: "x" * length) },
    *[254, 255, 256].map { |count| StateKeys.new(keys: [""] * count) },
    *[126, 127, 128].map { |count| Failure.new(metadata: [FailureMetadata.new] * count) },
    # the greatest numbers of each kind, and the least
    Failure.new(code: (1 << 32) - 1),
    SleepCommandMessage.new(wake_up_time: (1 << 64) - 1),
    *[(1 << 31) - 1, -(1 << 31)].map { |number| ErrorMessage.new(behavior: number) },
    SignalNotificationMessage.new(signal_id: 0, result: Void.new),
    SignalNotificationMessage.new(signal_id: ""),
    CallCommandMessage.new(idempotency_key: "", headers: [])
  ].freeze

  # What no field can have, or what is of another encoding.
  UNUSUAL = [
    Header.new(key: "\u00e9".encode("UTF-16LE")),
    Header.new(key: "\xff"),
    StateKeys.new(keys: 5),
    Value.new(content: 5),
    SleepCommandMessage.new(wake_up_time: 1 << 64),
    SleepCommandMessage.new(wake_up_time: -1),
    Failure.new(code: 1 << 32),
    *[(1 << 64) - 1, 1 << 63, 1 << 31, -(1 << 31) - 1].map { |number| ErrorMessage.new(behavior: number) },
    ErrorMessage.new(behavior: :NONE),
    CallCommandMessage.new(headers: [nil]),
    StartMessage.new(partial_state: 1),
    SignalNotificationMessage.new(signal_id: :text),
    InputCommandMessage.new(headers: [5]),
    InputCommandMessage.new(value: Failure.new),
    Future.new(nested_futures: [Future.new, Future.new(nested_futures: [DEEP])])
  ].freeze

  # What a block returns, or its error.
  def ends
    yield
  rescue StandardError => error
    [error.class, error.message]
  end

  def test_the_records_that_are_written_as_structs
    addresses = Pendratsoa.send(:const_get, :Library).record_writers
    others = RECORDS.zip(addresses).filter_map { |record, address| record if address.zero? }
    assert_equal [Future, SuspensionMessage, AwaitingOnMessage], others
  end

  # With the fields that the test vectors set, which are all.
  def test_each_record_is_the_same_in_ruby
    lines = File.readlines(File.join(Helper::TOP, "conformance/records.txt")).grep(/\Arecord /)
    records = lines.map do |line|
      _, name, word = line.split
      Pendratsoa.const_get(name).decode(unhex(word.delete_prefix("-")))
    end
    assert_equal RECORDS.length, records.map(&:class).uniq.length
    records.each do |record|
      assert_equal record.send(:encode_in_ruby), record.encode
      next unless record.is_a?(MessageRecord)

      assert_equal(ends { record.send(:frame_in_ruby, 6) }, ends { record.frame(6) })
    end
  end

  def test_each_is_the_same_in_ruby
    (SAMPLES + UNUSUAL).each do |record|
      payload = ends { record.encode }
      assert_equal ends { record.send(:encode_in_ruby) }, payload
      next unless payload.is_a?(String)

      made = record.class.decode(payload)
      assert_equal record.class.send(:decode_in_ruby, payload), made
      assert_equal made.inspect, record.class.send(:decode_in_ruby, payload).inspect
      assert_equal [Encoding::BINARY, true], [payload.encoding, Ractor.shareable?(made)]
      assert_equal payload, made.encode
    end
  end

  def test_payloads
    payloads = [unhex("0a0178"), +"\n\u0001x", "\n\x81\x00x", unhex("0a"), "text", nil, 5]
    [*payloads, "\n\u0001x".encode("UTF-16LE")].each do |payload|
      assert_equal(ends { Value.send(:decode_in_ruby, payload) }, ends { Value.decode(payload) })
    end
    payload = +"\n\x01x"
    made = Value.decode(payload)
    payload << "more"
    assert_equal "x", made.content
  end

  def test_classes_below_a_record
    below = Class.new(Value).of_values(["x"])
    assert_raises(NoMethodError) { below.encode }
    assert_raises(TypeError) { InputCommandMessage.new(value: below).encode }
  end

  # The objects of a class may have another variable before their values, if it came first.
  def test_another_variable
    library = File.expand_path("../lib", __dir__)
    program = <<~RUBY
      value = Pendratsoa::Value.allocate
      value.instance_variable_set(:@other, ["y"])
      Pendratsoa.library_version
      value.instance_variable_set(:@values, ["x"].freeze)
      record = Pendratsoa::SetStateCommandMessage.new(value: value)
      print record.encode == record.send(:encode_in_ruby)
    RUBY
    output, = Open3.capture2e(RbConfig.ruby, "-w", "-I", library, "-rpendratsoa", "-e", program)
    assert_equal "true", output
  end

  def test_a_record_that_has_itself
    futures = []
    futures << Future.new(nested_futures: futures)
    assert_raises(SystemStackError) { futures[0].encode }
  end

  def test_calls_that_are_given_otherwise
    skip "not run: the compiled module is not in use" unless COMPILED
    named, compiled = %i[Named Compiled].map { |name| Pendratsoa.send(:const_get, name) }
    assert_equal INPUT.byteslice(0, 8), named.call(named::HEADER, "header", 8, CODES.fetch(:input), 9)
    [[], [named::HEADER], [named::HEADER, "header"], [named::HEADER, "header", 8, 0, 0, 0]].each do |given|
      assert_raises(ArgumentError) { named.call(*given) }
    end
    [-1, 1000].each { |place| assert_raises(IndexError) { named.call(place, "name") } }
    assert_error(Unknown, "name: unknown code 0x040d, or not of the kind that the call is for") do
      named.call(named::NOTIFICATION, "name", CODES.fetch(:call), "")
    end
    [[nil, nil], [8, "1"], [8, 1 << 32]].each do |arguments|
      assert_raises(TypeError, RangeError) { compiled::Pending.new(*arguments) }
    end
    assert_raises(ArgumentError) { compiled.point([]) }
    assert_raises(ArgumentError) { compiled.use([], [], [], {}) }
    assert_raises(TypeError) { compiled::Pending.new(8, nil).feed(8) }
    assert_equal "", compiled::Pending.allocate.trailing
  end

  # Other threads run while a long call is made, and may change what it is given, and what it writes is whole.
  def test_long_calls
    payload = OutputCommandMessage.new(result: Value.new(content: "x" * 3_000_000)).encode
    frame = Pendratsoa.frame(8, 0x0401, payload)
    given = +payload
    is_over = false
    turns = 0
    changing = Thread.new do
      until is_over
        # as it was, in memory of its own, since what a call reads is shared with the String that was given
        given.setbyte(given.bytesize - 1 - (turns % 1000), "x".ord)
        turns += 1
        Thread.pass
      end
    end
    # the other thread may get its first turn late
    2000.times do |round|
      break if round >= 20 && turns.positive?

      assert_equal frame, Pendratsoa.frame(8, 0x0401, given)
      assert_equal payload, OutputCommandMessage.decode(given).encode
      assert_equal frame, OutputCommandMessage.decode(given).frame(8)
    end
    assert_operator turns, :>, 0
  ensure
    is_over = true
    changing&.join
  end

  # A copy of a stream goes on by itself, in any order, and however much came.
  def test_copies_of_a_stream
    stream = Stream.new.feed(INPUT * 5000).feed(INPUT.byteslice(0, 5))
    first = stream.first(2000)
    other = stream.dup
    [stream, other].each { |one| one.feed(INPUT.byteslice(5..)) }
    found = stream.to_a
    assert_equal [3001, first.last.bytes], [found.length, found.first.bytes]
    assert_equal found, other.to_a
    assert_equal [0, 0], [stream.rest, other.rest]
  end

  def test_the_variable
    [%w[1 false], ["", COMPILED.to_s]].each do |value, wanted|
      next if value.empty? && !ENV.fetch("PENDRATSOA_PURE", "").empty?

      library = File.expand_path("../lib", __dir__)
      words = RbConfig.ruby, "-w", "-I", library, "-rpendratsoa", "-e", "print Pendratsoa::COMPILED"
      output, = Open3.capture2e({ "PENDRATSOA_PURE" => value }, *words)
      assert_equal wanted, output
    end
  end

  def work
    (SAMPLES + UNUSUAL).map do |record|
      payload = ends { record.encode }
      payload.is_a?(String) ? [record.class.decode(payload), ends { record.class.decode("#{payload}\xff") }] : payload
    end
  end

  def test_memory
    assert_keeps_no_memory(200) { work }
  end

  def test_collected_and_moved_objects
    expected = work.inspect
    GC.compact if GC.respond_to?(:compact)
    assert_equal expected, work.inspect
    GC.stress = true
    found = SAMPLES.first(5).map { |record| record.class.decode(record.encode) }
    GC.stress = false
    assert_equal SAMPLES.first(5), found
  ensure
    GC.stress = false
  end
end
