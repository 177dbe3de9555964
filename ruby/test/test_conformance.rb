# frozen_string_literal: true

require_relative "helper"

# The test vectors of conformance/, by the calls that check them; no call prints a record, or shows fields.
class TestConformance < Minitest::Test
  FILES = Dir[File.join(Helper::TOP, "conformance/{,json/}*.txt")].freeze

  def test_conformance
    passed = failed = 0
    lines = FILES.flat_map { |file| File.readlines(file, chomp: true, encoding: "UTF-8") }
    lines.grep_v(/\A(#|record |fields |\z)/).each do |line|
      question, expected = line.split(" = ", 2)
      found = result(*question.split)
      next passed += 1 if found == expected

      failed += 1
      puts "failed: #{line[0, 300]}\n  returned: #{found[0, 300]}"
    end
    # on a line of its own, after the dots of other tests
    puts "", "#{passed} passed, #{failed} failed"
    # a release is tried with a part of them, whose number it gives
    assert_operator passed, :>=, Integer(ENV.fetch("TEST_VECTORS", 13_000))
    assert_equal 0, failed
  end

  private

  # What the library returns for the words of a test vector.
  def result(kind, *words)
    names, data = words.partition.with_index { |_, index| index < (kind == "frame" ? 2 : 1) }
    send("#{kind}_result", *names, *data.map { |digits| unhex(digits.delete_prefix("-")) })
  rescue Pendratsoa::Malformed
    "malformed"
  rescue Pendratsoa::Error, Minitest::Assertion => error
    error.message
  end

  def digits(bytes)
    bytes.empty? ? "-" : bytes.unpack1("H*")
  end

  def payload_result(schema, payload)
    is_well_formed = Pendratsoa.well_formed?(schema, payload)
    canonical = Pendratsoa.canonical(schema, payload)
    assert is_well_formed
    assert_equal canonical, Pendratsoa.canonical(schema, canonical)
    record = Pendratsoa.const_get(schema)
    assert_equal canonical, record.decode(payload).encode
    json = Pendratsoa.to_json(schema, payload)
    assert_equal json, Pendratsoa.to_json(schema, canonical)
    assert_equal canonical, Pendratsoa.from_json(schema, json)
    digits(canonical)
  end

  def merge_result(schema, first, *others)
    digits(others.reduce(Pendratsoa.canonical(schema, first)) { |merged, more| Pendratsoa.merge(schema, merged, more) })
  end

  def frame_result(type, version, payload)
    code = Pendratsoa.type_code(type)
    frame = Pendratsoa.frame(Integer(version), code, payload)
    assert_equal frame, Pendratsoa.const_get("#{type}Message").decode(payload).frame(Integer(version))
    assert frame.start_with?(Pendratsoa.header(Integer(version), code, frame.bytesize - 8))
    digits(frame)
  end

  def stream_result(version, *chunks)
    listing = listing(Integer(version), chunks)
    assert_equal listing, listing(Integer(version), chunks.join.each_char)
    listing
  end

  def listing(version, chunks)
    stream = Pendratsoa::Stream.new(version: version)
    items = chunks.flat_map { |chunk| stream.feed(chunk).map(&:to_s) }
    [*items, "rest #{stream.rest}"].join(", ")
  end

  def compare_result(type, first, second)
    code = Pendratsoa.type_code(type)
    words = [false, true].map do |ignore|
      Pendratsoa.header_eq?(code, first, second, ignore_payloads: ignore) ? "same" : "other"
    end
    [first, second].each { |command| assert_equal "", Pendratsoa.difference(code, command, command) }
    [*words, digits(Pendratsoa.difference(code, first, second))].join(" ")
  end

  # The payload that a JSON text is read as, or why it is not, and where.
  def read_result(schema, text)
    digits(Pendratsoa.from_json(schema, text))
  rescue Pendratsoa::JsonError => error
    "#{error.reason} #{error.offset || error.path}".rstrip
  end

  def json_result(schema, payload)
    json = Pendratsoa.to_json(schema, payload)
    assert_equal Pendratsoa.canonical(schema, payload), Pendratsoa.from_json(schema, json)
    json
  end
end
