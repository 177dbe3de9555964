# frozen_string_literal: true

require_relative "helper"
require "stringio"

# What every package promises beyond the calls: the cases of packages.cases and numberings.cases, which the README of
# conformance specifies.
class TestPackages < Minitest::Test
  CASES, NUMBERINGS = %w[packages numberings].map do |name|
    File.readlines(File.join(Helper::TOP, "conformance/#{name}.cases"), chomp: true).grep_v(/\A(#|\z)/).freeze
  end

  READS = {
    "json" => :json, "canonical" => :canonical, "frame" => :frame, "record" => :message, "notification" => :notification
  }.freeze
  KINDS = { Pendratsoa::Malformed => "malformed", Pendratsoa::NoId => "no_id",
            Pendratsoa::NoResult => "no_result" }.freeze
  NUMBERS = {
    "version" => ->(number) { Pendratsoa::Stream.new(version: number) },
    "code" => ->(number) { Pendratsoa.type_name(number) },
    "schema" => ->(number) { Pendratsoa.well_formed?(number, "") }
  }.freeze

  # The fields whose words are bytes or texts, and the members of each oneof.
  BYTES = %w[id].freeze
  TEXTS = %w[debug_id scope target_invocation_id name entry_name].freeze
  ONEOFS = { signal_id: %w[idx name], result: %w[void value failure] }.freeze

  def setup
    # the texts of the errors with which cases ended
    @texts = []
  end

  def test_the_cases
    assert_operator CASES.length, :>, 100
    CASES.each do |line|
      question, expected = line.split(" = ")
      kind, *words = question.split
      assert_equal expected, send("#{kind}_result", *words), line
    end
  end

  def test_the_cases_of_numberings
    assert_operator NUMBERINGS.length, :>, 600
    sets = {}
    NUMBERINGS.each do |line|
      question, expected = line.split(" = ")
      kind, *words = question.split
      assert_includes [expected, nil], send("#{kind}_of_numbering", sets, *words), line[0, 200]
    end
  end

  def test_what_was_made_by_hand_has_no_offset
    message = Pendratsoa::Message.new(8, CODES[:set_state], unhex("0a0561"))
    others = [Pendratsoa::UnknownCode.new(8, 8, 0), Pendratsoa::Skipped.new(9, 8, 0, "")]
    assert_equal [nil] * 3, [message, *others].map(&:offset)
    text = "SetStateCommand: payload of 3 bytes is malformed"
    error = assert_error(Pendratsoa::Malformed, text) { message.json }
    assert_equal [CODES[:set_state], nil], [error.code, error.offset]
  end

  private

  def bytes_of(word)
    unhex(word.delete_prefix("-"))
  end

  # The name of a type by its code, or - where there is none.
  def name_of(code)
    code ? Pendratsoa.type_name(code) : "-"
  rescue Pendratsoa::Unknown
    "-"
  end

  # The error of a block, or nil.
  def raised
    yield
    nil
  rescue Pendratsoa::Error => error
    error
  end

  # What the error says with which a case ends, in whatever chunks a stream comes.
  def text_result(kind, *words)
    @texts = []
    send("#{kind}_result", *words)
    assert_equal 1, @texts.uniq.length, @texts.inspect
    @texts.first
  end

  # The result of a case that ends with an error, whose text is noted without the name of the call.
  def noted(error, result)
    @texts << error.message.delete_prefix("#{error.call}: ")
    result
  end

  # The items of a stream that is there as a whole.
  def items_of(version, word)
    Pendratsoa::Stream.read(StringIO.new(bytes_of(word)), version: Integer(version)).to_a
  end

  def items_result(version, limit, *words)
    chunks = words.map { |word| bytes_of(word) }
    options = { version: Integer(version), max_message_size: limit == "-" ? nil : Integer(limit) }
    found = fed(options, chunks)
    [chunks, [chunks.join], chunks.join.each_char.to_a].each do |other|
      assert_equal found, fed(options, other)
      assert_equal found, read_in(options, other)
    end
    found
  end

  def not_strict_result(version, limit, *words)
    chunks = words.map { |word| bytes_of(word) }
    options = { version: Integer(version), max_message_size: limit == "-" ? nil : Integer(limit) }
    found = read_in(options, chunks, strict: false)
    [[chunks.join], chunks.join.each_char.to_a].each do |other|
      assert_equal found, read_in(options, other, strict: false)
    end
    found
  end

  # The listing of a stream that is fed these chunks.
  def fed(options, chunks)
    stream = Pendratsoa::Stream.new(**options)
    items = []
    came = +""
    ended = raised do
      chunks.each do |chunk|
        stream.feed(chunk)
        came << chunk
        stream.each { |item| items << item }
      end
      stream.finish
    end
    listing(stream, came, items, end_of(stream, ended))
  end

  # The listing of a stream that reads these chunks; an empty one would be the end of the input.
  def read_in(options, chunks, strict: true)
    left = chunks.reject(&:empty?)
    came = +""
    input = Object.new
    input.define_singleton_method(:read) { |_size| left.shift&.tap { |chunk| came << chunk } }
    stream = Pendratsoa::Stream.new(**options)
    items = []
    ended = raised { stream.read(input, strict: strict) { |item| items << item } }
    listing(stream, came, items, ended || strict ? end_of(stream, ended) : "ended #{stream.rest}")
  end

  # The items, and how the stream ended. They are the first bytes of what came, and `trailing` has the others.
  def listing(stream, came, items, end_)
    assert_equal came, items.map(&:bytes).join + stream.trailing
    lines = items.map { |item| "#{item.offset} #{item}" }.join(", ")
    [lines, end_].reject(&:empty?).join("; ")
  end

  # How a stream ended, which stays so.
  def end_of(stream, ended)
    case ended
    when nil then "whole"
    when Pendratsoa::MessageTooLong
      assert_same(ended, raised { stream.finish })
      assert_same(ended, raised { stream.first })
      assert_same(ended, raised { stream.feed("x") })
      noted(ended, "too_long #{ended.offset} #{name_of(ended.code)} #{ended.length}")
    when Pendratsoa::Incomplete
      assert_equal ended.message, raised { stream.finish }.message
      noted(ended, "incomplete #{ended.offset} #{ended.rest} #{name_of(ended.code)}")
    else raise ended
    end
  end

  def read_result(call, version, word)
    results = items_of(version, word).map do |item|
      next "none" unless item.is_a?(Pendratsoa::Message)

      reading(item) { item.public_send(READS.fetch(call)).nil? ? "none" : "ok" }
    end
    results.join(", ")
  end

  def as_result(name, version, word)
    record = Pendratsoa.const_get(name)
    results = items_of(version, word).map do |item|
      reading(item) do
        found = item.record(record)
        next "none" unless found

        assert_instance_of record, found
        found.encode.empty? ? "-" : found.encode.unpack1("H*")
      end
    end
    results.join(", ")
  end

  # What a block returns that reads a message. An error of its payload has its type and its offset.
  def reading(item)
    yield
  rescue Pendratsoa::Unknown => error
    noted(error, "unknown")
  rescue Pendratsoa::Error => error
    assert_equal [item.code, item.offset], [error.code, error.offset]
    noted(error, "#{KINDS.fetch(error.class)} #{name_of(error.code)} #{error.offset}")
  end

  def compare_result(version, ignore, *journals)
    journals = journals.map { |word| bytes_of(word) }
    verdict = Pendratsoa.compare_journals(Integer(version), *journals, ignore_payloads: ignore == "yes")
    "#{verdict.kind} #{verdict.index}"
  end

  def mismatch_result(version, ignored, recorded, replayed)
    options = { ignore_payloads: ignored == "yes", ignore_ids: ignored == "ids" }
    replay = Pendratsoa::Replay.new(Integer(version), bytes_of(recorded), **options)
    found = [*items_of(version, replayed).map { |item| replay.check(item) }, replay.finish].compact
    return "none" if found.empty?

    assert_equal 1, found.length
    kind, index, recorded_offset, replayed_offset, text, fields = *found.first
    words = [kind, index, recorded_offset || "-", replayed_offset, word_of(text)]
    fields.each { |field| words.push(field.name, word_of(field.recorded), word_of(field.replayed)) }
    words.join(" ")
  end

  # The bytes of a text as a word.
  def word_of(text)
    text.empty? ? "-" : text.unpack1("H*")
  end

  def replay_result(version, ignored, recorded, replayed)
    options = { ignore_payloads: ignored == "yes", ignore_ids: ignored == "ids" }
    replay = Pendratsoa::Replay.new(Integer(version), bytes_of(recorded), **options)
    steps = [step(replay, nil)]
    steps.concat(items_of(version, replayed).map { |item| step(replay, replay.check(item)) })
    left = replay.finish
    "#{steps.join(", ")}; #{left ? "#{left.kind} #{left.index}" : "none"}"
  end

  # What is said of an item, and what comes next.
  def step(replay, mismatch)
    expected = replay.expected
    [mismatch ? mismatch.kind : "none", replay.index, expected&.offset, expected&.type].compact.join(" ")
  end

  def rest_result(version, recorded)
    Pendratsoa::Replay.new(Integer(version), bytes_of(recorded)).recorded_rest.to_s
  end

  def encode_result(version, name, *words)
    record = Pendratsoa.const_get(name)
    fields = words.to_h do |word|
      field, value = word.split("=")
      [attribute(record, field), value_of(field, value)]
    end
    made = record.new(**fields)
    frame = made.frame(Integer(version))
    assert_equal frame, Pendratsoa::Message.of_record(made, version: Integer(version)).bytes
    frame.unpack1("H*")
  rescue Pendratsoa::Unknown => error
    noted(error, "unknown")
  rescue Pendratsoa::FieldError => error
    noted(error, "#{error.reason} #{error.path}")
  end

  def message_result(version, name)
    Pendratsoa::Message.of_record(Pendratsoa.const_get(name).new, version: Integer(version)).to_s
  rescue Pendratsoa::Unknown => error
    noted(error, "unknown")
  end

  def new_result(version, code, word)
    given = [Integer(version), Integer(code), bytes_of(word)]
    message = Pendratsoa::Message.of(given[1], given[2], version: given[0])
    assert_equal given, [message.version, message.code, message.payload]
    assert_equal [message], items_of(version, word_of(message.bytes))
    "#{message}, #{word_of(message.bytes)}"
  rescue Pendratsoa::Unknown => error
    noted(error, "unknown")
  end

  # The attribute of a record that has a field, or a member of a oneof.
  def attribute(record, field)
    oneof, = ONEOFS.find { |name, members| record.members.include?(name) && members.include?(field) }
    oneof || field.to_sym
  end

  # The value of a word.
  def value_of(field, word)
    case field
    when *BYTES then bytes_of(word)
    when *TEXTS then text_of(word)
    when "partial_state" then word == "true"
    when "headers" then word.split(",").map { |one| header_of(*one.split(":")) }
    when "void" then Pendratsoa::Void.new
    when "value" then Pendratsoa::Value.new(content: bytes_of(word))
    when "failure" then Pendratsoa::Failure.new(code: Integer(word))
    else Integer(word)
    end
  end

  def header_of(key, value)
    Pendratsoa::Header.new(key: text_of(key), value: text_of(value))
  end

  # The text of a word, which may be none of UTF-8.
  def text_of(word)
    bytes_of(word).force_encoding(Encoding::UTF_8)
  end

  def decode_result(name, word)
    record = Pendratsoa.const_get(name).decode(bytes_of(word))
    found = record.to_h.reject { |field, value| value == record.class.defaults[field] }
    return "-" if found.empty?

    found.map { |field, value| "#{member_of(field, value)}=#{word_of_field(value)}" }.join(", ")
  rescue Pendratsoa::Malformed => error
    noted(error, "malformed")
  end

  # The name of a field, or of a member of a oneof.
  def member_of(field, value)
    case field
    when :signal_id then value.is_a?(String) ? "name" : "idx"
    when :result then value.class.name.split("::").last.downcase
    else field
    end
  end

  # A value of a field as a word; of an enum its number.
  def word_of_field(value)
    case value
    when Array then value.map { |header| "#{word_of(header.key)}:#{word_of(header.value)}" }.join(",")
    when Pendratsoa::Void then "-"
    when Pendratsoa::Value then word_of(value.content)
    when Pendratsoa::Failure then value.code
    when Symbol then Pendratsoa::ErrorBehavior.fetch(value)
    when String then word_of(value)
    else value
    end
  end

  def json_result(version, type, word)
    message = Pendratsoa::Message.from_json(type, bytes_of(word), version: Integer(version))
    assert_equal [Integer(version), type], [message.version, message.type]
    word_of(message.payload)
  rescue Pendratsoa::Unknown => error
    noted(error, "unknown")
  rescue Pendratsoa::JsonError => error
    noted(error, "#{error.reason} #{error.offset || error.path}".rstrip)
  end

  def set_of_numbering(sets, name, renames, word)
    lines = bytes_of(renames).lines(chomp: true)
    # a Hash has always two names
    return unless lines.all? { |line| line.include?("=") }

    renames = lines.to_h { |line| line.split("=") }
    sets[name] = Pendratsoa::Numbering.new(bytes_of(word), renames: renames)
    "ok"
  rescue Pendratsoa::NumberingError => error
    assert_equal({ no_set: :descriptor_set, no_rename: :renames }.fetch(error.reason), error.argument)
    assert_equal "Numbering: #{error.argument.name.tr("_", " ")}: #{error.text}", error.message
    "#{error.reason} #{word_of(error.text)}"
  end

  def read_of_numbering(sets, name, schema, word)
    renumbered { sets.fetch(name).read_payload(schema, bytes_of(word)) }
  end

  def write_of_numbering(sets, name, schema, word)
    renumbered { sets.fetch(name).write_payload(schema, bytes_of(word)) }
  end

  def stream_of_numbering(sets, way, name, version, word)
    number = Integer(version)
    found = renumbered { sets.fetch(name).public_send("#{way}_stream", number, bytes_of(word)) }
    assert_equal(found, renumbered { read_by(sets.fetch(name), number, bytes_of(word)) }) if way == "read"
    found
  end

  # The messages of a stream that a numbering reads, each after its header with another length.
  def read_by(numbering, version, data)
    stream = Pendratsoa::Stream.new(version: version, numbering: numbering).feed(data)
    messages = stream.map do |item|
      next item.bytes unless item.respond_to?(:payload)

      item.bytes.byteslice(0, 4) << [item.payload.bytesize].pack("N") << item.payload
    end
    messages.join << stream.trailing
  end

  # What a block returns, or its error.
  def renumbered
    word_of(yield)
  rescue Pendratsoa::Malformed
    "malformed"
  rescue Pendratsoa::Unknown
    "unknown"
  end

  def limit_result(number)
    error = begin
      Pendratsoa::Stream.new(max_message_size: Integer(number))
      nil
    rescue Pendratsoa::TooLong, ArgumentError => error
      error
    end
    error ? "out_of_range" : "ok"
  end

  def name_result(what, name)
    error = raised { what == "type" ? Pendratsoa.type_code(name) : Pendratsoa.well_formed?(name, "") }
    return "known" unless error

    assert_instance_of Pendratsoa::Unknown, error
    meant = error.message.partition("; did you mean ").last
    noted(error, ["unknown", meant.delete('"?')].reject(&:empty?).join(" "))
  end

  def number_result(what, number)
    error = raised { NUMBERS.fetch(what).call(Integer(number)) }
    return "known" unless error

    assert_instance_of Pendratsoa::Unknown, error
    noted(error, "unknown")
  end
end
