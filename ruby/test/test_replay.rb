# frozen_string_literal: true

require_relative "helper"

# Replays that are checked item by item: the lines of conformance/replays, which its README specifies. What is said of
# each is the verdict of both journals as a whole.
class TestReplay < Minitest::Test
  LINES = Dir[File.join(Helper::TOP, "conformance/replays/*.txt")].flat_map do |file|
    File.readlines(file, chomp: true).grep_v(/\A(#|\z)/)
  end

  RECORDED = File.binread(File.join(Helper::TOP, "examples/streams/recorded"))
  OTHER = File.binread(File.join(Helper::TOP, "examples/streams/replayed_other_payload"))

  def test_the_vectors
    assert_operator LINES.length, :>, 20
    LINES.each do |line|
      question, expected = line.split(" = ")
      _, version, payloads, *words = question.split
      recorded, *chunks = words.map { |word| unhex(word.delete_prefix("-")) }
      assert_equal expected, said(Integer(version), recorded, chunks.join, payloads == "ignored"), line
    end
  end

  def test_journals_that_are_cut_short
    [false, true].each do |is_ignored|
      (0..OTHER.bytesize).each { |length| said(8, RECORDED, OTHER.byteslice(0, length), is_ignored) }
      (0..RECORDED.bytesize).each { |length| said(8, RECORDED.byteslice(0, length), OTHER, is_ignored) }
    end
  end

  def test_a_mismatch
    replay = Pendratsoa::Replay.new(8, RECORDED)
    found = items_of(8, OTHER).filter_map { |item| replay.check(item) }
    text = Pendratsoa.compare_journals(8, RECORDED, OTHER).text
    fields = [Pendratsoa::ChangedField.new("value", "'1'", "'2'")]
    assert_equal [Pendratsoa::Mismatch.new(:header_mismatch, 1, 17, 17, text, fields)], found
    assert_equal %w[SetStateCommand counter], [replay.expected.type, replay.expected.message.key]
    assert_nil replay.finish
  end

  def test_bytes_after_the_last_whole_item
    ends = items_of(8, RECORDED).map { |item| item.offset + item.bytes.bytesize }
    (0..RECORDED.bytesize).each do |length|
      replay = Pendratsoa::Replay.new(8, RECORDED.byteslice(0, length))
      wanted = length - [0, *ends].select { |offset| offset <= length }.last
      assert_equal [wanted, wanted], [replay.recorded_rest, replay.recorded_rest]
      items_of(8, RECORDED).each { |item| replay.check(item) }
      assert_equal wanted, replay.recorded_rest
    end
    # those of an item that is longer than what is read at a time
    replay = Pendratsoa::Replay.new(8, RECORDED + Pendratsoa.header(8, 0xfc01, 300_000) + ("x" * 200_000))
    assert_equal 200_008, replay.recorded_rest
  end

  def test_what_is_asked_changes_nothing
    replay = Pendratsoa::Replay.new(8, RECORDED)
    first, *others = items_of(8, RECORDED)
    replay.check(first)
    before = [replay.index, replay.expected]
    assert_equal [0, *before], [replay.recorded_rest, replay.index, replay.expected]
    assert_equal([], others.filter_map { |item| replay.check(item) })
    assert_nil replay.finish
  end

  def test_finish_changes_nothing
    replay = Pendratsoa::Replay.new(8, RECORDED)
    assert_equal [:replayed_ended, 0, 0], replay.finish.to_a.first(3)
    assert_equal([], items_of(8, RECORDED).filter_map { |item| replay.check(item) })
    assert_nil replay.finish
    assert_nil replay.expected
  end

  def test_a_copy_goes_on_by_itself
    replay = Pendratsoa::Replay.new(8, RECORDED)
    before = replay.dup
    items_of(8, RECORDED).each { |item| replay.check(item) }
    assert_equal [0, 0, 4], [before.finish.index, before.index, replay.index]
    assert_equal "#<Pendratsoa::Replay of version 8, 4 commands the same>", replay.inspect
  end

  def test_arguments
    [0, 4, 10, -1, 1 << 32].each do |version|
      text = "Replay: unknown protocol version #{version} (5 to 9)"
      assert_error(Pendratsoa::Unknown, text) { Pendratsoa::Replay.new(version, "") }
    end
    assert_raises(TypeError) { Pendratsoa::Replay.new("8", "") }
    assert_raises(TypeError) { Pendratsoa::Replay.new(8, nil) }
    assert_error(TypeError, "check: item must be an item of a stream, not String") do
      Pendratsoa::Replay.new(7, "").check("")
    end
    message = Pendratsoa::Message.new(8, 1 << 16, "")
    assert_raises(Pendratsoa::Unknown) { Pendratsoa::Replay.new(8, "").check(message) }
  end

  def test_what_is_checked_is_not_kept
    message = Pendratsoa::Message.of("SetStateCommand", unhex("0a01611a03 0a0131".delete(" ")))
    replay = Pendratsoa::Replay.new(8, message.bytes * 100_000)
    assert_keeps_no_memory(10_000) { assert_nil replay.check(message) }
  end

  private

  # The whole items of a stream.
  def items_of(version, bytes)
    Pendratsoa::Stream.new(version: version).feed(bytes).to_a
  end

  # The commands of a stream that are compared.
  def commands_of(version, bytes)
    items_of(version, bytes).grep(Pendratsoa::Message).select do |message|
      message.command? && !message.type.start_with?("CustomEntry")
    end
  end

  # What is said of a replay, in the words of the vectors.
  def said(version, recorded, replayed, is_ignored)
    items = items_of(version, replayed)
    replay = Pendratsoa::Replay.new(version, recorded, ignore_payloads: is_ignored)
    commands = commands_of(version, recorded)
    mismatch, count = followed(replay, items, commands)
    mismatch ? assert_said_once(replay, items) : mismatch = replay.finish
    verdict = Pendratsoa.compare_journals(version, recorded, replayed, ignore_payloads: is_ignored)
    assert_equal [verdict.kind, verdict.index], [mismatch ? mismatch.kind : :same, replay.index]
    return "same #{verdict.index}" unless mismatch

    assert_equal verdict.to_a, [mismatch.kind, mismatch.index, mismatch.text]
    assert_equal difference(mismatch, commands, items[count]), mismatch.fields.map { |field|
      "\n   #{field.name}: #{field.recorded} != #{field.replayed}"
    }.join
    words(mismatch, count)
  end

  # The first mismatch, and how many items came before it. What is expected are the commands in their order.
  def followed(replay, items, commands)
    index = 0
    items.each_with_index do |item, count|
      assert_same_place commands[index], replay.expected
      mismatch = replay.check(item)
      return [mismatch, count] if mismatch

      index += commands_of(item.version, item.bytes).length
    end
    [nil, items.length]
  end

  def assert_same_place(command, expected)
    return assert_nil(expected) unless command

    assert_equal [command, command.offset, command.word], [expected, expected.offset, expected.word]
  end

  def assert_said_once(replay, items)
    assert_equal([], items.filter_map { |item| replay.check(item) })
    assert_nil replay.finish
  end

  # The text of the difference of the two commands of a mismatch.
  def difference(mismatch, commands, item)
    return "" unless mismatch.kind == :header_mismatch

    Pendratsoa.difference(item.code, commands[mismatch.index].payload, item.payload)
  end

  # A mismatch after this many items, in the words of the vectors.
  def words(mismatch, items)
    places = [mismatch.index, items, mismatch.recorded_offset || "-", mismatch.replayed_offset].join(" ")
    {
      recorded_ended: "recorded_ended #{places}",
      replayed_ended: "replayed_ended #{mismatch.index}",
      type_mismatch: "other_type #{places}",
      header_mismatch: "other_command #{places}",
      bad_recorded: "malformed recorded #{mismatch.index} #{items}",
      bad_replayed: "malformed replayed #{mismatch.index} #{items}"
    }.fetch(mismatch.kind)
  end
end
