# frozen_string_literal: true

require_relative "helper"
require "objspace"
require "socket"
require "stringio"
require "tmpdir"

class TestStream < Minitest::Test
  STREAM = "#{Helper::INPUT}#{["000800000000000000058000000000050801720178040000000000001401"].pack("H*")}"
           .b.freeze
  ITEMS = [
    Pendratsoa::Message.new(8, 0x0400, "r\x07\n\x05input"),
    Pendratsoa::UnknownCode.new(8, 8, 8 << 48),
    Pendratsoa::Message.new(8, 0x0005, "\x08\x01r\x01x", true)
  ].freeze

  def test_items_are_the_same_however_the_stream_is_split
    (1..STREAM.bytesize).each do |size|
      stream = Pendratsoa::Stream.new(version: 8)
      items = STREAM.scan(/.{1,#{size}}/mn).flat_map { |chunk| stream.feed(chunk).to_a }
      assert_equal ITEMS, items
      assert_equal 9, stream.rest
    end
  end

  def test_items_of_inputs
    reader, writer = Socket.pair(:UNIX, :STREAM)
    writer.write(STREAM)
    writer.close
    only_read = Object.new
    whole = StringIO.new(STREAM)
    only_read.define_singleton_method(:read) { |size| whole.read(size) }
    [StringIO.new(STREAM), reader, only_read].each do |input|
      stream = Pendratsoa::Stream.new(version: 8)
      assert_equal ITEMS, stream.read(input, size: 5, strict: false).to_a
      assert_equal 9, stream.rest
    end
    assert_equal ITEMS, Pendratsoa::Stream.read(StringIO.new(STREAM), strict: false).to_a
    found = []
    Pendratsoa::Stream.read(StringIO.new(STREAM), version: 8, size: 1, strict: false) { |item| found << item }
    assert_equal ITEMS, found
  end

  def test_the_files_of_argf
    Dir.mktmpdir do |folder|
      paths = [STREAM.byteslice(0, 20), "", STREAM.byteslice(20..)].each_with_index.map do |part, index|
        File.join(folder, index.to_s).tap { |path| File.binwrite(path, part) }
      end
      assert_equal ITEMS, Pendratsoa::Stream.read(ARGF.class.new(*paths), version: 8, strict: false).to_a
    end
  end

  def test_an_input_is_read_as_items_are_taken
    reader, writer = IO.pipe
    items = Pendratsoa::Stream.read(reader, version: 8, strict: false)
    writer.write(STREAM.byteslice(0, 20))
    assert_equal ITEMS[0], items.next
    writer.write(STREAM.byteslice(20..))
    assert_equal ITEMS[1], items.next
    writer.close
    assert_equal ITEMS[2], items.next
    assert_raises(StopIteration) { items.next }
  end

  def test_inputs_that_fail
    stream = Pendratsoa::Stream.new
    broken = Object.new
    def broken.readpartial(_size) = raise(IOError, "broken")
    assert_raises(IOError) { stream.read(broken) { flunk } }
    assert_raises(NoMethodError) { stream.read(nil) { flunk } }
    other = Object.new
    def other.read(_size) = [1]
    assert_raises(TypeError) { stream.read(other) { flunk } }
    assert_raises(ArgumentError) { stream.read(StringIO.new, size: 0) }
    assert_raises(ArgumentError) { stream.read(StringIO.new, size: -1) { flunk } }
    assert_equal ITEMS, stream.read(StringIO.new(STREAM), strict: false).to_a
  end

  def test_loops_go_on_where_they_stopped
    stream = Pendratsoa::Stream.new.feed(STREAM)
    assert_equal ITEMS[0], stream.first
    assert_equal(ITEMS[1], stream.find { true })
    assert_equal [ITEMS[2]], stream.to_a
    assert_empty stream.to_a
  end

  def test_a_loop_goes_on_after_a_payload_that_is_malformed
    stream = Pendratsoa::Stream.new
    bad = unhex("04030000000000010a")
    stream.feed(bad + Helper::INPUT)
    assert_raises(Pendratsoa::Malformed) { stream.each(&:message) }
    assert_equal [ITEMS[0]], stream.to_a
    input = StringIO.new(bad + Helper::INPUT)
    assert_raises(Pendratsoa::Malformed) { stream.read(input, &:message) }
    assert_equal [ITEMS[0]], stream.read(input).to_a
  end

  def test_a_loop_that_feeds
    stream = Pendratsoa::Stream.new.feed(Helper::INPUT)
    count = 0
    stream.each { stream.feed(Helper::INPUT) if (count += 1) < 100 }
    assert_equal 100, count
  end

  def test_a_copy_goes_on_by_itself
    stream = Pendratsoa::Stream.new.feed(Helper::INPUT.byteslice(0, 3))
    copy = stream.dup
    stream.feed("\xff")
    assert_equal [ITEMS[0]], copy.feed(Helper::INPUT.byteslice(3..)).to_a
    assert_equal [4, 0], [stream.rest, copy.rest]
    assert_equal ["#{Helper::INPUT.byteslice(0, 3)}\xff".b, ""], [stream.trailing, copy.trailing]
  end

  def test_bytes_that_no_item_has
    (1..STREAM.bytesize).each do |size|
      stream = Pendratsoa::Stream.new
      came = taken = 0
      STREAM.scan(/.{1,#{size}}/mn) do |chunk|
        stream.feed(chunk)
        came += chunk.bytesize
        # before the items are taken, between two of them, and after the last one
        assert_equal STREAM.byteslice(taken, came - taken), stream.trailing
        stream.each do |item|
          taken += item.bytes.bytesize
          assert_equal STREAM.byteslice(taken, came - taken), stream.trailing
        end
        assert_equal stream.rest, stream.trailing.bytesize
      end
      assert_equal STREAM[-9..], stream.trailing
    end
  end

  def test_trailing_bytes_are_a_string_of_their_own
    stream = Pendratsoa::Stream.new.feed("\u0004".encode("UTF-16LE"))
    2.times do
      trailing = stream.trailing
      assert_equal ["\x04\x00", Encoding::BINARY, false], [trailing, trailing.encoding, trailing.frozen?]
      trailing << "more"
    end
    assert_equal ["", Encoding::BINARY], [Pendratsoa::Stream.new.trailing, Pendratsoa::Stream.new.trailing.encoding]
    assert_equal [ITEMS[0]], stream.feed(Helper::INPUT.byteslice(2..)).to_a
    assert_equal "", stream.trailing
    # and keep nothing else of what came in memory
    long = Pendratsoa::Stream.new.feed(Pendratsoa.header(8, Helper::CODES[:custom_entry], 1_000_000))
    assert_equal 1, long.feed("#{"x" * 1_000_000}#{"y" * 7}").count
    assert_operator ObjectSpace.memsize_of(long.trailing), :<, 1000
  end

  def test_trailing_bytes_once_a_stream_ended
    stream = Pendratsoa::Stream.new
    items = stream.read(StringIO.new(Helper::INPUT + Helper::INPUT.byteslice(0, 12)), size: 5)
    assert_equal ITEMS[0], items.next
    [-> { items.next }, -> { stream.finish }, -> { stream.finish }].each do |call|
      error = assert_raises(Pendratsoa::Incomplete, &call)
      assert_equal [Helper::INPUT.byteslice(0, 12), 12], [stream.trailing, error.rest]
    end
    # more may come all the same
    assert_equal [ITEMS[0]], stream.feed(Helper::INPUT.byteslice(12..)).to_a
    limited = Pendratsoa::Stream.new(max_message_size: 8).feed("#{Helper::INPUT}more")
    assert_equal "#{Helper::INPUT}more", limited.trailing
    [-> { limited.to_a }, -> { limited.feed("x") }, -> { limited.finish }, -> { limited.to_a }].each do |call|
      assert_raises(Pendratsoa::MessageTooLong, &call)
      assert_equal ["#{Helper::INPUT}more", Helper::INPUT.bytesize + 4], [limited.trailing, limited.rest]
    end
    copy = limited.dup
    assert_equal limited.trailing, copy.trailing
    assert_raises(Pendratsoa::MessageTooLong) { copy.to_a }
  end

  def test_version_9_skips_a_message_with_its_payload
    stream = Pendratsoa::Stream.new(version: 9).feed(unhex("00080000000000020003000300000000"))
    assert_equal [Pendratsoa::Skipped.new(9, 8, (8 << 48) | 2, "\x00\x03")], stream.to_a
    assert_equal 6, stream.rest
  end

  def test_bytes_of_every_encoding_and_size
    payload = "\u00e9" * 100_000
    stream = Pendratsoa::Stream.new
    stream.feed(Pendratsoa.header(8, Helper::CODES[:custom_entry], payload.bytesize))
    payload.each_char.each_slice(777) { |characters| stream.feed(characters.join) }
    stream.feed(Helper::INPUT.dup.force_encoding(Encoding::UTF_16LE))
    items = stream.to_a
    assert_equal [payload.b, ITEMS[0].payload], items.map(&:payload)
    assert_equal [Encoding::BINARY], items.map { |item| item.payload.encoding }.uniq
  end

  def test_what_is_fed_may_change_later
    data = Helper::INPUT.dup
    stream = Pendratsoa::Stream.new.feed(data)
    data.replace("x" * data.bytesize)
    assert_equal [ITEMS[0]], stream.to_a
  end

  def test_what_is_no_stream
    [4, 10, -1, (1 << 32) + 8, 8 - (1 << 32), 1 << 64].each do |version|
      error = assert_error(Pendratsoa::Unknown, "Stream: unknown protocol version #{version} (5 to 9)") do
        Pendratsoa::Stream.new(version: version)
      end
      assert_equal ["Stream", :version, version], [error.call, error.argument, error.value]
    end
    [nil, "8", 8.0, 8r, :v8, Object.new].each do |version|
      assert_raises(TypeError) { Pendratsoa::Stream.new(version: version) }
    end
    [nil, 5, :data, [1, 2], Object.new, 1..2].each do |data|
      stream = Pendratsoa::Stream.new
      assert_raises(TypeError) { stream.feed(data) }
      assert_equal 0, stream.rest
    end
  end

  def test_bytes_that_were_taken_are_dropped
    chunk = (Pendratsoa.header(8, Helper::CODES[:custom_entry], 100) + ("x" * 100)) * 400
    stream = Pendratsoa::Stream.new
    before = held
    # the last payload of each chunk is kept, and not the chunk
    payloads = Array.new(200) { stream.feed(chunk).to_a.last.payload }
    assert_operator held - before, :<, 100 * chunk.bytesize
    assert_equal ["x" * 100], payloads.uniq
  end

  def test_several_threads_share_a_stream
    stream = Pendratsoa::Stream.new
    is_fed = false
    taking = Array.new(4) do
      # to the end of what is fed, in whichever order the threads get their turns
      Thread.new { [].tap { |items| items.concat(stream.to_a) && Thread.pass until is_fed } }
    end
    feeding = Array.new(2) { Thread.new { 500.times { stream.feed(Helper::INPUT) && Thread.pass } } }
    feeding.each(&:join)
    is_fed = true
    found = taking.flat_map(&:value) + stream.to_a
    assert_equal [ITEMS[0]] * 1000, found
  ensure
    is_fed = true
  end

  def test_texts
    stream = Pendratsoa::Stream.new.feed(STREAM)
    assert_equal "#<Pendratsoa::Stream of version 8, #{STREAM.bytesize} bytes in no item yet>", stream.inspect
    assert_equal ["InputCommand 9", "unknown 0x8", "ProposeRunCompletion 5 ack"], stream.map(&:to_s)
    payload = ITEMS[0].payload
    assert_equal "#<Pendratsoa::Message InputCommand #{payload.bytesize}, version 8, payload #{payload.inspect}>",
                 ITEMS[0].inspect
    assert_equal "#<Pendratsoa::UnknownCode unknown 0x8, version 8>", ITEMS[1].inspect
    skipped = Pendratsoa::Skipped.new(9, 255, 0, "x" * 100)
    assert_equal "#<Pendratsoa::Skipped skipped 0xff 100, version 9, payload \"xxxxxxxxxxxxxxxx\"... (100 bytes)>",
                 skipped.inspect
  end

  def test_a_message_that_is_longer_than_the_limit
    endless = ["00000000ffffffff010203"].pack("H*")
    stream = Pendratsoa::Stream.new(max_message_size: 9)
    stream.feed(Helper::INPUT + endless)
    items = []
    2.times do
      error = assert_raises(Pendratsoa::MessageTooLong) { stream.each { |item| items << item } }
      text = "a message of type Start (0x0000) at offset 17 has 4294967295 bytes, more than the limit of 9"
      assert_equal text, error.message
      assert_equal [0, 0xffff_ffff, 9, 17], [error.code, error.length, error.limit, error.offset]
      assert_equal ["Stream", :max_message_size, 9], [error.call, error.argument, error.value]
      assert_equal endless, stream.trailing
    end
    assert_equal ITEMS.take(1), items
    assert_raises(Pendratsoa::MessageTooLong) { stream.feed("x") }
    assert_raises(Pendratsoa::MessageTooLong) { stream.finish }
    [false, true].each do |strict|
      read = Pendratsoa::Stream.read(StringIO.new(Helper::INPUT), strict: strict, max_message_size: 8)
      assert_raises(Pendratsoa::MessageTooLong) { read.to_a }
    end
    assert_empty Pendratsoa::Stream.new.feed(endless).to_a
    assert_raises(ArgumentError) { Pendratsoa::Stream.new(max_message_size: -1) }
    error = assert_raises(Pendratsoa::TooLong) { Pendratsoa::Stream.new(max_message_size: 1 << 32) }
    assert_instance_of Pendratsoa::TooLong, error
  end

  private

  # How many bytes all objects hold.
  def held
    GC.start
    ObjectSpace.memsize_of_all
  end
end
