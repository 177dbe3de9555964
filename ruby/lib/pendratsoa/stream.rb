# frozen_string_literal: true

module Pendratsoa
  # A stream of a version from 5 to 9, which comes in chunks of any size.
  #
  #     stream = Pendratsoa::Stream.new(version: 8)
  #     stream.feed(chunk)
  #     stream.each { |item| puts item }
  #
  # Each loop over it continues where the one before stopped, and ends when no whole item is left. More may be fed at
  # any time, within the loop too. Several threads may use one stream; each item then comes to one of them.
  #
  # A message whose payload has more than `max_message_size` bytes raises MessageTooLong as soon as its header came, and
  # ends the stream: from then on each loop, `feed`, `read` and `finish` raise the same error, and `trailing` has what
  # was received of the message and after it. The eight bytes of its header do not count. nil is not a limit.
  #
  # Payloads are not checked: `message` of an item does that.
  #
  # With a `numbering` the payload of each message is at the protocol's own field numbers, and `bytes` and `offset` are
  # those of the stream that is read. A payload that cannot be read so is Malformed, which names its message; a next
  # loop goes on after it.
  class Stream
    include Enumerable

    # How many bytes are read at a time.
    CHUNK = 1 << 16

    # The version of the protocol.
    attr_reader :version

    # Yields the items that come from what is open for reading. Without a block it returns an Enumerator. If the input
    # ends within an item, that is Incomplete after all whole items; with `strict: false` the bytes are left out.
    def self.read(input, version: 8, size: CHUNK, strict: true, max_message_size: nil, numbering: nil, &block)
      stream = new(version: version, max_message_size: max_message_size, numbering: numbering)
      stream.read(input, size: size, strict: strict, &block)
    end

    # Unknown if there is no such version.
    def initialize(version: 8, max_message_size: nil, numbering: nil)
      @numbering = Numbered.checked("Stream", numbering)
      # messages for whose payloads there was no memory
      @unread = []
      @call = Call.new("Stream", version: version, max_message_size: max_message_size)
      @version = @call.version
      @limit = max_message_size && @call.length(:max_message_size)
      # what came and is in no item yet, which may be used by several threads; the error that ended the stream
      @pending = Compiled.pending(@version, @limit)
      @ended = nil
      # that there is no such version is known before anything came
      take
    end

    # Appends the bytes of a String, and returns the stream.
    def feed(data)
      bytes = Call.new("feed", data: data).data(:data)
      check
      @pending.feed(bytes)
      self
    end

    # The number of pending bytes: those received that no item has yet.
    def rest
      @pending.rest
    end

    # The pending bytes, `rest` of them, each time in a new binary String. Once all items were taken, they begin an item
    # that is not whole. A proxy passes them on where its input ends. After Incomplete they are still there. After
    # MessageTooLong they begin with the header of that message.
    def trailing
      @pending.trailing
    end

    # Yields the items that are whole. Without a block it returns an Enumerator.
    def each
      return enum_for unless block_given?

      pending = @pending
      while (item = @numbering ? read_item : pending.take)
        refuse(item) if item.is_a?(Integer)
        yield item
      end
      self
    end

    # Feeds what an IO or the like has, at most `size` bytes at a time, and yields the items as they come. If the input
    # ends within an item, that is Incomplete after all whole items; `trailing` has its bytes. With `strict: false` the
    # loop ends there without an error, as for an input that is still being written. Without a block it returns an
    # Enumerator.
    def read(input, size: CHUNK, strict: true, &block)
      raise ArgumentError, "read: size #{size} is less than 1" if size < 1
      return enum_for(:read, input, size: size, strict: strict) unless block

      each(&block)
      while (data = chunk(input, size))
        feed(data).each(&block)
      end
      ended("read") if strict
      self
    end

    # Says that the stream ended: Incomplete if bytes are in no item. Its items have to be taken before.
    def finish
      ended("finish")
      self
    end

    def inspect
      "#<#{self.class} of version #{version}, #{rest} bytes in no item yet>"
    end

    private

    # Raises the error that ended the stream.
    def check
      raise @ended if @ended
    end

    def ended(call)
      check
      count = rest
      return if count.zero?

      offset = @pending.offset
      code = code_of_rest
      where = "#{code ? Shown.type(code) : "an item"} at offset #{offset}"
      text = "the stream ended within #{where}, after #{Shown.byte_count(count)} of it"
      raise Incomplete.new(text, call: call, rest: count, offset: offset, code: code)
    end

    # The code of the item that the rest begins, which is its first two bytes; nil if they are not both there.
    def code_of_rest
      @pending.head.unpack1("n")
    end

    # A copy goes on by itself.
    def initialize_copy(original)
      super
      @pending = @pending.dup
      @unread = @unread.dup
    end

    # The next bytes of an input, and nil at its end.
    def chunk(input, size)
      data = input.respond_to?(:readpartial) ? input.readpartial(size) : input.read(size)
      # ARGF has an empty String where one of its files ends
      data = input.read(size) if data&.empty? && input.respond_to?(:read)
      data unless data.nil? || data.empty?
    rescue EOFError
      nil
    end

    # Takes the next item as the bytes have it, and reads its payload by the numbering.
    def read_item
      item = @unread.pop || @pending.take
      Numbered.read("Stream", @numbering, item)
    rescue OutOfMemory
      @unread.push(item) if item
      raise
    end

    # Takes the next item from the bytes, or nil if not all of it came.
    def take
      item = @pending.take
      item.is_a?(Integer) ? refuse(item) : item
    end

    # Raises the error of a negative number, or that of a kind of items that is not known.
    def refuse(number)
      check
      @call.no_item(number) unless number.negative? && @limit && @call.refused(number).is_a?(TooLong)

      code, _, length = @pending.head.unpack("nnN")
      @ended = @call.message_too_long(code, @pending.offset, length, @limit)
      raise @ended
    end
  end
end
