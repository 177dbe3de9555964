# frozen_string_literal: true

module Pendratsoa
  # What came of a stream and is in no item yet: by Fiddle, where the compiled module is not in use.
  class Pending
    # How many items are looked for at once, since a call costs more than finding one.
    LOOKED = 32

    # The limit that is none.
    NO_LIMIT = (2**32) - 1

    # How many bytes items have taken.
    attr_reader :offset

    # Of a stream of a version, and of a limit or nil.
    def initialize(version, limit)
      @version = version
      @limit = limit
      @offset = 0
      @lock = Mutex.new
      # what came, where that which is in no item yet begins in it, and how many bytes of that the next item needs
      @bytes = String.new
      @begin = 0
      @needed = 0
      # the numbers of the items that were found last, and how many of them were taken
      @found = []
      @taken = 0
    end

    # Appends the bytes of a String that does not change.
    def feed(bytes)
      @lock.synchronize do
        # used bytes are dropped once they are the greater part
        drop_used if @begin > @bytes.bytesize / 2
        @bytes << bytes
      end
      self
    end

    # The number of pending bytes: those received that no item has yet.
    def rest
      @lock.synchronize { @bytes.bytesize - @begin }
    end

    # The pending bytes, in a String of its own: a slice could keep all of what came in memory.
    def trailing
      @lock.synchronize { String.new << @bytes.byteslice(@begin..) }
    end

    # The first eight bytes of what is in no item yet, or fewer if fewer came.
    def head
      @lock.synchronize { @bytes.byteslice(@begin, 8) }
    end

    # The next item, or nil if not all of it came; or a number: an error of the library, or a kind of items that is not
    # known.
    def take
      @lock.synchronize do
        next cut if @taken < @found.length
        next if @bytes.bytesize - @begin < @needed

        missing = look
        @needed = missing.positive? ? @bytes.bytesize - @begin + missing : 0
        next cut if missing.zero?

        missing.negative? ? missing : nil
      end
    end

    private

    # A copy goes on by itself.
    def initialize_copy(original)
      super
      @lock = Mutex.new
      @bytes = @bytes.dup
    end

    # Looks for items: returns 0 if some were found, otherwise how many bytes are missing at least, or an error.
    def look
      count = missing = 0
      whole = Fiddle::Pointer[@bytes]
      numbers = Library.numbers(ITEM_NUMBERS * LOOKED) do |room|
        rest = @version, @limit || NO_LIMIT, whole + @begin, whole.size - @begin, room
        count = Library.call(:journal_items, *rest, LOOKED)
        missing = count.zero? ? Library.call(:journal_next_within, *rest, ITEM_NUMBERS) : [count, 0].min
      end
      @found = numbers.each_slice(ITEM_NUMBERS).first(missing.zero? ? [count, 1].max : 0)
      @taken = 0
      missing
    end

    def drop_used
      @bytes = @bytes.byteslice(@begin..)
      @begin = 0
    end

    # Cuts the next item that was found from the bytes; or its kind if that is not known.
    def cut
      kind, word, code, requested_ack, size, payload_begin = @found[@taken]
      unless kind < ITEM_KINDS.length
        @found = []
        return kind
      end

      # a copy; a slice of the String could keep all of it in memory
      payload = Fiddle::Pointer[@bytes][@begin + payload_begin, size - payload_begin]
      offset = @offset
      @taken += 1
      @begin += size
      @offset += size
      case ITEM_KINDS[kind]
      when :message then Message.new(@version, code, payload, requested_ack == 1, word: word, offset: offset)
      when :unknown_code then UnknownCode.new(@version, code, word, offset: offset)
      else Skipped.new(@version, code, word, payload, offset: offset)
      end
    end
  end
  private_constant :Pending
end
