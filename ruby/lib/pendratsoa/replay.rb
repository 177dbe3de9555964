# frozen_string_literal: true

require "stringio"

module Pendratsoa
  # A field in which two commands differ, as the text of their mismatch prints it: its name in the .proto, what the
  # recorded command has, and what the replayed one has, all in UTF-8.
  #
  # A text is as it is in the journal, of any length and with any control characters; bytes are quoted. Escape both
  # values before you print them in a line.
  ChangedField = Struct.new(:name, :recorded, :replayed) do
    include FrozenStruct

    def initialize(*)
      super
      freeze
    end
  end

  # Where a replay leaves its recording: all commands before this one are the same.
  #
  # The kind is one of VERDICT_KINDS but :same, and the index that of the command, from 0. `recorded_offset` is where
  # the recorded command begins in the recording, in bytes; if the recording has ended, where its last command begins,
  # or nil if it has none. `replayed_offset` is where the replayed command begins in the replay, or where that ends.
  # The text is that of a mismatch of two commands, as the SDKs report it, and otherwise empty. The fields are the
  # printed ones in which two commands of one type differ, each a ChangedField. There are none if the commands differ
  # only in what is not printed, such as the name of most commands.
  Mismatch = Struct.new(:kind, :index, :recorded_offset, :replayed_offset, :text, :fields) do
    include FrozenStruct

    def initialize(*)
      super
      freeze
    end
  end

  # A replay of a version from 5 to 9, which is checked by its recording as it comes.
  #
  #     replay = Pendratsoa::Replay.new(8, recorded)
  #     stream.each { |item| mismatch = replay.check(item) }
  #
  # The recording is a whole journal: bytes after its last whole item are not compared, and `recorded_rest` is how many
  # there are. `ignore_payloads` leaves the content of user data out of the comparison, but not that of a signal, and
  # `ignore_ids` leaves completion ids out. Nothing of the replay is kept: its memory does not grow. Several threads may
  # use one replay.
  class Replay
    # How many bytes a header has.
    HEADER = 8
    private_constant :HEADER

    # The version of the protocol.
    attr_reader :version

    # Unknown if there is no such version.
    def initialize(version, recorded, ignore_payloads: false, ignore_ids: false)
      @recorded = Call.new("Replay", recorded: recorded).data(:recorded)
      # that there is no such version is known before an item comes
      Named.call(Named::VERDICT, "Replay", version, "", "", ignore_payloads)
      @version = version
      ignored = { ignore_payloads: ignore_payloads, ignore_ids: ignore_ids }.select { |_, is_set| is_set }.keys
      # each option is a bit, by its place in the list, which begins with none
      options = ignored.sum { |name| 1 << (REPLAY_OPTIONS.index(name) - 1) }
      @replay = [version, options, 0, 0, 0, 0].pack("Q*").freeze
      # how many bytes longer the items were as received
      @longer = 0
      @lock = Mutex.new
    end

    # How many commands were the same, which is the index of the one that comes next.
    def index
      @replay.unpack("Q*")[2]
    end

    # Checks the next item of the replay by the command that comes next in the recording.
    #
    # nil if there is nothing to report: the commands are the same, or the item is not a command. A mismatch is
    # reported once: afterwards nothing is compared. `compare_journals` of the recording and of all items so far has
    # the same kind, index and text. OutOfMemory changes nothing, so that the call can be repeated.
    def check(item)
      raise TypeError, "check: item must be an item of a stream, not #{item.class}" unless item.is_a?(Item)

      payload = item.is_a?(UnknownCode) ? "" : item.payload
      @lock.synchronize do
        said, *numbers, replay = Named.call(Named::REPLAY_CHECK, "check", item.code, @recorded, payload, @replay)
        found = said.zero? ? nil : mismatch("check", item.code, payload, numbers)
        # the replay goes on once all of the mismatch is there
        @replay = replay.freeze
        @longer += Numbered.longer_by(item)
        found
      end
    end

    # The command that comes next in the recording, which is not taken; nil if there is none.
    #
    # Its `offset` is that in the recording, and its `message` has the name or the key of a command that has one. After
    # a mismatch it is the command at the index of that.
    def expected
      count, offset, _, size = Named.call(Named::REPLAY_EXPECTED, "expected", @recorded, @replay)
      return if count.zero?

      pending = Compiled.pending(@version, nil)
      pending.feed(@recorded.byteslice(offset, size))
      found = pending.take
      Message.new(found.version, found.code, found.payload, found.requested_ack, word: found.word, offset: offset)
    end

    # Says that the replay ended. nil if nothing is left of the recording, or a mismatch was reported; otherwise the
    # mismatch of the command that comes next, whose kind is :replayed_ended. It changes nothing.
    def finish
      @lock.synchronize do
        left, *numbers = Named.call(Named::REPLAY_FINISH, "finish", @recorded, @replay)
        left.zero? ? nil : mismatch("finish", 0, "", numbers)
      end
    end

    # How many bytes of the recording follow its last whole item, which are not compared: 0 of a whole one. It walks
    # over the recording, and changes nothing.
    def recorded_rest
      Stream.read(StringIO.new(@recorded), version: @version, strict: false) { nil }.rest
    end

    def inspect
      "#<#{self.class} of version #{version}, #{index} commands the same>"
    end

    private

    # The mismatch of these numbers, of the item of this code and payload.
    def mismatch(call, code, payload, numbers)
      kind, index, replayed_offset, recorded_offset, _, size = numbers
      kind = Call.new(call).kind(VERDICT_KINDS, kind, "verdict")
      text = %i[type_mismatch header_mismatch].include?(kind) ? text_of(call, code, payload) : ""
      recorded = @recorded.byteslice(recorded_offset + HEADER, [size - HEADER, 0].max)
      fields = kind == :header_mismatch ? changed_fields(call, code, recorded, payload) : []
      recorded_offset = nil if size.zero?
      Mismatch.new(kind, index, recorded_offset, replayed_offset + @longer, text.freeze, fields.freeze)
    end

    # The text of the mismatch of an item.
    def text_of(call, code, payload)
      Named.call(Named::REPLAY_TEXT, call, code, @recorded, payload, @replay).force_encoding(Encoding::UTF_8)
    end

    # The printed fields in which two commands of a type differ.
    def changed_fields(call, code, recorded, replayed)
      fields = []
      loop do
        found, *lengths = Named.call(Named::CHANGED_FIELD, call, code, fields.length, recorded, replayed)
        return fields if found.empty?

        begins = [0, lengths[0], lengths[0] + lengths[1]]
        parts = begins.zip(lengths).map { |begin_, length| found.byteslice(begin_, length) }
        fields << ChangedField.new(*parts.map { |part| part.force_encoding(Encoding::UTF_8).freeze })
      end
    end
  end
end
