# frozen_string_literal: true

require "json"

module Pendratsoa
  # What each item of a stream has besides its fields.
  module Item
    # a copy that is not frozen could have a header that is not that of its payload
    include FrozenStruct

    WORDS = (0...(1 << 64))
    private_constant :WORDS

    # Where it begins in its stream, in bytes; nil if it came in none. It is not a member, and `==` does not compare it.
    attr_reader :offset

    # The name of its type, which only a message has; otherwise nil.
    def type = nil

    # Whether it is a message whose code is that of a command.
    def command? = false

    # Whether it is a message whose code is that of a notification.
    def notification? = false

    # The record that its payload means, if it is a message whose record is of this class; otherwise nil.
    def record(record)
      return if record.is_a?(Class) && record < MessageRecord

      what = record.is_a?(Module) ? record : "an object of #{record.class}"
      raise TypeError, "record: record must be the class of a message's record, not #{what}"
    end

    # What `case .. in` takes: its members, and `word` and `offset` if the pattern names them.
    def deconstruct_keys(keys)
      others = %i[word offset] - members
      # a Struct gives nothing for a key that is not a member, and for those after it
      found = super(keys && (keys - others))
      (others & keys.to_a).each { |name| found[name] = public_send(name) }
      found
    end

    # The item as received, byte for byte, header and payload, as a binary String: what a proxy passes on if it does not
    # change it.
    def bytes
      bytes_of(word) << payload
    end

    # Writes the item as received to an IO or the like, and returns the item.
    def write_to(output)
      output.write(bytes)
      self
    end

    private

    # The eight bytes of a word. `pack` would cut what is not a number of 64 bits.
    def bytes_of(word)
      raise TypeError, "bytes: word must be an Integer, not #{word.class}" unless word.is_a?(Integer)
      raise RangeError, "bytes: word #{Shown.value(word)} is not from 0 to 2^64 - 1" unless WORDS.cover?(word)

      [word].pack("Q>")
    end
  end

  # Errors of the codes and the payloads of messages. Their texts name no call, since neither is an argument.
  module OfMessage
    # What a block returns that reads a message. An error of the payload says of which message it is.
    def self.reading(call, message)
      yield
    rescue Malformed, NoId, NoResult => error
      where = " at offset #{message.offset}" if message.offset
      text = "#{Shown.type(message.code)}#{where}: #{text_of(error)}"
      details = { argument: error.argument, value: error.value, code: message.code, offset: message.offset }
      raise error.class.new(text, call: call, **details)
    rescue Unknown => error
      # an argument of the call itself is named with it
      raise unless error.argument == :code || error.call != call

      raise Unknown.new(text_of(error), call: call, argument: error.argument, value: error.value)
    end

    # The text of an error without the name of its call.
    def self.text_of(error)
      error.message.delete_prefix("#{error.call}: ")
    end
    private_class_method :text_of
  end
  private_constant :OfMessage

  # A message of a stream of a version: the code of its type, its payload, and whether its header requests an
  # acknowledgement. It is frozen, and so is its payload.
  #
  # `word` is the eight bytes of its header as one big-endian number, where it came in a stream, and otherwise nil. It
  # is not a member, and `==` does not compare it. In a pattern a message has its `type` and its `message` besides:
  #
  #     case item
  #     in Pendratsoa::Message[type: "SetStateCommand", message: { key:, value: { content: } }] then ..
  #     in Pendratsoa::Message[type: "SetStateCommand", payload:] then ..
  #     end
  #
  # A pattern with `message` decodes each message that is tried, and raises Malformed if one means no record.
  Message = Struct.new(:version, :code, :payload, :requested_ack) do
    include Item

    alias_method :requested_ack?, :requested_ack

    # `received` is its payload as received, if a numbering has read it.
    def initialize(version, code, payload, requested_ack = false, word: nil, offset: nil, received: nil)
      bytes = Call.new("Message.new", payload: payload).data(:payload)
      super(version, code, bytes, requested_ack ? true : false)
      @word = word || false
      @offset = offset
      @received = received
      freeze
    end

    # The eight bytes of its header as one big-endian number, or nil if it came in no stream.
    def word
      return @word || nil if @offset.nil? || !@word.nil?

      # the compiled module has left out one that is this
      (code << 48) | (requested_ack ? 1 << 47 : 0) | payload.bytesize
    end

    # The message of a type, which is given by its code or by its name as "SleepCommand" or :SleepCommand, with a
    # payload. It requests an acknowledgement if the header of its type does at this version. The payload is taken as it
    # is: `frame` rejects one that is malformed. Unknown if there is no such version or type.
    def self.of(type, payload = "", version: 8)
      code = code_of(type)
      bytes = Call.new("Message.of", payload: payload).data(:payload)
      # the flag is the high bit of the third byte
      new(version, code, bytes, Pendratsoa.header(version, code, bytes.bytesize).getbyte(2) >= 0x80)
    end

    # The message of a record, whose type follows from the class of the record. It requests an acknowledgement if the
    # header of its type does at this version. Unknown if there is no such version, or the record is not one of it;
    # FieldError, or a TypeError, as `encode` of the record.
    def self.of_record(record, version: 8)
      unless record.is_a?(MessageRecord)
        raise TypeError, "Message.of_record: record must be that of a message, not #{record.class}"
      end

      of(record.class::CODE, record.frame(version).byteslice(8..), version: version)
    end

    # The message of a type that JSON means: a text in protobuf's form, or a Hash as `json` returns it. Its payload is
    # canonical, and it requests an acknowledgement if the header of its type does at this version. JsonError if the
    # text means no such message; Unknown if there is no such version or type, or the type is that of a custom entry.
    def self.from_json(type, json, version: 8)
      code = code_of(type)
      # the deepest message has 202 levels of JSON
      text = json.is_a?(Hash) ? JSON.generate(json, max_nesting: 1000) : json
      of(code, Pendratsoa.from_json(Pendratsoa.schema(version, code), text), version: version)
    end

    # The code of a type that is given by its code or its name.
    def self.code_of(type)
      case type
      when Symbol then Pendratsoa.type_code(type.name)
      when String then Pendratsoa.type_code(type)
      else type
      end
    end
    private_class_method :code_of

    # The name of its type, as "SleepCommand", or "CustomEntry(64513)". Unknown if no type has its code.
    def type
      reading("type") { Pendratsoa.type_name(code) }
    end

    # The record that its payload means, which is decoded each time. A custom entry has none: nil. Malformed if the
    # payload means none.
    def message
      found = class_of_record
      found && reading("message") { found.decode(payload) }
    end

    # The record that its payload means, if it is of this class; otherwise nil, and nothing is decoded. Malformed if the
    # payload means none.
    def record(record)
      found = class_of_record
      return super unless found && found == record

      reading("record") { record.decode(payload) }
    end

    # The number of its payload's schema. A custom entry has none: Unknown.
    def schema
      reading("schema") { Pendratsoa.schema(version, code) }
    end

    # Whether its code is that of a command.
    #
    # A custom entry is a message of any code that no named type has, with one of its upper six bits set: 0x0400 and
    # above. By its code it may count as a command or a notification. `compare_journals` and a replay do not compare it.
    def command?
      COMMAND_CODES.cover?(code)
    end

    # Whether its code is that of a notification. As with `command?`, it may be a custom entry.
    def notification?
      NOTIFICATION_CODES.cover?(code)
    end

    # What its payload means, as protobuf's JSON has it: hashes, arrays, texts and numbers. A custom entry has no
    # schema: Unknown.
    def json
      JSON.parse(reading("json") { Pendratsoa.to_json(schema, payload) }, max_nesting: false)
    end

    # The canonical encoding of its payload. A custom entry has no schema: Unknown.
    def canonical
      reading("canonical") { Pendratsoa.canonical(schema, payload) }
    end

    # Its frame at a version, or at its own: the header, and after it the canonical payload, at the field numbers of a
    # numbering if one is given. Whether the header requests an acknowledgement depends on the type and the version, and
    # not on `requested_ack`. Unknown if the version cannot have its payload: a suspension before version 7 has no frame
    # from 7 on, and one since then has a frame at each.
    def frame(version = self.version, numbering: nil)
      Numbered.frame("frame", numbering, version, frame_at("frame", version))
    end

    # Appends its frame, as `frame` returns it, to a binary String, which it returns. After an error it is as it was.
    def append_frame(out, version = self.version, numbering: nil)
      raise TypeError, "append_frame: out must be a String, not #{out.class}" unless out.is_a?(String)

      out << Numbered.frame("append_frame", numbering, version, frame_at("append_frame", version))
    end

    # Writes its frame, as `frame` returns it, to an IO or the like, and returns the message.
    def write_frame(output, version = self.version, numbering: nil)
      output.write(frame(version, numbering: numbering))
      self
    end

    # The message as received; if it came in no stream, its payload as it is after the header of its type.
    def bytes
      came = word
      return Pendratsoa.header(version, code, payload.bytesize) << payload unless came

      bytes_of(came) << (@received || payload)
    end

    # Its id and its result, if it is a notification.
    def notification
      reading("notification") { Pendratsoa.notification(code, payload) }
    end

    # The name of its type and the length of its payload in bytes.
    def to_s
      "#{type} #{payload.bytesize}#{" ack" if requested_ack}"
    rescue Error
      "code #{Shown.code(code)} #{payload.bytesize}"
    end

    def inspect
      "#<#{self.class} #{self}, version #{version}, payload #{Shown.bytes(payload)}>"
    end

    # What `case .. in` takes: its members, the name of its type, which is nil if no type has its code, and if the
    # pattern names it the record. A custom entry has no record: nil. Malformed if the payload means none.
    def deconstruct_keys(keys)
      found = super(keys && (keys - %i[type message]))
      found[:type] = name_of_type if keys.nil? || keys.include?(:type)
      found[:message] = message if keys&.include?(:message)
      found
    end

    private

    # The class of its record; a custom entry has none. Unknown if there is no such version or type.
    def class_of_record
      number = Pendratsoa.schema(version, code)
      RECORDS[number] || raise(Call.new("message").unexpected("the schema #{number}"))
    rescue Unknown
      # what has a header and no schema is a custom entry; of anything else `schema` raises the error
      reading("message") { schema } unless custom_entry?
    end

    def custom_entry?
      Pendratsoa.header(version, code, 0)
      true
    rescue Unknown
      false
    end

    # Its frame at a version.
    def frame_at(call, version)
      earlier = Earlier.schema(self.version, code)
      reading(call) do
        next Earlier.frame(call, version, code, earlier, payload) if earlier

        Named.call(Named::FRAME, call, version, code, payload)
      end
    end

    # What a block returns that reads it. An error of its payload says of which message it is.
    def reading(call, &)
      OfMessage.reading(call, self, &)
    end

    def name_of_type
      type
    rescue Error
      nil
    end
  end

  # Eight bytes with an unassigned code, before version 9, an item of their own; `word` is all eight as one big-endian
  # number. It is frozen. The programs call it an unknown header.
  UnknownCode = Struct.new(:version, :code, :word) do
    include Item

    def initialize(*members, offset: nil)
      super(*members)
      @offset = offset
      freeze
    end

    def bytes
      bytes_of(word)
    end

    def to_s
      "unknown 0x#{code.to_s(16)}"
    end

    def inspect
      "#<#{self.class} #{self}, version #{version}>"
    end
  end

  # A message of an unknown type, which is skipped with its payload from version 9 on; `word` is its header's eight
  # bytes as one big-endian number. It is frozen, and so is its payload.
  Skipped = Struct.new(:version, :code, :word, :payload) do
    include Item

    def initialize(version, code, word, payload, offset: nil)
      super(version, code, word, Call.new("Skipped.new", payload: payload).data(:payload))
      @offset = offset
      freeze
    end

    def to_s
      "skipped 0x#{code.to_s(16)} #{payload.bytesize}"
    end

    def inspect
      "#<#{self.class} #{self}, version #{version}, payload #{Shown.bytes(payload)}>"
    end
  end
end
