# frozen_string_literal: true

module Pendratsoa
  # Messages whose payloads a numbering reads and writes.
  module Numbered
    # How many bytes a header has, and how many of them are before its length.
    HEADER = 8
    HEAD = 4

    # The bits of a word that are the length of the payload as received.
    LENGTH = 0xffff_ffff

    # The numbering that a call is given, or nil; nothing else may be one.
    def self.checked(call, numbering)
      return numbering if numbering.nil? || numbering.is_a?(Numbering)

      raise TypeError, "#{call}: numbering must be a Numbering, not #{numbering.class}"
    end

    # The frame of a message at the field numbers of a numbering, or as it is without one.
    def self.frame(call, numbering, version, frame)
      return frame if numbering.nil?

      checked(call, numbering)
      schema = schema(version, frame.unpack1("n"))
      schema ? with_payload(frame, numbering.write_payload(schema, frame.byteslice(HEADER..))) : frame
    end

    # The payload that a block makes of a schema and a payload, which are those of an item; nil of one that has no
    # schema. An error of the payload says of which message it is.
    def self.payload(call, item)
      schema = item.is_a?(Message) ? schema(item.version, item.code) : nil
      schema && OfMessage.reading(call, item) { yield schema, item.payload }
    end

    # The received item, with the payload that a numbering reads of its own.
    def self.read(call, numbering, item)
      payload = payload(call, item) { |schema, bytes| numbering.read_payload(schema, bytes) }
      return item unless payload

      Message.new(item.version, item.code, payload, item.requested_ack,
                  word: item.word, offset: item.offset, received: item.payload)
    end

    # How many bytes longer an item was as received, by its header: a numbering may have read the payload of a message.
    def self.longer_by(item)
      item.is_a?(Message) && item.word ? (item.word & LENGTH) - item.payload.bytesize : 0
    end

    # A message with another payload: its header is the same but the length.
    def self.with_payload(message, payload)
      message.byteslice(0, HEAD) << [payload.bytesize].pack("N") << payload
    end

    # The schema of a type at a version; a custom entry has none.
    def self.schema(version, code)
      Pendratsoa.schema(version, code)
    rescue Unknown
      nil
    end
    private_class_method :schema
  end
  private_constant :Numbered
end
