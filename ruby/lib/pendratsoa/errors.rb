# frozen_string_literal: true

module Pendratsoa
  # A call failed, or the library returned what this gem does not know.
  class Error < StandardError
    # The name of the function, the name of the argument that is at fault, and its value; the argument is nil if none is
    # at fault. The text begins with the name of the function if it is about an argument of that, except of a
    # MessageTooLong.
    attr_reader :call, :argument, :value

    def initialize(message = nil, call: nil, argument: nil, value: nil)
      super(message)
      @call = call
      @argument = argument
      @value = value
    end
  end

  # What an error of a payload has, if that is the payload of a message: the code of its type, and the offset at which
  # the message begins in its stream, in bytes. Each is nil if it is not known.
  module OfPayload
    attr_reader :code, :offset

    def initialize(message = nil, code: nil, offset: nil, **details)
      super(message, **details)
      @code = code
      @offset = offset
    end
  end
  private_constant :OfPayload

  # A payload is not well-formed for its schema. `code` and `offset` say of which message, if they are not nil.
  class Malformed < Error
    include OfPayload
  end

  # An allocation of the library failed. The call can be repeated.
  class OutOfMemory < Error; end

  # A slice for numbers was too short. This gem never passes such a slice.
  class NoRoom < Error; end

  # A payload has, or would have, more than 4,294,967,295 bytes, which no header can say; or, as a MessageTooLong, more
  # than the limit of its stream.
  class TooLong < Error; end

  # The payload of a message has more bytes than the limit of its stream. The eight bytes of its header do not count.
  class MessageTooLong < TooLong
    # The code of its type, the length of its payload by its header, the limit, and where its header begins in the
    # stream, all in bytes.
    attr_reader :code, :length, :limit, :offset

    def initialize(message = nil, code: 0, length: 0, limit: 0, offset: 0, **details)
      super(message, **details)
      @code = code
      @length = length
      @limit = limit
      @offset = offset
    end
  end

  # A version, a schema, a code or a name does not exist, or is not of the kind that the call is for.
  class Unknown < Error; end

  # A notification has no id. `code` and `offset` say of which message, if they are not nil.
  class NoId < Error
    include OfPayload
  end

  # A notification has an id, and no result. `code` and `offset` say of which message, if they are not nil.
  class NoResult < Error
    include OfPayload
  end

  # A payload is well-formed for its schema, and not canonical.
  class NotCanonical < Error; end

  # A field of a record cannot be encoded.
  class FieldError < Error
    # Why, as one of FIELD_REASONS, and what leads to the field, as "value.content".
    attr_reader :reason, :path

    def initialize(message = nil, reason: nil, path: "", **details)
      super(message, **details)
      @reason = reason
      @path = path
    end

    # The error of a field, by the path to it and the reason.
    def self.of(path, reason)
      new("encode: field #{path}: #{Shown.reason(reason)}", call: "encode", reason: reason, path: path)
    end
  end

  # Which argument of a numbering has a fault.
  #
  # - `:no_set`: the descriptor set.
  # - `:no_rename`: one of the renames.
  NUMBERING_REASONS = %i[no_set no_rename].freeze

  # No numbering comes of a descriptor set and renames. `argument` is :descriptor_set or :renames.
  class NumberingError < Error
    # Which of the two has a fault, as one of NUMBERING_REASONS, and the fault, as
    # "a.proto: b.Message.field: number of a later field".
    attr_reader :reason, :text

    def initialize(message = nil, reason: nil, text: "", **details)
      super(message, **details)
      @reason = reason
      @text = text
    end
  end

  # A stream ended within an item.
  class Incomplete < Error
    # How many bytes of the item came, where it begins in the stream, and the code of its type: its first two bytes, or
    # nil if only one came.
    attr_reader :rest, :offset, :code

    def initialize(message = nil, rest: 0, offset: 0, code: nil, **details)
      super(message, **details)
      @rest = rest
      @offset = offset
      @code = code
    end
  end

  # A JSON text means no value of its schema.
  class JsonError < Error
    # Why, as one of JSON_REASONS; where the text stops being JSON, in bytes, which is nil if it is JSON; and then what
    # leads to the rejected value, as "value.content". Names of members are as they are in the text. The message of the
    # error has their control characters escaped.
    attr_reader :reason, :offset, :path

    def initialize(message = nil, reason: nil, offset: nil, path: "", **details)
      super(message, **details)
      @reason = reason
      @offset = offset
      @path = path
    end
  end
end
