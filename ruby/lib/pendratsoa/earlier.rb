# frozen_string_literal: true

module Pendratsoa
  # Payloads of schemas that types have at earlier versions only, which `frame` of the library would read by later ones.
  module Earlier
    # The codes of the types that have such a schema.
    CODES = RECORDS.select { |record| record.const_defined?(:BEFORE_VERSION) }.map { |record| record::CODE }.freeze

    # The schema of a type at a version, if the type has another one since. What is not a version or no type has none.
    def self.schema(version, code)
      return unless CODES.include?(code)

      found = Pendratsoa.schema(version, code)
      found == Pendratsoa.schema(LAST_VERSION, code) ? nil : found
    rescue TypeError, Unknown
      nil
    end

    # The frame at a version of a payload of such a schema. Unknown if the version has another.
    def self.frame(call, version, code, schema, payload)
      if Pendratsoa.schema(version, code) != schema
        text = "#{call}: protocol version #{version} has no #{SCHEMA_NAMES[schema]}"
        raise Unknown.new(text, call: call, argument: :version, value: version)
      end

      found = Pendratsoa.canonical(schema, payload)
      Pendratsoa.header(version, code, found.bytesize) << found
    end
  end
  private_constant :Earlier
end
