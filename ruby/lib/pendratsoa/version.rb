# frozen_string_literal: true

module Pendratsoa
  # The version of this gem, which is that of the library that it belongs to.
  VERSION = "0.3.0"
end
