# frozen_string_literal: true

module Pendratsoa
  # What a frozen object has, so that its copies are frozen too.
  module Frozen
    def initialize_copy(original)
      super
      freeze
    end
  end
  private_constant :Frozen

  # What a frozen Struct has, so that what Marshal loads is frozen too, with its members: Marshal calls no `initialize`.
  module FrozenStruct
    include Frozen

    private

    # The members and the variables, by their names.
    def marshal_dump
      [to_h, instance_variables.to_h { |name| [name, instance_variable_get(name)] }]
    end

    def marshal_load(dumped)
      members, variables = dumped
      members.each { |name, value| self[name] = value.freeze }
      variables.each { |name, value| instance_variable_set(name, value.freeze) }
      freeze
    end
  end
  private_constant :FrozenStruct
end
