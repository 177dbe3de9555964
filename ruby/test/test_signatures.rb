# frozen_string_literal: true

require_relative "helper"

begin
  require "rbs"
rescue LoadError
  warn "test_signatures.rb: not run, since there is no rbs"
end

# The signatures of sig/ have the methods and constants that there are, and no others.
class TestSignatures < Minitest::Test
  # What every object has.
  COMMON = %i[initialize to_s inspect hash == eql?].freeze

  # What the classes of records have, and their signatures do not.
  OF_RECORDS = %i[SCHEMA CODE TYPE BEFORE_VERSION].freeze

  def setup
    skip unless defined?(RBS)
    loader = RBS::EnvironmentLoader.new
    loader.add(path: Pathname(File.join(TOP, "ruby/sig")))
    @environment = RBS::Environment.from_loader(loader).resolve_type_names
    @builder = RBS::DefinitionBuilder.new(env: @environment)
  end

  def test_the_functions
    declared = names(@builder.build_singleton(type_name("Pendratsoa")))
    assert_equal Pendratsoa.singleton_methods(false).sort, declared
  end

  def test_the_classes
    refute_empty classes
    classes.each do |one|
      declared = names(@builder.build_instance(type_name(one.name))) - COMMON
      # no writer of a frozen member
      found = one.public_instance_methods(false).reject { |name| COMMON.include?(name) || name.match?(/\w=\z/) }
      # what a class inherits of a module is in both, or only in the module
      assert_equal [], (found - declared).sort, one.name
      assert_equal [], (declared - one.public_instance_methods).sort, one.name
    end
  end

  def test_the_constants
    [Pendratsoa, *classes].each do |one|
      found = one.constants(false) - (one < Pendratsoa::Record ? OF_RECORDS : [])
      assert_equal found.sort, constants_in("::#{one.name}::"), one.name
    end
  end

  private

  # The classes and modules of this gem.
  def classes
    Pendratsoa.constants.map { |name| Pendratsoa.const_get(name) }.grep(Module)
  end

  # The constants that are declared in a namespace, classes among them.
  def constants_in(namespace)
    declared = @environment.constant_decls.keys + @environment.class_decls.keys
    declared.filter_map { |name| name.name if name.namespace.to_s == namespace }.sort
  end

  def type_name(name)
    *outer, last = name.split("::").map(&:to_sym)
    RBS::TypeName.new(name: last, namespace: RBS::Namespace.new(path: outer, absolute: true))
  end

  # The public methods that are declared in this gem.
  def names(definition)
    found = definition.methods.select do |_, method|
      method.public? && ours?(method.implemented_in || method.defined_in)
    end
    found.keys.sort
  end

  def ours?(name)
    name.to_s.start_with?("::Pendratsoa")
  end
end
