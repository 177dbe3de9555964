# frozen_string_literal: true

# The types that methods return, from the signatures in the folder sig, for the pages of YARD: yard doc -e returned.rb
#
# rbs reads them, which is a bundled gem of Ruby; where it is not, the pages have no types.

begin
  require "rbs"
rescue LoadError
  return
end

# The types of methods, as YARD has them in a tag.
class Returned
  # Types with further ones are shown as one: only the records of all messages are so many.
  MOST = 12

  # What the other types are.
  NAMES = {
    RBS::Types::Bases::Bool => "Boolean",
    RBS::Types::Bases::Any => "Object",
    RBS::Types::Literal => "Symbol",
    RBS::Types::Variable => "Record",
    RBS::Types::Tuple => "Array",
    RBS::Types::ClassSingleton => "Class"
  }.freeze

  def initialize(folder)
    loader = RBS::EnvironmentLoader.new
    loader.add(path: Pathname(folder))
    @builder = RBS::DefinitionBuilder.new(env: RBS::Environment.from_loader(loader).resolve_type_names)
    @definitions = {}
  end

  # The types that a method returns, or none if the signatures do not have it.
  def types(method)
    found = definition(method.namespace.path, method.scope)&.methods&.fetch(method.name, nil)
    return [] unless found && found.defined_in.to_s.start_with?("::Pendratsoa")

    found.method_types.flat_map { |one| shown(one.type.return_type, method) }.uniq
  end

  private

  # The definition of a class or a module, or nil if there is none.
  def definition(path, scope)
    *outer, last = path.split("::").map(&:to_sym)
    name = RBS::TypeName.new(name: last, namespace: RBS::Namespace.new(path: outer, absolute: true))
    return unless @builder.env.class_decls.key?(name)

    @definitions[[path, scope]] ||= scope == :class ? @builder.build_singleton(name) : @builder.build_instance(name)
  end

  # The names of a type; of a union those of all.
  def shown(type, method)
    case type
    when RBS::Types::Union then type.types.flat_map { |one| shown(one, method) }
    when RBS::Types::Optional then [*shown(type.type, method), "nil"]
    when RBS::Types::Alias then of_alias(type, method)
    when RBS::Types::ClassInstance then [of_class(type, method)]
    when RBS::Types::Bases::Instance then [method.namespace.name.to_s]
    else [NAMES.fetch(type.class) { type.to_s }]
    end
  end

  def of_alias(type, method)
    types = shown(@builder.expand_alias(type.name), method)
    types.length > MOST ? ["Record"] : types
  end

  def of_class(type, method)
    name = type.name.to_s.delete_prefix("::Pendratsoa").delete_prefix("::")
    arguments = type.args.map { |one| shown(one, method).join(", ") }
    return name if arguments.empty? || name == "Enumerator"

    name == "Hash" ? "Hash{#{arguments.join(" => ")}}" : "#{name}<#{arguments.join(", ")}>"
  end
end

YARD::Parser::SourceParser.after_parse_list do
  returned = Returned.new("sig")
  YARD::Registry.all(:method).each do |method|
    types = returned.types(method)
    next if types.empty? || method.name == :initialize

    text = method.tag(:return)&.text.to_s
    method.docstring.delete_tags(:return)
    method.add_tag(YARD::Tags::Tag.new(:return, text, types))
  end
end
