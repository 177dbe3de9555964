# frozen_string_literal: true

# The public names without a sentence, of a registry of YARD: ruby undocumented.rb REGISTRY
#
# Those that are in every class, and the constants of a family, have none: the family has one.

require "yard"

METHODS = /#(inspect|to_s|==|eql\?|hash|deconstruct(_keys)?|initialize|bytes)\z/
CONSTANTS = /::(CODE_\w+|SCHEMA|CODE|TYPE|BEFORE_VERSION)\z/

YARD::Registry.load!(ARGV[0])
private_paths = YARD::Registry.all.select { |object| object.visibility == :private }.map(&:path)
YARD::Registry.all(:module, :class, :method, :constant).each do |object|
  path = object.path
  hidden = private_paths.any? { |outer| path == outer || path.start_with?("#{outer}::", "#{outer}#", "#{outer}.") }
  next if hidden || object.root? || object.visibility != :public || path.match?(METHODS) || path.match?(CONSTANTS)

  # a type is not a sentence
  puts path if object.docstring.empty? && object.tags.all? { |tag| tag.text.to_s.empty? }
end
