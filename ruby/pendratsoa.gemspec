# frozen_string_literal: true

require_relative "lib/pendratsoa/version"

Gem::Specification.new do |spec|
  spec.name = "pendratsoa"
  spec.version = Pendratsoa::VERSION
  spec.summary = "The journal protocol of the Restate SDKs"
  spec.description = "The journal protocol of the Restate SDKs, by the calls of Pendratsoa's shared library. " \
                     "A compiled module makes them, or Fiddle where that module is not there."
  spec.authors = ["Pendratsoa maintainers"]
  spec.license = "MIT"
  spec.required_ruby_version = ">= 3.1"
  # the shared library is there once `make ruby` has copied it beside the files, and the gem is then for its processor
  library = File.join(__dir__, "lib/pendratsoa/libpendratsoa.so")
  if File.exist?(library)
    # with the module that scripts/ruby.sh has compiled for one version of Ruby; others do without it
    spec.platform = { 62 => "x86_64-linux", 183 => "aarch64-linux" }.fetch(File.binread(library, 2, 18).unpack1("S<"))
  else
    spec.extensions = ["ext/pendratsoa/extconf.rb"]
  end
  # a release has the licences too
  pages = %w[README.md LICENSE LINKED.txt]
  parts = ["lib/**/*.{rb,so}", "ext/**/*.{rb,c,h}", "sig/*.rbs", "examples/*.rb"]
  spec.files = Dir[*parts, *pages, base: __dir__].sort
  spec.metadata["rubygems_mfa_required"] = "true"
end
