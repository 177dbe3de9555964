# frozen_string_literal: true

# Makes a Makefile for the compiled module. Without the headers of Ruby it makes nothing: the gem then uses only
# Fiddle.
if File.exist?(File.join(RbConfig::CONFIG.fetch("rubyhdrdir"), "ruby.h"))
  require "mkmf"
  # no path of this folder is in the module, so that it is the same from each
  append_cflags(["-std=gnu11", "-fvisibility=hidden", "-g0"])
  append_ldflags("-Wl,--strip-all")
  create_makefile("pendratsoa/#{RbConfig::CONFIG.fetch("ruby_version")}/compiled")
else
  warn "extconf.rb: there are no headers of Ruby (Debian's ruby-dev), so no module is compiled"
  File.write("Makefile", "all install clean:\n")
end
