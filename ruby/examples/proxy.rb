# frozen_string_literal: true

# Passes a journal on from one connection to another, with each state one greater: ruby proxy.rb VERSION HOST PORT
#
# It takes a connection at a port of this machine, which it prints, and opens one to HOST and PORT. All that it does not
# change it passes on byte for byte, also the beginning of a last item that is not whole. It ends at a payload that is
# not well-formed. A command that it changes keeps only the fields of its type, and no ignored bits of its header.

require "pendratsoa"
require "socket"

# What takes the place of an item.
def passed_on(item)
  case item
  in Pendratsoa::Message[type: "SetStateCommand", version:, message: { value: { content: } } => command]
    command.with(value: Pendratsoa::Value.new(content: (Integer(content, 10) + 1).to_s)).frame(version)
  else item.bytes
  end
end

abort "usage: proxy.rb 5..9 HOST PORT" unless ARGV.length == 3 && ARGV[0].match?(/\A[5-9]\z/)

version, host, port = ARGV
server = TCPServer.new("127.0.0.1", 0)
puts server.local_address.ip_port
$stdout.flush
source = server.accept
target = TCPSocket.new(host, port)
stream = Pendratsoa::Stream.new(version: Integer(version))
begin
  stream.read(source, strict: false) { |item| target.write(passed_on(item)) }
  target.write(stream.trailing)
  stream.finish
rescue Pendratsoa::Error => error
  abort "proxy.rb: #{error.message}"
end
