# frozen_string_literal: true

# The signatures of sig/ hold: rbs checks what each method is given and what it returns, while this program uses all of
# the gem. At its end it prints how many classes and modules were checked.

require "pendratsoa"
require "rbs"
require "rbs/test"
require "stringio"
require_relative "descriptors"

# The program.
module Typed
  TOP = File.expand_path("../..", __dir__)

  module_function

  # Lets rbs check all calls of a gem's module and of those in it, and returns them.
  def check(gem)
    RBS.logger_level = "error"
    loader = RBS::EnvironmentLoader.new
    loader.add(path: Pathname(File.join(TOP, "ruby/sig")))
    tester = RBS::Test::Tester.new(env: RBS::Environment.from_loader(loader).resolve_type_names)
    modules = [gem, *gem.constants.map { |name| gem.const_get(name) }.grep(Module)]
    modules.each { |one| tester.install!(one, sample_size: 100, unchecked_classes: []) }
  end

  # The words of each line of a kind in a file of test vectors.
  def lines(file, kind)
    File.readlines(File.join(TOP, "conformance", file), chomp: true).grep(/\A#{kind} /).map { |line| line.split[1..] }
  end

  def bytes(word)
    [word.delete_prefix("-")].pack("H*")
  end

  # Takes values that methods returned.
  def used(*) = nil

  # What a block returns, or nil if that is an error of the gem, whose attributes are read.
  def tried
    yield
  rescue Pendratsoa::Error => error
    error.class.public_instance_methods(false).each { |name| error.public_send(name) if name != :initialize }
    used(error.call, error.argument, error.value)
    nil
  end

  def records
    lines("records.txt", "record").each do |name, word|
      record = Pendratsoa.const_get(name).decode(bytes(word))
      record.to_h.each_key { |member| record.public_send(member) }
      record.with(**record.to_h).encode
      record.class.members
      record.deconstruct_keys(nil)
      tried { record.frame(6) } if record.is_a?(Pendratsoa::MessageRecord)
      tried { record.frame(8, numbering: numbering) } if record.is_a?(Pendratsoa::MessageRecord)
    end
    member = Pendratsoa::NotificationTemplateSignalId.new(1)
    used(member.value, member.deconstruct, member.deconstruct_keys(%i[value]), Pendratsoa::Member.of)
    tried { Pendratsoa::Value.decode("\n") }
    tried { Pendratsoa::SleepCommandMessage.new(wake_up_time: -1).encode }
  end

  def streams
    lines("streams.txt", "stream").each do |version, *words|
      stream = Pendratsoa::Stream.new(version: Integer(version), max_message_size: 1000, numbering: nil)
      words.take_while { |word| word != "=" }.each { |word| stream.feed(bytes(word)) }
      tried { stream.each { |item| item(item) } }
      used(stream.rest, stream.trailing, stream.version)
      tried { stream.finish }
    end
    input = StringIO.new(File.binread(File.join(TOP, "examples/streams/recorded")))
    Pendratsoa::Stream.read(input, version: 8, size: 10, strict: true) { |item| item(item) }
    tried { Pendratsoa::Stream.new(max_message_size: 1).feed([0x0400_0000, 9].pack("NN")).each { |item| item(item) } }
  end

  def item(item)
    used(item.offset, item.bytes, item.version, item.code, item.write_to(StringIO.new))
    used(item.command?, item.notification?, item.deconstruct_keys(%i[code]), item.deconstruct_keys(nil))
    tried { item.type }
    item.record(Pendratsoa::SetStateCommandMessage)
    message(item) if item.is_a?(Pendratsoa::Message)
  end

  def message(item)
    %i[payload requested_ack word message type schema requested_ack? command? notification? json canonical frame
       notification].each { |name| tried { item.public_send(name) } }
    tried { item.append_frame(+"".b, 8, numbering: numbering) }
    tried { item.write_frame(StringIO.new, 8) }
  end

  def functions
    code = Pendratsoa.type_code("SetStateCommand")
    payload = bytes("0a01611a030a0131")
    used(Pendratsoa.library_version, Pendratsoa.schema(8, code), Pendratsoa.type_name(code))
    Pendratsoa.append_frame(Pendratsoa.header(8, code, 0), 8, code, payload)
    Pendratsoa.frame(8, code, payload, numbering: numbering)
    used(Pendratsoa.well_formed?("Value", "\n"), Pendratsoa.canonical(1, "\n\x01x"), Pendratsoa.merge("Value", "", ""))
    Pendratsoa.from_json("Value", Pendratsoa.to_json("Value", "\n\x01x"))
    lines("json/readings.txt", "read").each { |name, word| tried { Pendratsoa.from_json(name, bytes(word)) } }
    used(Pendratsoa.header_eq?(code, payload, ""), Pendratsoa.difference(code, payload, ""))
    Pendratsoa::Message.of(:SetStateCommand, payload, version: 9).json
    Pendratsoa::Message.of_record(Pendratsoa::SetStateCommandMessage.new(key: "a"), version: 9).command?
    Pendratsoa::Message.from_json("SetStateCommand", { "key" => "YQ==" })
    tried { Pendratsoa.type_name(8) }
  end

  def replays
    journals = %w[recorded replayed_other_payload].map { |name| File.binread(File.join(TOP, "examples/streams", name)) }
    verdict = Pendratsoa.compare_journals(8, *journals, ignore_payloads: false)
    used(verdict.kind, verdict.index, verdict.text)
    replay = Pendratsoa::Replay.new(8, journals[0], ignore_ids: true)
    Pendratsoa::Stream.new.feed(journals[1]).each do |item|
      mismatch = replay.check(item)
      mismatch&.members&.each { |member| mismatch.public_send(member) }
      mismatch&.fields&.each { |field| field.members.each { |member| field.public_send(member) } }
      replay.expected
    end
    used(replay.index, replay.version, replay.finish, Pendratsoa::Replay.new(8, journals[0]).finish)
    used(replay.recorded_rest)
  end

  def numbering
    @numbering ||= Pendratsoa::Numbering.new(Descriptors::ALL, renames: { "Value" => :Value })
  end

  def numberings
    stream = File.binread(File.join(TOP, "examples/streams/recorded"))
    theirs = numbering.write_stream(8, stream)
    used(numbering.read_stream(8, theirs), numbering.dump(8, theirs), numbering.to_s)
    numbering.read_payload("Value", numbering.write_payload(1, "\n\x01x"))
    Pendratsoa::Stream.new(numbering: numbering).feed(theirs).each { |item| item(item) }
    tried { Pendratsoa::Numbering.new("no set") }
    tried { Pendratsoa::Numbering.new(Descriptors::ALL, renames: { "Value" => "Nobody" }) }
  end
end

checked = Typed.check(Pendratsoa)
%i[records streams functions replays numberings].each { |name| Typed.public_send(name) }
puts "#{checked.length} classes and modules"
