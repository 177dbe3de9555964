# frozen_string_literal: true

require "minitest/autorun"
require "pendratsoa"

# What the tests share.
module Helper
  TOP = File.expand_path("../..", __dir__)

  # A message with the value "input".
  INPUT = ["040000000000000972070a05696e707574"].pack("H*").freeze

  CODES = {
    suspension: 0x0001,
    error: 0x0002,
    propose_run_completion: 0x0005,
    input: 0x0400,
    set_state: 0x0403,
    call: 0x040d,
    call_completion: 0x800d,
    signal: 0xfbff,
    custom_entry: 0xfc01
  }.freeze

  # The bytes of hexadecimal digits.
  def unhex(digits)
    [digits].pack("H*")
  end

  # A file of this repository.
  def read(path)
    File.binread(File.join(TOP, path))
  end

  # A block keeps no memory. The process may hold up to a mebibyte more after so many rounds. The least growth
  # of several times counts: Ruby and malloc take more pages now and then, and what is never freed grows each time.
  # Each time begins where the one before ended: one more collection in between would free pages that the first kept.
  def assert_keeps_no_memory(rounds, &)
    skip "not run: there is no /proc" unless File.exist?("/proc/self/statm")
    before = resident
    grown = Array.new(12) do
      rounds.times(&)
      after = resident
      growth = after - before
      return pass if growth < 1 << 20

      before = after
      growth
    end
    flunk "#{rounds} rounds keep #{grown.min} bytes"
  end

  # glibc's call that gives free memory back to the system, and nil if there is none.
  TRIM = begin
    Fiddle::Function.new(Fiddle::Handle::DEFAULT["malloc_trim"], [Fiddle::TYPE_SIZE_T], Fiddle::TYPE_INT)
  rescue Fiddle::DLError
    nil
  end

  # How many bytes of memory the process holds. Free memory is none of them, and neither are the pages of files, which
  # the system drops and reads again when others need memory.
  def resident
    GC.start
    TRIM&.call(0)
    _, all, of_files = File.read("/proc/self/statm").split.map { |pages| Integer(pages) }
    (all - of_files) * 4096
  end

  # The error of a block, which has to be exactly of this class and say this.
  def assert_error(kind, text, &)
    error = assert_raises(kind, &)
    assert_instance_of kind, error
    assert_equal text, error.message
    error
  end
end

Minitest::Test.include(Helper)
