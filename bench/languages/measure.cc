// Measures the library for C against libprotobuf: measure FILE, which is messages.txt. A line is the record, the work,
// microseconds of CPU time here and there, and how many times as fast this library is. libprotobuf has no streams; it
// is used with the framing that a user writes, below. bench/messages.sh has records without streams.
#include <algorithm>
#include <cstdio>
#include <cstdlib>
#include <cstring>
#include <ctime>
#include <fstream>
#include <iostream>
#include <string>

#include <google/protobuf/util/json_util.h>

#include <pendratsoa_messages.h>
#include <pendratsoa_reader.h>

#include "peer.pb.h"

namespace pb = pendratsoa::journal;

namespace {

// The version of all messages, how many frames a stream has, how many bytes its reader gets at a time, and the limit.
constexpr uint32_t version = 8;
constexpr size_t frames = 1000;
constexpr size_t chunk = 1 << 16;
constexpr uint32_t limit = 1 << 24;

[[noreturn]] void fail(const std::string &what) {
    std::cerr << "measure: " << what << '\n';
    std::exit(1);
}

void check(bool is_good, const char *what) {
    if (!is_good) {
        fail(what);
    }
}

const uint8_t *bytes_of(const std::string &text) { return reinterpret_cast<const uint8_t *>(text.data()); }

// A record here and there, and what is read of each.
struct SetState {
    using Struct = journal_SetStateCommandMessage;
    using Class = pb::SetStateCommandMessage;
    static constexpr uint32_t schema = JOURNAL_SCHEMA_SET_STATE_COMMAND;
    static constexpr uint16_t code = JOURNAL_TYPE_SET_STATE_COMMAND;
    static constexpr auto read = journal_read_SetStateCommandMessage;
    static constexpr auto frame = journal_frame_SetStateCommandMessage;
    static size_t sum_of(const Struct &one) { return one.key.length + one.value.content.length; }
    static size_t sum_of(const Class &one) { return one.key().size() + one.value().content().size(); }
};

struct Call {
    using Struct = journal_CallCommandMessage;
    using Class = pb::CallCommandMessage;
    static constexpr uint32_t schema = JOURNAL_SCHEMA_CALL_COMMAND;
    static constexpr uint16_t code = JOURNAL_TYPE_CALL_COMMAND;
    static constexpr auto read = journal_read_CallCommandMessage;
    static constexpr auto frame = journal_frame_CallCommandMessage;
    static size_t sum_of(const Struct &one) { return one.service_name.length + one.parameter.length; }
    static size_t sum_of(const Class &one) { return one.service_name().size() + one.parameter().size(); }
};

struct Completion {
    using Struct = journal_CallCompletionNotificationMessage;
    using Class = pb::CallCompletionNotificationMessage;
    static constexpr uint32_t schema = JOURNAL_SCHEMA_CALL_COMPLETION_NOTIFICATION;
    static constexpr uint16_t code = JOURNAL_TYPE_CALL_COMPLETION_NOTIFICATION;
    static constexpr auto read = journal_read_CallCompletionNotificationMessage;
    static constexpr auto frame = journal_frame_CallCompletionNotificationMessage;
    static size_t sum_of(const Struct &one) { return one.completion_id + one.result.value.content.length; }
    static size_t sum_of(const Class &one) { return one.completion_id() + one.value().content().size(); }
};

// What is read is used: the compiler leaves none of it out.
volatile size_t sum;

// The memory of arenas, and what is written into.
uint64_t memory[1 << 12];
uint8_t out[1 << 16];

// A message as a framing by hand has it.
struct PeerItem {
    uint16_t code;
    uint16_t flags;
    const char *payload;
    size_t length;
};

// Finds the message that bytes begin with, if it is there as a whole.
bool peer_next(const char *bytes, size_t length, PeerItem &item) {
    const auto *header = reinterpret_cast<const uint8_t *>(bytes);

    if (length < 8) {
        return false;
    }
    const uint32_t size = uint32_t{header[4]} << 24 | uint32_t{header[5]} << 16 | uint32_t{header[6]} << 8 | header[7];
    check(size <= limit, "a message is too long");
    item = {static_cast<uint16_t>(header[0] << 8 | header[1]), static_cast<uint16_t>(header[2] << 8 | header[3]),
            bytes + 8, size};
    return length - 8 >= size;
}

// A framing by hand: what came and was not taken yet.
class PeerReader {
  public:
    void feed(const char *bytes, size_t length) {
        held.erase(0, taken);
        taken = 0;
        held.append(bytes, length);
    }

    bool next(PeerItem &item) {
        if (!peer_next(held.data() + taken, held.size() - taken, item)) {
            return false;
        }
        taken += 8 + item.length;
        return true;
    }

    size_t pending() const { return held.size() - taken; }

  private:
    std::string held;
    size_t taken = 0;
};

// Gives each item of a stream to a function.
template <typename Take> void each(const std::string &stream, Take take) {
    journal_reader reader = journal_reader_of(version, limit);
    journal_reader_item item;
    int64_t result = 0;

    for (size_t at = 0; at < stream.size(); at += chunk) {
        result = journal_reader_feed(&reader, bytes_of(stream) + at, std::min(chunk, stream.size() - at));
        while (result >= 0 && (result = journal_reader_next(&reader, &item)) == 1) {
            take(item);
        }
        check(result == 0, "a stream cannot be read");
    }
    check(journal_reader_pending(&reader) == 0, "a stream has trailing bytes");
    journal_reader_free(&reader);
}

// The same by hand.
template <typename Take> void each_peer(const std::string &stream, Take take) {
    PeerReader reader;
    PeerItem item;

    for (size_t at = 0; at < stream.size(); at += chunk) {
        reader.feed(stream.data() + at, std::min(chunk, stream.size() - at));
        while (reader.next(item)) {
            take(item);
        }
    }
    check(reader.pending() == 0, "a stream has trailing bytes");
}

template <typename Of> typename Of::Struct struct_of(const uint8_t *payload, size_t length) {
    typename Of::Struct record;
    journal_arena arena = journal_arena_of(memory, sizeof memory);

    check(Of::read(payload, length, &record, &arena) == 0, "a payload cannot be read");
    return record;
}

void parse(google::protobuf::Message &found, const char *payload, size_t length) {
    check(found.ParseFromArray(payload, static_cast<int>(length)), "a payload cannot be parsed");
}

// Writes the frame of a struct, and returns its length.
template <typename Of> size_t frame_of(const typename Of::Struct &record) {
    journal_arena arena = journal_arena_of(memory, sizeof memory);
    const int64_t length = Of::frame(version, &record, &arena, out, sizeof out);

    check(length >= 0 && length <= static_cast<int64_t>(sizeof out), "a frame cannot be written");
    return static_cast<size_t>(length);
}

// The same of a message of libprotobuf, whose size is found once.
size_t peer_frame(uint16_t code, const google::protobuf::Message &message) {
    const size_t length = message.ByteSizeLong();
    const uint8_t header[] = {static_cast<uint8_t>(code >> 8), static_cast<uint8_t>(code), 0, 0,
                              static_cast<uint8_t>(length >> 24), static_cast<uint8_t>(length >> 16),
                              static_cast<uint8_t>(length >> 8), static_cast<uint8_t>(length)};

    check(length <= sizeof out - sizeof header, "a frame cannot be written");
    std::memcpy(out, header, sizeof header);
    message.SerializeWithCachedSizesToArray(out + sizeof header);
    return sizeof header + length;
}

// Checks a replay that is the same as its recording.
void check_replay(const std::string &stream) {
    journal_replay replay = {version, 0, 0, 0, 0, 0};
    journal_mismatch mismatch;

    each(stream, [&](const journal_reader_item &item) {
        check(journal_replay_check(static_cast<uint16_t>(item.item.code), bytes_of(stream), stream.size(), item.payload,
                                   item.payload_length, &replay, JOURNAL_REPLAY_NUMBERS, &mismatch,
                                   JOURNAL_MISMATCH_NUMBERS) == 0,
              "not the same");
    });
    check(journal_replay_finish(bytes_of(stream), stream.size(), &replay, JOURNAL_REPLAY_NUMBERS, &mismatch,
                                JOURNAL_MISMATCH_NUMBERS) == 0,
          "not the same");
}

// The same by messages: bytes first, and one of two equal payloads is parsed, into the same message.
template <typename Of> void check_peer(const std::string &stream) {
    typename Of::Class message;
    const char *recorded = stream.data();
    const char *const end = recorded + stream.size();
    PeerItem other;

    each_peer(stream, [&](const PeerItem &item) {
        check(peer_next(recorded, static_cast<size_t>(end - recorded), other) && item.code == other.code &&
                  item.length == other.length && std::memcmp(item.payload, other.payload, item.length) == 0,
              "not the same");
        parse(message, item.payload, item.length);
        recorded = other.payload + other.length;
    });
    check(recorded == end, "not the same");
}

// What a call that writes bytes has written.
std::string written(int64_t length) {
    check(length >= 0 && length <= static_cast<int64_t>(sizeof out), "there is no room");
    return {reinterpret_cast<const char *>(out), static_cast<size_t>(length)};
}

// Writes the JSON of a payload, and returns its length.
int64_t json_of(uint32_t schema, const std::string &payload) {
    return journal_json(schema, bytes_of(payload), payload.size(), out, sizeof out);
}

// Writes the payload of a JSON text, and returns its length.
int64_t payload_of(uint32_t schema, const std::string &json) {
    journal_reading reading;
    const int64_t length = journal_payload_of_json(schema, bytes_of(json), json.size(), &reading, JOURNAL_READ_NUMBERS,
                                                   out, sizeof out);

    check(length >= 0 && reading.kind == JOURNAL_READ, "a text cannot be read");
    return length;
}

// The microseconds of CPU time that the process has had.
double processor_time() {
    timespec time;

    clock_gettime(CLOCK_PROCESS_CPUTIME_ID, &time);
    return static_cast<double>(time.tv_sec) * 1e6 + static_cast<double>(time.tv_nsec) / 1e3;
}

// How often a work is done in a round, and how many rounds there are.
constexpr size_t count = 20000;
constexpr int rounds = 40;

// The microseconds that a part of a work takes in a round.
template <typename Work> double time_of(Work work, size_t parts) {
    const double start = processor_time();

    for (size_t i = 0; i < count / parts; i++) {
        work();
    }
    return (processor_time() - start) / count;
}

// Prints the line of a work, or of each part of it: of the fastest round here and there, which take turns.
template <typename Ours, typename Theirs>
void show(const std::string &name, const char *what, Ours ours, Theirs theirs, size_t parts = 1) {
    double first = time_of(ours, parts), second = time_of(theirs, parts);

    for (int i = 1; i < rounds; i++) {
        first = std::min(first, time_of(ours, parts));
        second = std::min(second, time_of(theirs, parts));
    }
    std::printf("c %s %s %.4f %.4f %.2f\n", name.c_str(), what, first, second, second / first);
    std::fflush(stdout);
}

// Prints the lines of items, of frames and of a replay.
template <typename Of> void measure_streams(const std::string &name, const std::string &payload) {
    const auto record = struct_of<Of>(bytes_of(payload), payload.size());
    typename Of::Class message;

    parse(message, payload.data(), payload.size());
    const std::string frame = written(static_cast<int64_t>(frame_of<Of>(record)));
    check(written(static_cast<int64_t>(peer_frame(Of::code, message))) == frame, "the frames differ");
    std::string stream;
    for (size_t i = 0; i < frames; i++) {
        stream += frame;
    }
    show(
        name, "items",
        [&] { each(stream, [](const journal_reader_item &item) { sum = sum + item.payload_length; }); },
        [&] { each_peer(stream, [](const PeerItem &item) { sum = sum + item.length; }); }, frames);
    show(
        name, "items-read",
        [&] {
            each(stream, [](const journal_reader_item &item) {
                sum = sum + Of::sum_of(struct_of<Of>(item.payload, item.payload_length));
            });
        },
        [&] {
            each_peer(stream, [](const PeerItem &item) {
                typename Of::Class found;

                parse(found, item.payload, item.length);
                sum = sum + Of::sum_of(found);
            });
        },
        frames);
    show(
        name, "frame", [&] { sum = sum + frame_of<Of>(record); }, [&] { sum = sum + peer_frame(Of::code, message); });
    // a replay of notifications has nothing to compare
    if (journal_is_command(Of::code)) {
        show(
            name, "replay", [&] { check_replay(stream); }, [&] { check_peer<Of>(stream); }, frames);
    }
}

// Prints the lines of JSON.
template <typename Of> void measure_texts(const std::string &name, const std::string &payload) {
    const std::string text = written(json_of(Of::schema, payload));

    check(written(payload_of(Of::schema, text)) == payload, "the texts differ");
    show(
        name, "to-json", [&] { sum = sum + static_cast<size_t>(json_of(Of::schema, payload)); },
        [&] {
            typename Of::Class message;
            std::string json;

            parse(message, payload.data(), payload.size());
            check(google::protobuf::util::MessageToJsonString(message, &json).ok(), "a text cannot be written");
            sum = sum + json.size();
        });
    show(
        name, "from-json", [&] { sum = sum + static_cast<size_t>(payload_of(Of::schema, text)); },
        [&] {
            typename Of::Class message;

            check(google::protobuf::util::JsonStringToMessage(text, &message).ok(), "a text cannot be read");
            sum = sum + message.SerializeAsString().size();
        });
}

template <typename Of> void measure(const std::string &name, const std::string &payload) {
    measure_streams<Of>(name, payload);
    measure_texts<Of>(name, payload);
}

std::string bytes_of_digits(const std::string &digits) {
    std::string bytes;

    for (size_t i = 0; i + 1 < digits.size(); i += 2) {
        bytes += static_cast<char>(std::stoi(digits.substr(i, 2), nullptr, 16));
    }
    return bytes;
}

} // namespace

int main(int words, char **word) {
    std::ifstream file(words == 2 ? word[1] : "");
    std::string line;

    check(file.is_open(), "there is no file of messages");
    while (std::getline(file, line)) {
        const size_t space = line.find(' ');
        const std::string name = line.substr(0, space);

        if (name == "#") {
            continue;
        }
        const std::string payload = bytes_of_digits(line.substr(space + 1));
        if (name == "SetStateCommandMessage") {
            measure<SetState>(name, payload);
        } else if (name == "CallCommandMessage") {
            measure<Call>(name, payload);
        } else if (name == "CallCompletionNotificationMessage") {
            measure<Completion>(name, payload);
        } else {
            fail("there is no record " + name);
        }
    }
    return 0;
}
