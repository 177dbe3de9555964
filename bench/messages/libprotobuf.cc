// The classes of libprotobuf: an object for each message, and one that is parsed into again.
#include <cstdio>
#include <cstdlib>
#include <memory>
#include <vector>

#include "descriptors_cc.h"
#include "sides.h"

namespace {

std::vector<std::unique_ptr<google::protobuf::Message>> kept;

void parse(google::protobuf::Message &found, const message &one) {
    if (!found.ParseFromArray(one.payload, static_cast<int>(one.length))) {
        std::fprintf(stderr, "libprotobuf: a payload cannot be read\n");
        std::exit(1);
    }
}

uint64_t sum_of(const pb::SetStateCommandMessage &found) { return found.key().size() + found.value().content().size(); }

uint64_t sum_of(const pb::CallCommandMessage &found) { return found.service_name().size() + found.parameter().size(); }

uint64_t sum_of(const pb::CallCompletionNotificationMessage &found) {
    return found.completion_id() + (found.has_value() ? found.value().content().size() : 0);
}

uint64_t sum_of(const pb::StartMessage &found) {
    return found.id().size() + static_cast<size_t>(found.state_map_size());
}

// What is read of a message, in an object of its own or in one that is used again.
template <typename Record> uint64_t read(const message &one, bool is_reused) {
    if (is_reused) {
        static Record found;

        parse(found, one);
        return sum_of(found);
    }
    Record found;

    parse(found, one);
    return sum_of(found);
}

uint64_t decoded(const message *messages, size_t count, bool is_reused) {
    static std::vector<std::unique_ptr<google::protobuf::Message>> reused(SCHEMAS);
    uint64_t sum = 0;

    for (size_t i = 0; i < count; i++) {
        const message &one = messages[i];

        switch (one.schema) {
        case SET_STATE_COMMAND:
            sum += read<pb::SetStateCommandMessage>(one, is_reused);
            break;
        case CALL_COMMAND:
            sum += read<pb::CallCommandMessage>(one, is_reused);
            break;
        case CALL_COMPLETION:
            sum += read<pb::CallCompletionNotificationMessage>(one, is_reused);
            break;
        case START:
            sum += read<pb::StartMessage>(one, is_reused);
            break;
        default:
            if (is_reused) {
                if (!reused[one.schema]) {
                    reused[one.schema].reset(prototypes[one.schema]->New());
                }
                parse(*reused[one.schema], one);
            } else {
                std::unique_ptr<google::protobuf::Message> found(prototypes[one.schema]->New());

                parse(*found, one);
            }
            sum++;
        }
    }
    return sum;
}

uint64_t decode(const message *messages, size_t count) { return decoded(messages, count, false); }

uint64_t decode_reused(const message *messages, size_t count) { return decoded(messages, count, true); }

void keep(const message *messages, size_t count) {
    kept.clear();
    for (size_t i = 0; i < count; i++) {
        kept.emplace_back(prototypes[messages[i].schema]->New());
        parse(*kept.back(), messages[i]);
    }
}

size_t encode(uint8_t *out, size_t room) {
    size_t length = 0;

    for (const auto &one : kept) {
        size_t needed = one->ByteSizeLong();

        if (needed > room - length || !one->SerializeWithCachedSizesToArray(out + length)) {
            std::exit(1);
        }
        length += needed;
    }
    return length;
}

} // namespace

extern "C" {
const side libprotobuf = {"libprotobuf", decode, keep, encode};
const side libprotobuf_reused = {"libprotobuf, reused", decode_reused, keep, encode};
}
