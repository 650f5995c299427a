// SPDX-License-Identifier: Apache-2.0 OR MIT
// The header as C++ has it: handles that are assigned and owned by values, texts in one expression, a driver, and an object that is sent
// over a live engine by what the library spells and reads. Complains where an answer isn't the one that docs/RULES.md gives. Prints nothing
// else.
#include "hullpippin.h"

#include <cstdio>
#include <stdexcept>
#include <string>
#include <vector>

namespace {

constexpr std::uint32_t window = 4096, manager = 0, client = 1, seats = 2, one_way = 1;

void expect(bool so, const char *otherwise)
{
    if (!so)
        throw std::runtime_error(otherwise);
}

void done(std::uint32_t status)
{
    if (status != HULLPIPPIN_DONE)
        throw std::runtime_error(hullpippin_text(HULLPIPPIN_TEXT_STATUS, status));
}

// A text lasts as long as its expression, beside others.
void tell_texts()
{
    expect(hullpippin_version() == HULLPIPPIN_VERSION, "another version");
    std::string both = std::string(hullpippin_text(HULLPIPPIN_TEXT_FAULT, HULLPIPPIN_FAULT_AGAIN)) + "; "
                       + hullpippin_text(HULLPIPPIN_TEXT_COMMAND, HULLPIPPIN_BC_ACQUIRE);
    expect(both == "there is nothing to read; BC_ACQUIRE", "other texts");
    expect(!hullpippin_text(HULLPIPPIN_TEXT_NOTE, 12), "the text of no note");
}

// A driver with one seat, which are let go of together.
struct One {
    hullpippin_driver driver = HULLPIPPIN_NO_DRIVER;
    hullpippin_seat seat = HULLPIPPIN_NO_SEAT;

    One()
    {
        done(hullpippin_new(1, &driver));
        done(hullpippin_take_seat(&driver, &seat));
    }
    One(const One &) = delete;
    One &operator=(const One &) = delete;
    ~One()
    {
        hullpippin_free_seat(&seat);
        hullpippin_free_driver(&driver);
    }
};

std::vector<std::uint8_t> journal_of(hullpippin_driver &driver)
{
    std::size_t size = 0;
    done(hullpippin_journal(&driver, nullptr, 0, &size));
    std::vector<std::uint8_t> bytes(size);
    done(hullpippin_journal(&driver, bytes.data(), bytes.size(), &size));
    return bytes;
}

// Three steps, of which the last is refused, since there is nothing to read.
void run_driver()
{
    One one;
    hullpippin_answer answer;
    hullpippin_verdict_on verdict;
    done(hullpippin_open(&one.seat, 100, 1000, window, &answer));
    expect(answer.kind == HULLPIPPIN_OPENED, "nothing is opened");
    done(hullpippin_manager(&one.seat, &answer));
    done(hullpippin_read(&one.seat, 256, &answer));
    expect(answer.kind == HULLPIPPIN_REFUSED && answer.number == HULLPIPPIN_FAULT_AGAIN, "a read isn't refused");
    done(hullpippin_return_seat(&one.driver, &one.seat));
    one.seat = HULLPIPPIN_NO_SEAT;
    done(hullpippin_finish(&one.driver));
    std::vector<std::uint8_t> journal = journal_of(one.driver);
    done(hullpippin_verdict(journal.data(), journal.size(), &verdict));
    expect(verdict.lawful && verdict.entries == 3, "another verdict");
}

// A live engine with the manager and its client.
struct Pair {
    hullpippin_live live = HULLPIPPIN_NO_LIVE;

    Pair()
    {
        hullpippin_answer answer;
        done(hullpippin_live_new(seats, &live));
        done(hullpippin_live_open(&live, manager, 100, 1000, window, &answer));
        done(hullpippin_live_manager(&live, manager, &answer));
        done(hullpippin_live_open(&live, client, 200, 2000, window, &answer));
    }
    Pair(const Pair &) = delete;
    Pair &operator=(const Pair &) = delete;
    ~Pair()
    {
        hullpippin_free_live(&live);
    }

    void run(std::uint32_t seat, const hullpippin_command &command, const std::vector<std::uint8_t> &data,
             const std::vector<std::uint8_t> &offsets)
    {
        std::uint8_t bytes[68];
        hullpippin_answer answer;
        std::size_t size = hullpippin_spell_command(&command, bytes, sizeof bytes);
        done(hullpippin_live_command(&live, seat, bytes, size, data.data(), data.size(), offsets.data(), offsets.size(), &answer));
        expect(answer.kind == HULLPIPPIN_WROTE && answer.stop == HULLPIPPIN_AT_END && answer.notes == 0, "a command is refused");
    }

    std::vector<std::uint8_t> part(std::uint32_t which)
    {
        std::vector<std::uint8_t> bytes(hullpippin_live_bytes(&live, which, nullptr, 0));
        hullpippin_live_bytes(&live, which, bytes.data(), bytes.size());
        return bytes;
    }
};

// The parcel's one object has come to be the manager's first handle.
void expect_handle(Pair &pair)
{
    std::vector<std::uint8_t> data = pair.part(HULLPIPPIN_DATA), offsets = pair.part(HULLPIPPIN_OFFSETS);
    hullpippin_walk walk = {0, 0, 0};
    hullpippin_flat_object object;
    expect(hullpippin_next_object(data.data(), data.size(), offsets.data(), offsets.size(), &walk, &object), "no object");
    expect(object.kind == HULLPIPPIN_TYPE_HANDLE && object.binder == 1 && object.start == 0, "another object");
    expect(!hullpippin_next_object(data.data(), data.size(), offsets.data(), offsets.size(), &walk, &object) && walk.cause == 0,
           "one more object");
}

void run_live()
{
    Pair pair;
    hullpippin_answer answer;
    hullpippin_command enter = {}, call = {};
    hullpippin_flat_object object = {HULLPIPPIN_TYPE_BINDER, 0, 0x1000, 0x2000, 0};
    std::vector<std::uint8_t> data(24), offsets(8);
    enter.code = HULLPIPPIN_BC_ENTER_LOOPER;
    call.code = HULLPIPPIN_BC_TRANSACTION;
    call.transaction.flags = one_way;
    call.transaction.data_size = data.size();
    call.transaction.offsets_size = offsets.size();
    expect(hullpippin_put_object(&object, data.data(), data.size()) == 0, "an object isn't written");
    pair.run(manager, enter, {}, {});
    pair.run(client, call, data, offsets);
    done(hullpippin_live_read(&pair.live, manager, 256, &answer));
    expect(answer.kind == HULLPIPPIN_GOT && answer.data == data.size(), "another parcel");
    expect_handle(pair);
}

} // namespace

int main()
{
    try {
        tell_texts();
        run_driver();
        run_live();
        return 0;
    } catch (const std::exception &error) {
        std::fprintf(stderr, "plus: %s\n", error.what());
        return 1;
    }
}
