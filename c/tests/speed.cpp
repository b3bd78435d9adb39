/* speed SIDE OPERATION SLOTS ROUNDS: does an operation on a map of 8-byte values, and prints how many calls that were, and the
 * nanoseconds of one. SIDE is `here`, a slot_map; `std`, an unordered_map from a counter; or `packed`, a slot map as P0661 proposes it,
 * whose values stand in one array without gaps. With `bytes` as the operation it prints the bytes of a key.
 *
 * speed.sh runs it. */
#include "slotmap.hpp"

#include <chrono>
#include <cstdio>
#include <malloc.h>
#include <string>
#include <unordered_map>
#include <vector>

using number = std::uint64_t;

struct here {
    using key = slotmaps::key;
    slotmaps::slot_map<number> map;

    key insert(number value) { return map.insert(value); }
    void remove(key at) { map.erase(at); }
    bool remove_first() { return !map.empty() && (map.erase(map.begin()), true); }
    number *find(key at) { return map.find(at); }
    static number number_of(key at) { return at.id; }
    number sum()
    {
        number all = 0;
        for (auto [at, value] : map)
            all += value;
        return all;
    }
};

struct hashed {
    using key = number;
    std::unordered_map<number, number> map;
    number next = 0;

    key insert(number value) { return map.emplace(++next, value), next; }
    void remove(key at) { map.erase(at); }
    bool remove_first() { return !map.empty() && (map.erase(map.begin()), true); }
    number *find(key at)
    {
        auto found = map.find(at);
        return found == map.end() ? nullptr : &found->second;
    }
    static number number_of(key at) { return at; }
    number sum()
    {
        number all = 0;
        for (auto &[at, value] : map)
            all += value;
        return all;
    }
};

/* Slots lead from an index to a place in the array of values; a second array leads back from a place to its slot. */
struct packed {
    struct key {
        std::uint32_t index, version;
    };
    std::vector<key> slots;
    std::vector<number> values;
    std::vector<std::uint32_t> back;
    std::uint32_t vacant = UINT32_MAX;

    key insert(number value)
    {
        if (vacant == UINT32_MAX) {
            slots.push_back({UINT32_MAX, 0});
            vacant = static_cast<std::uint32_t>(slots.size() - 1);
        }
        std::uint32_t at = vacant;
        key &slot = slots[at];
        values.push_back(value);
        back.push_back(at);
        vacant = slot.index;
        slot.index = static_cast<std::uint32_t>(values.size() - 1);
        return {at, slot.version};
    }
    number *find(key at)
    {
        return at.index < slots.size() && slots[at.index].version == at.version ? &values[slots[at.index].index] : nullptr;
    }
    void remove(key at)
    {
        if (find(at) == nullptr)
            return;
        key &slot = slots[at.index];
        values[slot.index] = values.back();
        back[slot.index] = back.back();
        slots[back.back()].index = slot.index;
        values.pop_back();
        back.pop_back();
        slot = {vacant, slot.version + 1};
        vacant = at.index;
    }
    bool remove_first() { return !values.empty() && (remove({back[0], slots[back[0]].version}), true); }
    static number number_of(key at) { return (number{at.version} << 32) + at.index; }
    number sum()
    {
        number all = 0;
        for (number value : values)
            all += value;
        return all;
    }
};

template <class Side> static std::vector<typename Side::key> filled(Side &side, std::size_t slots)
{
    std::vector<typename Side::key> keys;
    keys.reserve(slots);
    for (std::size_t i = 0; i < slots; i++)
        keys.push_back(side.insert(i));
    return keys;
}

/* A few keys by chance, so that no operation goes by the order of the memory. */
static std::size_t chosen(number &state, std::size_t below)
{
    state = state * 6364136223846793005u + 1442695040888963407u;
    return static_cast<std::size_t>((state >> 32) * below >> 32);
}

static const std::vector<std::string> operations = {
    "insert", "the loop of a get alone", "get", "get of a stale key", "a removal and an insert", "a step of a walk", "an insert, and an erasure of the first",
};

/* One round of an operation. */
template <class Side>
static number round_of(std::size_t operation, Side &side, std::vector<typename Side::key> &keys, const std::vector<std::size_t> &order)
{
    number sum = 0;
    switch (operation) {
    case 0: {
        Side fresh;
        for (std::size_t i = 0; i < keys.size(); i++)
            (void)fresh.insert(i);
        return sum;
    }
    case 1:
        for (std::size_t at : order)
            sum += Side::number_of(keys[at]);
        return sum;
    case 2:
    case 3:
        for (std::size_t at : order)
            if (number *value = side.find(keys[at]))
                sum += *value;
        return sum;
    case 4:
        for (std::size_t at : order) {
            side.remove(keys[at]);
            keys[at] = side.insert(at);
        }
        return sum;
    case 5: return side.sum();
    default: {
        Side fresh;
        for (std::size_t i = 0; i < keys.size(); i++)
            (void)fresh.insert(i);
        while (fresh.remove_first())
            sum++;
        return sum;
    }
    }
}

template <class Side> static number run(const std::string &what, std::size_t slots, std::size_t rounds, double &nanoseconds)
{
    std::size_t operation = static_cast<std::size_t>(std::find(operations.begin(), operations.end(), what) - operations.begin());
    Side side;
    auto keys = filled(side, slots);
    std::vector<std::size_t> order(slots);
    number state = 7, sum = 0;
    for (std::size_t &at : order)
        at = chosen(state, slots);
    if (operation == 3) {
        for (auto key : keys)
            side.remove(key);
        filled(side, slots);
    }
    nanoseconds = 1e30;
    for (std::size_t round = 0; round < rounds; round++) {
        auto start = std::chrono::steady_clock::now();
        sum += round_of(operation, side, keys, order);
        std::chrono::duration<double, std::nano> took = std::chrono::steady_clock::now() - start;
        nanoseconds = std::min(nanoseconds, took.count() / static_cast<double>(slots));
    }
    return sum;
}

template <class Side> static int print(const std::string &what, std::size_t slots, std::size_t rounds)
{
    double nanoseconds = 0;
    if (what == "bytes") {
        auto in_use = [] {
            auto all = mallinfo2();
            return static_cast<double>(all.uordblks + all.hblkhd);
        };
        double before = in_use();
        Side side;
        for (std::size_t i = 0; i < slots; i++)
            (void)side.insert(i);
        std::printf("%.1f\n", (in_use() - before) / static_cast<double>(slots));
        return 0;
    }
    number sum = run<Side>(what, slots, rounds, nanoseconds);
    std::printf("%zu %.1f %llu\n", slots, nanoseconds, static_cast<unsigned long long>(sum));
    return 0;
}

int main(int count, char **words)
{
    if (count != 5)
        return 2;
    std::string side = words[1], what = words[2];
    std::size_t slots = std::stoul(words[3]), rounds = std::stoul(words[4]);
    return side == "here" ? print<here>(what, slots, rounds) : side == "std" ? print<hashed>(what, slots, rounds) : print<packed>(what, slots, rounds);
}
