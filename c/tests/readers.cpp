/* Two threads that read the classes of slotmap.hpp at once, by each const call, and copy them. */
#include "check.h"
#include "slotmap.hpp"

#include <string>
#include <thread>

using slotmaps::key;

struct all_four {
    slotmaps::slot_map<std::string> texts;
    slotmaps::side_map<std::string> more;
    slotmaps::word_map<int> numbers;
    slotmaps::side_table<int> ages;
};

/* How many of the reads were wrong. Every tenth key is live, and the first of them stands behind nine vacant places. */
static unsigned wrong_reads(const all_four &all, const std::vector<key> &keys)
{
    unsigned wrong = 0;
    int at = 0;
    for (key each : keys) {
        bool live = at % 10 == 9;
        const std::string *text = all.texts.find(each), *other = all.more.find(each);
        wrong += (text != nullptr) != live || (other != nullptr) != live || (live && (*text != std::to_string(at) || *other != *text));
        wrong += all.texts.contains(each) != live || all.more.contains(each) != live || (live && all.texts.at(each) != all.more.at(each));
        wrong += all.numbers.contains(each) != live || all.numbers.get(each) != (live ? std::optional<int>(at) : std::nullopt);
        wrong += all.ages.contains(each) != live || all.ages.get(each) != (live ? std::optional<int>(at) : std::nullopt);
        at++;
    }
    std::size_t count = keys.size() / 10;
    wrong += all.texts.size() != count || all.more.size() != count || all.numbers.size() != count || all.ages.size() != count;
    wrong += all.texts.empty() || all.texts.capacity() < count || all.more.capacity() < count || all.numbers.capacity() < count || all.ages.capacity() < count;
    for (auto [each, text] : all.texts)
        wrong += all.more.at(each) != text;
    for (auto [each, number] : all.numbers)
        wrong += all.ages.get(each) != number;
    return wrong + (all.ages.pairs().size() != count);
}

int main()
{
    all_four all;
    std::vector<key> keys;
    for (int i = 0; i < 1000; i++) {
        keys.push_back(all.texts.insert(std::to_string(i)));
        CHECK(all.numbers.insert(i) == keys.back());
        if (i % 10 == 9)
            CHECK(all.more.put(keys.back(), std::to_string(i)) && all.ages.put(keys.back(), i));
    }
    for (int i = 0; i < 1000; i++)
        if (i % 10 != 9)
            CHECK(all.texts.erase(keys[static_cast<unsigned>(i)]) && all.numbers.erase(keys[static_cast<unsigned>(i)]));
    unsigned wrong[2] = {0, 0};
    auto read = [&](unsigned &here) {
        for (int turn = 0; turn < 100; turn++) {
            here += wrong_reads(all, keys);
            if (turn % 10 == 0) {
                const all_four copy(all);
                here += wrong_reads(copy, keys) + (copy.texts != all.texts) + (copy.numbers != all.numbers);
            }
        }
    };
    std::thread other([&] { read(wrong[1]); });
    read(wrong[0]);
    other.join();
    CHECK(wrong[0] + wrong[1] == 0);
    std::printf("readers: the const calls of the classes, in two threads\n");
}
