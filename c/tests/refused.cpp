/* Each allocation that the classes of slotmap.hpp ask for is refused in turn, also those of the library: the call throws, all is as
 * it was, and the call succeeds when it is made again. So the keys are those of a run without a refusal. */
#include "check.h"
#include "refusing.h"
#include "slotmap.hpp"

#include <string>
#include <vector>

using slotmaps::key;
using keys = std::vector<std::uint64_t>;

/* What a map holds, read while nothing is refused. */
template <class Map> static auto held(const Map &map)
{
    long kept = std::exchange(refuse_after, -1);
    std::vector<std::pair<std::uint64_t, std::string>> all;
    for (auto [at, value] : map)
        all.emplace_back(at.id, value);
    refuse_after = kept;
    return all;
}

/* Makes a call on a map, and once more if memory was refused. */
template <class Map, class Call> static auto again(const Map &map, Call call)
{
    auto before = held(map);
    try {
        return call();
    } catch (const std::bad_alloc &) {
        CHECK(held(map) == before && map.size() == before.size());
    }
    return call();
}

static keys use_strings(long turn)
{
    slotmaps::slot_map<std::string> map;
    keys made;
    const char *text = "a text that is too long for the string itself";
    auto add = [&](key at) { made.push_back(at.id); };
    made.reserve(100);
    refuse_after = turn;
    add(again(map, [&] { return map.emplace(text); }));
    for (int i = 0; i < 20; i++)
        add(again(map, [&] { return map.insert(map.at(key{made[0]})); }));
    CHECK(map.erase(key{made[3]}) && map.detach(key{made[4]}));
    add(again(map, [&] { return map.emplace(text, std::size_t{6}); }));
    again(map, [&] { return map.reserve(10), true; });
    for (int i = 0; i < 10; i++)
        add(again(map, [&] { return map.emplace(text); }));
    CHECK(again(map, [&] { return map.reattach(key{made[4]}, text); }));
    CHECK(again(map, [&] { return held(slotmaps::slot_map<std::string>(map)); }) == held(map) && map.size() == 31);
    return made;
}

static keys use_words(long turn)
{
    slotmaps::word_map<const char *> map;
    slotmaps::side_table<int> side;
    keys made;
    made.reserve(100);
    refuse_after = turn;
    for (int i = 0; i < 20; i++) {
        key at = again(map, [&] { return map.insert("a text"); });
        CHECK(again(map, [&] { return side.put(at, i); }) && side.get(at) == i);
        made.push_back(at.id);
    }
    again(map, [&] { return map.reserve(100), side.reserve(100), true; });
    CHECK(again(map, [&] { return slotmaps::side_table<int>(side).get(key{made[7]}); }) == 7);
    CHECK(again(map, [&] { return slotmaps::word_map<const char *>(map).size(); }) == 20);
    return made;
}

/* Each turn has the keys of the one in which nothing is refused. */
static void check_refused(keys (*use)(long))
{
    keys expected = use(-1);
    CHECK(expected[0] == 0x100000001 && expected[19] == 0x100000014);
    unsigned before;
    long turn = 0;
    do {
        before = refusals;
        CHECK(use(turn++) == expected);
        refuse_after = -1;
    } while (refusals != before);
}

int main()
{
    check_refused(use_strings);
    check_refused(use_words);
    std::printf("refused: %u allocations of the classes; %llu checks\n", refusals, checks);
}
