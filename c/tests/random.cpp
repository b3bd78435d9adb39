/* random [CALLS [SEED]]: random calls of slot_map and side_map beside a model, for three kinds of values: those that throw when they
 * are copied or moved, those that throw when they are moved and can't be copied, and std::string. In one call of four the n-th copy or
 * move throws, or the n-th request for memory is refused. Then each must hold what slotmap.hpp says. A proved slotmap_t, on which
 * the same calls are made, says which key comes next, and a proved slotmap_side_t which keys stand in the side map. */
#include "check.h"
#include "refusing.h"
#include "slotmap.hpp"

#include <map>
#include <set>
#include <string>
#include <vector>

using slotmaps::key;

/* Which copy or move throws from now on, if it isn't negative, and how many values there are. */
static long moves_left = -1;
static long alive;

struct thrown {
    long number;
};

static void may_throw(long number)
{
    if (moves_left >= 0 && moves_left-- == 0)
        throw thrown{number};
}

/* A number. One that was moved from is -1. `copied` and `moved` count those of the number that is put in. */
struct moving {
    static long watched, attempts;
    long number;

    explicit moving(long it) : number(it) { alive++; }
    moving(moving &&other) : number(other.number)
    {
        begin(other.number);
        other.number = -1;
    }
    moving &operator=(const moving &) = delete;
    ~moving() { alive--; }

protected:
    struct copy {};
    moving(copy, const moving &other) : number(other.number) { begin(other.number); }

private:
    static void begin(long of)
    {
        attempts += of == watched;
        may_throw(of);
        alive++;
    }
};
long moving::watched, moving::attempts;

struct copying : moving {
    explicit copying(long it) : moving(it) {}
    copying(const copying &other) : moving(copy(), other) {}
    copying(copying &&) = default;
};

/* Longer than what stands in the string itself, so that each asks for memory. */
struct text : std::string {
    explicit text(long it) : std::string("a text that is too long for the string: " + std::to_string(it)) { alive++; }
    text(const text &other) : std::string(other) { alive++; }
    text(text &&other) noexcept : std::string(std::move(other)) { alive++; }
    ~text() { alive--; }
};

static long number_of(const moving &value) { return value.number; }
static long number_of(const text &value) { return std::stol(value.substr(value.rfind(' ') + 1)); }

static std::uint64_t state = 7;

static std::size_t below(std::size_t bound)
{
    state = state * 6364136223846793005u + 1442695040888963407u;
    return static_cast<std::size_t>(state >> 33) % bound;
}

enum class outcome { done, refused, threw };

/* What became of the calls, by their outcome. */
static unsigned long counts[3];
static long threw_at;

/* Makes a call, of which a copy, a move or a request for memory may fail. */
template <class Call> static outcome attempt(Call call)
{
    std::size_t chance = below(16);
    moves_left = chance < 3 ? static_cast<long>(below(chance == 0 ? 12 : 3)) : -1;
    refuse_after = chance == 3 ? static_cast<long>(below(3)) : -1;
    moving::attempts = 0;
    outcome result = outcome::done;
    try {
        call();
    } catch (const thrown &it) {
        threw_at = it.number;
        result = outcome::threw;
    } catch (const std::bad_alloc &) {
        result = outcome::refused;
    }
    moves_left = refuse_after = -1;
    counts[static_cast<int>(result)]++;
    return result;
}

template <class T> class driver {
    slotmaps::slot_map<T> map;
    slotmaps::side_map<T> side;
    slotmap_t keys = SLOTMAP_INIT;
    slotmap_side_t side_keys = SLOTMAP_INIT;
    std::map<std::uint64_t, long> live, beside;
    std::set<std::uint64_t> detached;
    std::vector<key> known{key{}};
    long next = 0;
    std::uint32_t slots = 0;

    key some() { return known[known.size() - 1 - below(std::min<std::size_t>(known.size(), 60))]; }

    /* Where a growing array of values that can't be copied threw, values that were moved are lost. */
    template <class Table> void resume(Table &table, std::map<std::uint64_t, long> &model)
    {
        for (auto &[id, number] : model) {
            long now = number_of(table.at(key{id}));
            CHECK(now == number || (now == -1 && !std::is_copy_constructible<T>::value));
            number = now;
        }
    }
    template <class Table> void compare(const Table &table, const std::map<std::uint64_t, long> &model)
    {
        CHECK(table.size() == model.size() && table.empty() == model.empty());
        std::uint32_t last = 0;
        std::size_t count = 0;
        for (auto at = table.begin(); at != table.end(); ++at, count++) {
            CHECK(model.at(at->first.id) == number_of(at->second) && last < at->first.index());
            last = at->first.index();
        }
        CHECK(count == model.size());
    }
    /* The key of the least index comes first. */
    template <class Table> static void check_first(const Table &table, const std::map<std::uint64_t, long> &model)
    {
        std::uint64_t first = UINT64_MAX;
        for (auto [id, number] : model)
            if (key{id}.index() < key{first}.index())
                first = id;
        auto at = table.begin();
        CHECK(at == table.end() ? first == UINT64_MAX : at->first.id == first);
    }
    std::uint64_t made()
    {
        std::uint64_t id = 0;
        CHECK(slotmap_insert(&keys, 0, &id) == SLOTMAP_OK);
        known.push_back(key{id});
        slots = std::max(slots, key{id}.index());
        return id;
    }
    void insert()
    {
        long number = moving::watched = ++next;
        key at;
        /* What the caller makes the value from is made before the call. */
        std::optional<T> from;
        std::size_t how = below(3);
        if (how > 0)
            from.emplace(number);
        outcome result = attempt([&] {
            if constexpr (std::is_copy_constructible<T>::value)
                if (how == 1)
                    return void(at = map.insert(std::as_const(*from)));
            at = how == 0 ? map.emplace(number) : map.insert(std::move(*from));
        });
        if (result == outcome::done) {
            CHECK(at.id == made());
            live[at.id] = number;
            return;
        }
        /* Where a slot is vacant, the map asks for no memory. */
        CHECK(result != outcome::refused || slots == live.size() + detached.size() || (std::is_same<T, text>::value));
        /* A key was used up if the last move threw, the one into the array. */
        if (result == outcome::threw && threw_at == number && moving::attempts == (how == 0 ? 1 : 2))
            CHECK(slotmap_delete(&keys, made()) == SLOTMAP_OK);
        resume(map, live);
    }
    void erase(bool detach)
    {
        key at = some();
        bool was = live.count(at.id) == 1;
        outcome result = attempt([&] {
            auto value = detach ? map.detach(at) : map.erase(at);
            CHECK(value.has_value() == was && (!was || number_of(*value) == live.at(at.id)));
        });
        CHECK(result != outcome::refused && (result == outcome::done || (was && threw_at == live.at(at.id))));
        if (result != outcome::done || !was)
            return;
        std::uint64_t unread = 0;
        CHECK((detach ? slotmap_detach(&keys, at.id, &unread) : slotmap_delete(&keys, at.id)) == SLOTMAP_OK);
        live.erase(at.id);
        if (detach)
            detached.insert(at.id);
    }
    void reattach()
    {
        key at = some();
        long number = ++next;
        bool was = detached.count(at.id) == 1;
        T value(number);
        outcome result = attempt([&] { CHECK(map.reattach(at, std::move(value)) == was); });
        CHECK(result != outcome::refused && (result == outcome::done || threw_at == number));
        if (result != outcome::done || !was)
            return;
        CHECK(slotmap_reattach(&keys, at.id, 0) == SLOTMAP_OK && detached.erase(at.id) == 1);
        live[at.id] = number;
    }
    void find()
    {
        key at = some();
        auto it = live.find(at.id);
        const T *value = map.find(at);
        CHECK((value != nullptr) == (it != live.end()) && (value == nullptr || number_of(*value) == it->second));
        CHECK(map.contains(at) == (value != nullptr) && slotmap_contains(&keys, detail_number(at)) == (value != nullptr));
        CHECK(map.size() <= map.capacity() || map.empty());
    }
    static std::uint64_t detail_number(key at) { return slotmaps::detail::number_of(at); }
    void erase_some()
    {
        auto drop = [&](std::uint64_t id) {
            CHECK(live.erase(id) == 1 && slotmap_delete(&keys, id) == SLOTMAP_OK);
        };
        std::size_t part = 2 + below(5), count = 0, before = map.size();
        if (below(2) == 0) {
            std::vector<std::uint64_t> gone;
            count = erase_if(map, [&](auto pair) {
                bool matches = pair.first.index() % part == 0;
                if (matches)
                    gone.push_back(pair.first.id);
                return matches;
            });
            CHECK(count == gone.size() && before - count == map.size());
            for (std::uint64_t id : gone)
                drop(id);
        } else if (auto at = map.begin(); at != map.end()) {
            for (count = below(5); count > 0 && at != map.end(); count--) {
                drop(at->first.id);
                at = map.erase(at);
            }
        }
    }
    void clear()
    {
        std::vector<std::uint64_t> gone;
        for (auto [id, number] : live)
            gone.push_back(id);
        /* By ascending index. */
        std::sort(gone.begin(), gone.end(), [](auto a, auto b) { return std::uint32_t(a) < std::uint32_t(b); });
        map.clear();
        for (std::uint64_t id : gone)
            CHECK(slotmap_delete(&keys, id) == SLOTMAP_OK);
        live.clear();
    }
    void copy()
    {
        if constexpr (std::is_copy_constructible<T>::value) {
            std::optional<slotmaps::slot_map<T>> other;
            std::optional<slotmaps::side_map<T>> other_side;
            attempt([&] { other.emplace(map), other_side.emplace(side); });
            if (other && other_side) {
                compare(*other, live);
                compare(*other_side, beside);
                using std::swap;
                swap(map, *other);
                side = std::move(*other_side);
            }
        }
    }
    void reserve()
    {
        std::size_t more = below(40);
        if (attempt([&] { map.reserve(more); }) == outcome::done)
            CHECK(map.capacity() >= map.size() + more);
        resume(map, live);
    }
    void put()
    {
        /* Sometimes a number from outside: of any version, also by 2147483648 from another, and of the indices that are in use. */
        key at = below(8) == 0 ? key{((std::uint64_t{below(3)} << 62) + (std::uint64_t{below(6)} << 32)) | below(70)} : some();
        known.push_back(at);
        long number = moving::watched = ++next;
        std::optional<std::pair<key, T>> stood;
        bool taken = false, wants = below(2) == 0;
        outcome result = attempt([&] { taken = side.put(at, T(number), wants ? &stood : nullptr); });
        std::uint64_t older = 0, unread = 0;
        if (result != outcome::done) {
            if (result == outcome::threw && threw_at == number)
                lose(at);
            resume(side, beside);
            return;
        }
        bool expected = slotmap_side_exchange(&side_keys, detail_number(at), 0, &older, &unread) == SLOTMAP_OK;
        CHECK(taken == expected && (!wants || stood.has_value() == (expected && older != 0)));
        if (stood)
            CHECK(stood->first.id == older && number_of(stood->second) == beside.at(older));
        beside.erase(older);
        if (taken)
            beside[at.id] = number;
    }
    /* The move into the place of a key threw: what stood there is lost. */
    void lose(key at)
    {
        for (auto it = beside.begin(); it != beside.end(); ++it)
            if (key{it->first}.index() == at.index()) {
                CHECK(slotmap_side_remove(&side_keys, it->first, nullptr) == SLOTMAP_OK);
                beside.erase(it);
                return;
            }
    }
    void erase_beside()
    {
        key at = some();
        bool was = beside.count(at.id) == 1;
        CHECK(side.contains(at) == was && (!was || number_of(side.at(at)) == beside.at(at.id)));
        outcome result = attempt([&] {
            auto value = side.erase(at);
            CHECK(value.has_value() == was && (!was || number_of(*value) == beside.at(at.id)));
        });
        CHECK(result != outcome::refused && (result == outcome::done || was));
        if (was && result == outcome::done)
            CHECK(slotmap_side_remove(&side_keys, at.id, nullptr) == SLOTMAP_OK && beside.erase(at.id) == 1);
    }

public:
    driver() { CHECK(slotmap_new(&keys) == SLOTMAP_OK && slotmap_side_new(&side_keys) == SLOTMAP_OK); }
    ~driver()
    {
        slotmap_free(&keys);
        slotmap_side_free(&side_keys);
    }
    void turn()
    {
        std::size_t what = below(100);
        if (what < 30 && live.size() < 60)
            insert();
        else if (what < 45)
            erase(false);
        else if (what < 50)
            erase(true);
        else if (what < 55)
            reattach();
        else if (what < 70)
            find();
        else if (what < 85)
            put();
        else if (what < 95)
            erase_beside();
        else if (what < 97)
            erase_some();
        else if (what < 98)
            reserve();
        else if (what < 99)
            copy();
        else if (below(10) == 0)
            clear();
        else
            compare(map, live), compare(side, beside);
        CHECK(map.size() == live.size() && side.size() == beside.size());
        if (what % 2 == 0)
            check_first(map, live), check_first(side, beside);
        CHECK(alive == static_cast<long>(live.size() + beside.size()));
    }
};

template <class T> static void run(const char *kind, unsigned long calls)
{
    std::fill(counts, counts + 3, 0);
    /* A new pair of maps now and then, so that the arrays grow. */
    for (unsigned long done = 0; done < calls;) {
        driver<T> one;
        for (std::size_t turns = 200 + below(4000); turns > 0 && done < calls; turns--, done++)
            one.turn();
    }
    CHECK(alive == 0);
    std::printf("%s: %lu calls, of which %lu threw and %lu were refused memory\n", kind, calls, counts[2], counts[1]);
}

int main(int count, char **words)
{
    unsigned long calls = count > 1 ? std::stoul(words[1]) : 60000;
    state = count > 2 ? std::stoul(words[2]) : 7;
    run<copying>("random calls, values that are copied", calls);
    run<moving>("random calls, values that are moved", calls);
    run<text>("random calls, strings", calls);
    std::printf("random: %llu checks\n", checks);
}
