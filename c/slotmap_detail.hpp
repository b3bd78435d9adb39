/* SPDX-License-Identifier: MIT
 * Copyright (c) 2026 the Sevlurga maintainers
 *
 * slotmap_detail.hpp: what the classes of slotmap.hpp stand on. Include slotmap.hpp; nothing in detail is for users.
 */
#ifndef SLOTMAP_DETAIL_HPP
#define SLOTMAP_DETAIL_HPP

#include "slotmap.h"

#include <algorithm>
#include <atomic>
#include <cstddef>
#include <cstdint>
#include <cstdlib>
#include <exception>
#include <functional>
#include <iterator>
#include <memory>
#include <new>
#include <optional>
#include <stdexcept>
#include <type_traits>
#include <utility>
#if __cplusplus >= 202002L
#include <compare>
#endif

namespace slotmaps {

/* A key, as the number of slotmap.h. A default one is no key of any map. */
template <class Tag = void> struct typed_key {
    std::uint64_t id = 0;

    explicit operator bool() const noexcept { return id != 0; }
    std::uint32_t index() const noexcept { return static_cast<std::uint32_t>(id); }
    std::uint32_t version() const noexcept { return static_cast<std::uint32_t>(id >> 32); }
    friend constexpr bool operator==(typed_key a, typed_key b) noexcept { return a.id == b.id; }
#if defined(__cpp_lib_three_way_comparison)
    friend constexpr std::strong_ordering operator<=>(typed_key a, typed_key b) noexcept { return a.id <=> b.id; }
#else
    friend constexpr bool operator!=(typed_key a, typed_key b) noexcept { return a.id != b.id; }
    friend constexpr bool operator<(typed_key a, typed_key b) noexcept { return a.id < b.id; }
    friend constexpr bool operator>(typed_key a, typed_key b) noexcept { return a.id > b.id; }
    friend constexpr bool operator<=(typed_key a, typed_key b) noexcept { return a.id <= b.id; }
    friend constexpr bool operator>=(typed_key a, typed_key b) noexcept { return a.id >= b.id; }
#endif
};
using key = typed_key<>;

namespace detail {

/* Throws E. Where exceptions are off it ends the program, as the containers of std do. */
template <class E, class... Words> [[noreturn]] void fail([[maybe_unused]] Words... words)
{
#if defined(__cpp_exceptions)
    throw E(words...);
#else
    std::abort();
#endif
}

inline void check(slotmap_status status)
{
    if (status == SLOTMAP_OK)
        return;
    if (status == SLOTMAP_NO_MEMORY)
        fail<std::bad_alloc>();
    if (status == SLOTMAP_FULL)
        fail<std::length_error>(slotmap_status_text(status));
    fail<std::logic_error>(slotmap_status_text(status));
}

/* Takes a step back at the end of its scope, unless all was done by then. */
template <class Undo> struct undo_unless_done {
    Undo undo;
    bool done = false;
    ~undo_unless_done()
    {
        if (!done)
            undo();
    }
};

/* Does what is left once a value was moved to where the caller has it, and nothing if that move threw. */
template <class T, class Rest> class after_move {
    Rest rest;
    int exceptions = 0;

public:
    explicit after_move(Rest it) : rest(it)
    {
        if constexpr (!std::is_nothrow_move_constructible<T>::value)
            exceptions = std::uncaught_exceptions();
    }
    after_move(const after_move &) = delete;
    after_move &operator=(const after_move &) = delete;
    ~after_move()
    {
        if constexpr (!std::is_nothrow_move_constructible<T>::value)
            if (std::uncaught_exceptions() != exceptions)
                return;
        rest();
    }
};

/* A handle that is opened when it is first needed. */
template <class Raw, slotmap_status (*New)(Raw *), void (*Free)(Raw *), slotmap_status (*Clone)(const Raw *, Raw *)> class handle {
    Raw raw{nullptr};

public:
    handle() noexcept = default;
    ~handle() { Free(&raw); }
    handle(handle &&other) noexcept : raw(std::exchange(other.raw, Raw{nullptr})) {}
    handle(const handle &other)
    {
        if (other.raw.at != nullptr)
            check(Clone(&other.raw, &raw));
    }
    handle &operator=(handle other) noexcept
    {
        std::swap(raw, other.raw);
        return *this;
    }
    Raw *get() noexcept { return &raw; }
    const Raw *get() const noexcept { return &raw; }
    Raw *opened()
    {
        if (raw.at == nullptr)
            check(New(&raw));
        return &raw;
    }
};

/* The number of a key, or the null key in place of a number that no map returns. slotmap.h reads some of these as keys. */
template <class Tag> std::uint64_t number_of(typed_key<Tag> at) noexcept
{
    return at.index() != 0 && at.index() != UINT32_MAX && at.version() % 2 == 1 ? at.id : SLOTMAP_NULL;
}

/* Where a walk may begin: so many places have no value. A walk notes where it met the first value, and the next one begins there. So
 * erasing the first value again and again takes as long as one walk. Many threads may do this at once, since the number is atomic
 * and each of them notes the same. */
class lead {
    std::atomic<std::size_t> passed{0};

public:
    lead() noexcept = default;
    lead(const lead &other) noexcept : passed(other.get()) {}
    lead &operator=(const lead &other) noexcept
    {
        set(other.get());
        return *this;
    }
    std::size_t get() const noexcept { return passed.load(std::memory_order_relaxed); }
    /* A walk that finds the number right writes nothing. */
    void set(std::size_t to) noexcept
    {
        if (get() != to)
            passed.store(to, std::memory_order_relaxed);
    }
    /* The place of an index, which begins at 1, has a value now. */
    void reach(std::uint32_t index) noexcept
    {
        if (index <= get())
            passed.store(std::size_t{index} - 1, std::memory_order_relaxed);
    }
};

/* A place for a value, with the number of its key. A vacant place has a number of the index 4294967295, so no key is found there. */
template <class T> struct place {
    static_assert(std::is_object<T>::value && std::is_move_constructible<T>::value, "a value is an object that can be moved");
    static constexpr std::uint64_t vacant = UINT64_MAX;

    std::uint64_t id;
    alignas(T) unsigned char bytes[sizeof(T)];

    bool has_value() const noexcept { return id != vacant; }
    T &value() noexcept
    {
        T *here = std::launder(reinterpret_cast<T *>(bytes));
        /* Compilers lose this behind std::launder: then who tests what `find` returned pays for two tests. */
        if (here == nullptr)
            __builtin_unreachable();
        return *here;
    }
    const T &value() const noexcept { return const_cast<place *>(this)->value(); }
};

/* An array of places: the value of a key stands at the key's index, less one. */
template <class T> class places {
    place<T> *first = nullptr;
    std::size_t used = 0, room = 0, live = 0;
    mutable lead lowest;

    place<T> &add() noexcept
    {
        place<T> *made = ::new (static_cast<void *>(first + used++)) place<T>;
        made->id = place<T>::vacant;
        return *made;
    }
    void grow(std::size_t needed)
    {
        places wider;
        wider.first = std::allocator<place<T>>().allocate(needed);
        wider.room = needed;
        wider.lowest = lowest;
        if constexpr (std::is_trivially_copyable<T>::value) {
            std::copy_n(first, used, wider.first);
            wider.live = std::exchange(live, 0);
            wider.used = std::exchange(used, 0);
        } else
            for (place<T> &each : *this) {
                place<T> &made = wider.add();
                if (each.has_value())
                    wider.fill(made, each.id, std::move_if_noexcept(each.value()));
            }
        swap(wider);
    }

public:
    places() noexcept = default;
    places(places &&other) noexcept { swap(other); }
    places(const places &other) : places()
    {
        make_room(other.used);
        lowest = other.lowest;
        for (const place<T> &each : other) {
            place<T> &made = add();
            if (each.has_value())
                fill(made, each.id, each.value());
        }
    }
    places &operator=(const places &) = delete;
    ~places()
    {
        drop_all();
        if (first != nullptr)
            std::allocator<place<T>>().deallocate(first, room);
    }
    void swap(places &other) noexcept
    {
        std::swap(first, other.first);
        std::swap(used, other.used);
        std::swap(room, other.room);
        std::swap(live, other.live);
        std::swap(lowest, other.lowest);
    }
    std::size_t size() const noexcept { return used; }
    std::size_t capacity() const noexcept { return room; }
    std::size_t count() const noexcept { return live; }
    place<T> *begin() noexcept { return first; }
    place<T> *end() noexcept { return first + used; }
    const place<T> *begin() const noexcept { return first; }
    const place<T> *end() const noexcept { return first + used; }
    /* The first place with a value, or the end. */
    place<T> *first_value() const noexcept
    {
        if (live == 0)
            return first + used;
        std::size_t found = lowest.get();
        while (!first[found].has_value())
            found++;
        lowest.set(found);
        return first + found;
    }

    void make_room(std::size_t needed)
    {
        if (needed > room)
            grow(std::max({needed, 2 * room, std::size_t{4}}));
    }
    /* The place of an index, for which there is room. */
    place<T> &reach(std::uint32_t index) noexcept
    {
        while (used < index)
            add();
        return first[std::size_t{index} - 1];
    }
    /* The place of a key that is here, or null. */
    place<T> *find(std::uint64_t id) noexcept
    {
        std::size_t below = std::size_t{static_cast<std::uint32_t>(id)} - 1;
        return below < used && first[below].id == id ? first + below : nullptr;
    }
    /* Makes a value in a vacant place. */
    template <class From> void fill(place<T> &here, std::uint64_t id, From &&from)
    {
        ::new (static_cast<void *>(here.bytes)) T(std::forward<From>(from));
        here.id = id;
        live++;
        lowest.reach(static_cast<std::uint32_t>(id));
    }
    /* Ends a value. Its place is vacant before, since its destructor may look for it. */
    void drop(place<T> &here) noexcept
    {
        here.id = place<T>::vacant;
        live--;
        here.value().~T();
    }
    /* Ends all values, and forgets the places. The memory stays. */
    void drop_all() noexcept
    {
        if constexpr (!std::is_trivially_destructible<T>::value)
            for (place<T> &each : *this)
                if (each.has_value())
                    drop(each);
        used = live = 0;
        lowest.set(0);
    }
};

/* By ascending index. What may move the values, an insert or a put, ends an iteration, as with a vector; so does a clear. */
template <class Place, class Value, class Key> class iterator_of {
    Place *at = nullptr, *last = nullptr;

    template <class, class, class> friend class iterator_of;
    template <class, class> friend class table;
    void skip()
    {
        while (at != last && !at->has_value())
            ++at;
    }

public:
    using iterator_category = std::input_iterator_tag;
    using iterator_concept = std::forward_iterator_tag;
    using value_type = std::pair<Key, Value &>;
    using difference_type = std::ptrdiff_t;
    using reference = value_type;
    /* What `->` leads to. */
    struct pointer {
        value_type pair;
        value_type *operator->() noexcept { return &pair; }
    };

    iterator_of() noexcept = default;
    iterator_of(Place *first, Place *end) noexcept : at(first), last(end) { skip(); }
    /* An iterator is a const_iterator too. */
    template <class P, class V, class = std::enable_if_t<std::is_convertible<P *, Place *>::value>>
    iterator_of(const iterator_of<P, V, Key> &other) noexcept : at(other.at), last(other.last)
    {
    }
    iterator_of &operator++() noexcept
    {
        ++at;
        skip();
        return *this;
    }
    iterator_of operator++(int) noexcept
    {
        iterator_of before = *this;
        ++*this;
        return before;
    }
    value_type operator*() const noexcept { return {Key{at->id}, at->value()}; }
    pointer operator->() const noexcept { return {**this}; }
    friend bool operator==(const iterator_of &a, const iterator_of &b) noexcept { return a.at == b.at; }
    friend bool operator!=(const iterator_of &a, const iterator_of &b) noexcept { return a.at != b.at; }
};

/* What a slot_map and a side_map share: values in places, and the calls that read them. */
template <class T, class Tag> class table {
protected:
    places<T> values;

    table() noexcept = default;
    table(table &&) noexcept = default;
    table(const table &) = default;
    ~table() = default;
    template <class Iterator> static place<T> &place_at(Iterator where) noexcept { return const_cast<place<T> &>(*where.at); }
    /* The next value after a place that was erased. The destructor may have cleared the map: then it ends before this place. */
    iterator_of<place<T>, T, typed_key<Tag>> next_after(place<T> &erased) noexcept
    {
        return {values.count() == 0 ? values.end() : std::min(&erased, values.end()), values.end()};
    }
    /* Moves the value of a place to the caller, in one move. Its place is vacant then, and `end` does the rest. */
    template <class End> std::optional<T> move_out(place<T> &from, End end)
    {
        auto rest = [&] {
            values.drop(from);
            end();
        };
        after_move<T, decltype(rest)> after(rest);
        return std::optional<T>(std::move(from.value()));
    }

public:
    using key_type = typed_key<Tag>;
    using mapped_type = T;
    using size_type = std::size_t;
    using iterator = iterator_of<place<T>, T, key_type>;
    using const_iterator = iterator_of<const place<T>, const T, key_type>;

    [[nodiscard]] std::size_t size() const noexcept { return values.count(); }
    [[nodiscard]] bool empty() const noexcept { return size() == 0; }
    /* The value of a key, or null. */
    [[nodiscard]] T *find(key_type at) noexcept
    {
        place<T> *found = values.find(at.id);
        return found != nullptr ? std::addressof(found->value()) : nullptr;
    }
    [[nodiscard]] const T *find(key_type at) const noexcept { return const_cast<table *>(this)->find(at); }
    [[nodiscard]] bool contains(key_type at) const noexcept { return find(at) != nullptr; }
    [[nodiscard]] T &at(key_type where)
    {
        if (T *value = find(where))
            return *value;
        fail<std::out_of_range>(slotmap_status_text(SLOTMAP_NOT_LIVE));
    }
    [[nodiscard]] const T &at(key_type where) const { return const_cast<table *>(this)->at(where); }

    [[nodiscard]] iterator begin() noexcept { return iterator(values.first_value(), values.end()); }
    [[nodiscard]] iterator end() noexcept { return iterator(values.end(), values.end()); }
    [[nodiscard]] const_iterator begin() const noexcept { return const_cast<table *>(this)->begin(); }
    [[nodiscard]] const_iterator end() const noexcept { return const_cast<table *>(this)->end(); }
    [[nodiscard]] const_iterator cbegin() const noexcept { return begin(); }
    [[nodiscard]] const_iterator cend() const noexcept { return end(); }
};

/* Whether two maps have the same keys with equal values. What keys they make next may differ. */
template <class Map> bool equal(const Map &a, const Map &b)
{
    return a.size() == b.size() && std::equal(a.begin(), a.end(), b.begin(), b.end());
}

/* Erases what `matches`, and returns how many keys fewer there are. */
template <class Map, class Matches> std::size_t erase_if(Map &map, Matches matches)
{
    std::size_t before = map.size();
    for (auto at = map.begin(); at != map.end();) {
        auto pair = *at;
        if (matches(pair))
            at = map.erase(at);
        else
            ++at;
    }
    return before - map.size();
}

} // namespace detail

} // namespace slotmaps

template <class Tag> struct std::hash<slotmaps::typed_key<Tag>> {
    std::size_t operator()(slotmaps::typed_key<Tag> at) const noexcept { return std::hash<std::uint64_t>()(at.id); }
};

#endif
