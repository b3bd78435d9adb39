#include "slotmap.hpp"
#include <cstdio>
#include <string>

int main()
{
    slotmaps::slot_map<std::string> names;
    names.emplace("river");
    auto hill = names.insert("hill");
    names.erase(hill);
    names.emplace("lake"); /* reuses hill's slot, under a new key */
    for (auto [key, name] : names)
        std::printf("%#llx: %s\n", static_cast<unsigned long long>(key.id), name.c_str());
    std::printf("hill is %s\n", names.contains(hill) ? "found" : "stale");
}
