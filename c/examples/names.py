from slotmap_proved import SlotMap

names = SlotMap()
river, hill = names.insert("river"), names.insert("hill")
del names[hill]
lake = names.insert("lake")  # reuses hill's slot, under a new key
for key, name in names.items():
    print(f"{key:#x}: {name}")
print("hill is", "found" if hill in names else "stale")
