from rainbow import Computer, Refused

c = Computer()  # all memories, the picture and the machine
for place, byte in enumerate(b"BERTA\xFF\x00\x01"):  # FF, then the next row's start
    c.store(0xEE000 + place, byte)
print("row 0 is", c.text(0))

marks = c.store(0xEE004, ord("H"))  # the picture is mended
print(f"row 0 is {c.text(0)}, marks {marks:07X}")

try:
    c.store(0xF0000, ord("H"))
except Refused as refused:
    print(f"refused by {refused.number}: {refused.text}")
