#!/usr/bin/env python3
"""What tree_bench prints of its stored run."""
rows, count = 3000, 2000
place, numbers = 0, []
for _ in range(count):
    place = (place * 1664525 + 1013904223) % 2**20
    numbers.append(place % rows)
print(f"puts: {rows}")
print(f"paths {count}: {4 * count}")
print(f"gets 3: {3 * sum(numbers)}")
print(f"counts 2: {2 * rows}")
print(f"pages 2: {2 * 10 * rows}")
text = b"/l/stor"
while len(text) + 2 <= 65536:
    text += b"/a"
print(f"blank 65536: {len(text)}")
print("text: 2")
