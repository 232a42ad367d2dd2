words = ["one", "two", "three", "four", "five", "six", "seven", "eight"]
counts = {}
for i in range(1, 400001):
    word = words[i % 8]
    counts[word] = counts.get(word, 0) + i
total = 0
for word, count in counts.items():
    total = total + len(word) * count
print(total)
