everything = []
for i in range(1, 400001):
    everything.append(i * 7)
some = [each for each in everything if each % 2 == 0]
some = [each // 2 for each in some]
total = 0
for each in some:
    total = total + each
for each in everything:
    total = total - each % 10
while everything:
    total = total + everything.pop()
print(total)
