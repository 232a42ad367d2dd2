total = 0
for i in range(1, 1001):
    for j in range(1, 301):
        total = total + i * j
n = 0
while n < 300000:
    n = n + 1
    total = total - n
for _ in range(1000):
    for _ in range(200):
        total = total + 1
print(total)
