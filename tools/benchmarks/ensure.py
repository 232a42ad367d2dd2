done = 0
for i in range(1, 400001):
    try:
        done = done + i
    finally:
        done = done + 1
print(done)
