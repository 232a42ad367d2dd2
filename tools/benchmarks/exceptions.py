def tried(i):
    try:
        if i % 2 == 0:
            raise ValueError("even")
        return 1
    except ValueError:
        return 2


caught = 0
for i in range(1, 200001):
    caught = caught + tried(i)
print(caught)
