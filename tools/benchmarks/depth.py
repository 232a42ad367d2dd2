class Chain:
    def down(self, n):
        return 0 if n == 0 else self.down(n - 1) + 1


total = 0
for _ in range(4000):
    total = total + Chain().down(400)
print(total)
