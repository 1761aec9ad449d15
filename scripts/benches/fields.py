class Counter:
    def __init__(self):
        self.count = 0

    def add(self, n):
        self.count += n


def main():
    c = Counter()
    i = 0
    while True:
        if i >= 1000000:
            break
        c.add(i)
        i += 1
    print(c.count)


main()
