"""A context keeps what it writes over, and an exception takes it back."""


class Fails(Exception):
    pass


def main():
    v = [0] * 9
    log = []

    def put(at, n):
        log.append((at, v[at]))
        v[at] = n

    def condition():
        put(8, v[8] + 10)
        if not v[8] < 0:
            raise Fails

    def context():
        start = len(log)
        try:
            condition()
            return True
        except Fails:
            while len(log) > start:
                at, n = log.pop()
                v[at] = n
            return False

    i = 0
    while True:
        if i >= 1000000:
            break
        i += 1
        if context():
            v[0] += 1
        else:
            v[1] += 1
    print(sum(v))


main()
