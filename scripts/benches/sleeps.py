"""A clock that goes on to the next wait, and one task."""
import heapq


def main():
    count = [0]

    def task():
        while True:
            if count[0] >= 1000000:
                break
            yield 1
            count[0] += 1

    waits = [(0, 0, task())]
    number = 0
    while waits:
        now, _, one = heapq.heappop(waits)
        pause = next(one, None)
        if pause is not None:
            number += 1
            heapq.heappush(waits, (now + pause, number, one))
    print(count[0])


main()
