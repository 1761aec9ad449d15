"""A clock that goes on to the next wait, tasks, and one event."""
import heapq


def main():
    now, number, waits, awaits, total = 0, 0, [], [], 0

    def go(task, value=None):
        nonlocal number, awaits
        what = task.send(value) if task.gi_frame is not None else None
        if what == "await":
            awaits.append(task)
        elif what is not None:
            number += 1
            heapq.heappush(waits, (now + what, number, task))

    def signal(value):
        nonlocal awaits
        those, awaits = awaits, []
        for task in those:
            go(task, value)

    def hear():
        nonlocal total
        while True:
            total += yield "await"

    def ring():
        i = 0
        while True:
            if i >= 200000:
                break
            signal(i)
            yield 1
            i += 1
        yield None

    go(hear())
    go(ring())
    while waits:
        now, _, one = heapq.heappop(waits)
        go(one)
    print(total)


main()
