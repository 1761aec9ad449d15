def add(a, b):
    return a + b


def main():
    i = 0
    s = 0
    while True:
        if i >= 3000000:
            break
        i += 1
        s = add(s, i)
    print(s)


main()
