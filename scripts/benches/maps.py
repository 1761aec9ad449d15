def main():
    m = {}
    i = 0
    while True:
        if i >= 1000000:
            break
        k = i % 100
        n = m.get(k, 0)
        m[k] = n + 1
        i += 1
    print(m[7])


main()
