def main():
    a = []
    s = 0
    for i in range(1000):
        a.append(i)
    k = 0
    while True:
        if k >= 1000:
            break
        for j in range(1000):
            if 0 <= j < len(a):
                s += a[j]
        k += 1
    print(s)


main()
