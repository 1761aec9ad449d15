def main():
    i = 0
    s = 0
    while True:
        if i >= 3000000:
            break
        i += 1
        s += i * 3 - 1
    print(s)


main()
