def main():
    s = ""
    i = 0
    while True:
        if i >= 100000:
            break
        s += "x"
        i += 1
    print(len(s))


main()
