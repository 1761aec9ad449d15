Main()<suspends>:void =
    var I:int = 0
    loop:
        if (I >= 1000000):
            break
        Sleep(0.001)
        set I += 1
    Print("{I}")
