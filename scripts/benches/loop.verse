Main():void =
    var I:int = 0
    var S:int = 0
    loop:
        if (I >= 3000000):
            break
        set I += 1
        set S += I * 3 - 1
    Print("{S}")
