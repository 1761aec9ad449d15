Add(A:int, B:int):int = A + B

Main():void =
    var I:int = 0
    var S:int = 0
    loop:
        if (I >= 3000000):
            break
        set I += 1
        set S = Add(S, I)
    Print("{S}")
