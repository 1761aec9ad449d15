# Look at: a field of an object, and a method that changes it.
counter := class<unique>:
    var Count:int = 0

    Add(N:int)<transacts>:void =
        set Count += N

Main():void =
    C := counter{}
    var I:int = 0
    loop:
        if (I >= 1000000):
            break
        C.Add(I)
        set I += 1
    Print("{C.Count}")
