# Look at: a text that grows by a char in each turn.
Main():void =
    var S:string = ""
    var I:int = 0
    loop:
        if (I >= 100000):
            break
        set S += "x"
        set I += 1
    Print("{S.Length}")
