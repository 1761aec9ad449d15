# Look at: a value of a map is read by its key, and written.
Main():void =
    var M:[int]int = map{}
    var I:int = 0
    loop:
        if (I >= 1000000):
            break
        K := if (R := Mod[I, 100]) then R else 0
        N := if (V := M[K]) then V else 0
        if (set M[K] = N + 1) {}
        set I += 1
    Print("{if (V := M[7]) then V else 0}")
