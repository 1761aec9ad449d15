Main():void =
    var A:[]int = array{}
    var S:int = 0
    var I:int = 0
    loop:
        if (I >= 1000):
            break
        set A += array{I}
        set I += 1
    var K:int = 0
    loop:
        if (K >= 1000):
            break
        for (J := 0..999):
            if (X := A[J]):
                set S += X
        set K += 1
    Print("{S}")
