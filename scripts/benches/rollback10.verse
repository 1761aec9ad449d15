# Look at: ten variables, and a condition that writes one of them and fails, so that the write is undone.
Main():void =
    var A:int = 0
    var B:int = 0
    var C:int = 0
    var D:int = 0
    var E:int = 0
    var F:int = 0
    var G:int = 0
    var H:int = 0
    var S:int = 0
    var I:int = 0
    loop:
        if (I >= 1000000):
            break
        set I += 1
        if (set S += 10, S < 0):
            set A += 1
        else:
            set B += 1
    Print("{A + B + C + D + E + F + G + H + S}")
