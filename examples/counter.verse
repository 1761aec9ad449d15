# A counter. Look at: `var` defines what may change, `set` changes it, and a text
# shows a value in a hole. The loop goes on until `break` leaves it.
Main():void =
    var Lives:int = 3
    loop:
        Print("{Lives} left")
        set Lives -= 1
        if (Lives = 0):
            break
    Print("game over")
