# `defer` runs when its block is left, also when its task is cancelled. Look at: the race ends
# the holder's wait, its deferred blocks run in that turn, the last one first, and then the race
# gives its value.
Hold(Name:string)<suspends>:void =
    Print("{Name} takes the flag")
    defer:
        Print("{Name} drops the flag")
    defer:
        Print("{Name} waves")
    Sleep(60.0)

Main()<suspends>:void =
    race:
        Hold("Ann")
        block:
            Sleep(2.0)
            Print("whistle")
    Print("over")
