# A failed condition is undone. Look at: the first `if` takes 5 coins and prints, and then its
# last part fails. So the coins are back, the line was never printed, and the else part runs.
Main():void =
    var Coins:int = 7
    if (set Coins -= 5, Print("paid once"), Coins > 3):
        Print("rich")
    else:
        Print("not enough, still {Coins}")
    if (set Coins -= 5, Coins > 1):
        Print("paid, {Coins} left")
