# A runtime error ends the run where it stands. Look at: it is no failure, so nothing is undone:
# the line that the open condition printed is there, and so is its change, as --heap shows.
Main():void =
    var Score:int = 9223372036854775807
    if (Print("one more"), set Score -= 1, Score + 2 > 0):
        Print("never")
    else:
        Print("never either")
