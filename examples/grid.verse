# `for` with several generators and conditions. Look at: `Hits` gathers one value for each pair
# that passes; a path of indices writes into a grid; a failed clause undoes what it changed.
Main():void =
    var Grid:[][]int = for (Y := 1..2) { for (X := 1..3) { 0 } }
    var Seen:int = 0
    Hits := for (Y := 0..1, X := 0..2, set Seen += 1, Mod[X + Y, 2] = 0):
        10 * Y + X
    for (H : Hits, Y := Floor(H/10), X := Mod[H, 10]):
        if (set Grid[Y][X] = 1) {}
    for (Row : Grid, A := Row[0], B := Row[1], C := Row[2]):
        Print("{A}{B}{C}")
    Print("{Hits.Length} hits, {Seen} counted")
