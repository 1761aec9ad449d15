# A long row. Look at: arrays that are read by index, however long; a grid; a text that grows.
Main():void =
    Heights:[]int = for (I := 0..2999, H := Mod[I * 37, 101]) { H }
    Grid:[][]int = for (Y := 0..29) { for (X := 0..99, H := Heights[Y * 100 + X]) { H } }
    var Climb:int = 0
    var Slopes:string = ""
    for (I := 1..Heights.Length - 1, Before := Heights[I - 1], Here := Heights[I]):
        Slope := if (Here > Before) { "/" } else { "-" }
        set Slopes += Slope
        if (Here > Before) { set Climb += Here - Before } else { 0 }
    var Tops:int = 0
    for (Y := 0..Grid.Length - 1, Row := Grid[Y], X := 0..Row.Length - 1, Grid[Y][X] = 100):
        set Tops += 1
    Print("{Heights.Length} cells, {Climb} up, {Tops} at the top")
    if (First := Slopes[0], Last := Slopes[Slopes.Length - 1]):
        Print("{Slopes.Length} slopes, from {First} to {Last}")
