# An enum and `case`. Look at: every value of the enum has an arm, so no `_` is needed.
light := enum{red, green, amber}

Next(L:light)<computes>:light =
    case (L):
        light.red => light.green
        light.green => light.amber
        light.amber => light.red

Word(L:light)<computes>:string =
    case (L) { light.red => "stop", light.green => "go", light.amber => "wait" }

Main()<suspends>:void =
    var L:light = light.red
    for (I := 1..4):
        Print(Word(L))
        set L = Next(L)
        Sleep(0.5)
