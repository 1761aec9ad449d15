Main():void =
    Print("hi")
