Main():void =
    Print("first")
    Print("second")
