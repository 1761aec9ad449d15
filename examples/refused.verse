Main():void =
    if (true?) then 1 else else 2
