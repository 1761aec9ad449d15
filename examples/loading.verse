# `sync` waits for all of its arms, and gives a tuple of what they give. Look at: the moment of
# the last line is that of the slowest arm, not the sum.
Load(What:string)<suspends>:int =
    Print("loading {What}")
    Sleep(0.25)
    if (What = "sounds") { Sleep(1.0) }
    What.Length

Main()<suspends>:void =
    Sizes := sync:
        Load("maps")
        Load("sounds")
        Load("skins")
    Print("done: {Sizes(0) + Sizes(1) + Sizes(2)}")
