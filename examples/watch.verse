# Work in the background. Look at: `branch` lets its body go on beside what follows, until the
# task scope round it ends: the watch of the first room is cancelled when `Room` returns.
Room(Name:string, Length:int)<suspends>:void =
    branch:
        loop:
            Sleep(1.0)
            Print("  watching {Name}")
    for (I := 1..Length) { Sleep(1.2) }
    Print("left {Name}")

Main()<suspends>:void =
    Room("hall", 2)
    Room("cellar", 1)
