# A race. Look at: the first arm that is done wins, and the others are cancelled at that moment,
# so their last lines never come.
Run(Name:string, Laps:int)<suspends>:string =
    for (Lap := 1..Laps):
        Sleep(1.5)
        Print("{Name} lap {Lap}")
    Name

Main()<suspends>:void =
    Winner := race:
        Run("hare", 3)
        Run("tortoise", 2)
    Print("{Winner} wins")
    Sleep(10.0)
    Print("quiet")
