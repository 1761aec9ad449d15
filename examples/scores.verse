# Input. Look at: `Main` may take the numbers of `--in`; a text key; a second pass over the map.
Main(Throws:[]int):void =
    Names := array{"Ann", "Bob"}
    var Scores:[string]int = map{}
    for (I -> Throw : Throws, Name := Names[Mod[I, 2]]):
        if (set Scores[Name] += Throw) {} else if (set Scores[Name] = Throw) {}
    var Best:int = 0
    for (Name -> Score : Scores):
        Print("{Name}: {Score}")
        if (Score > Best) { set Best = Score }
    Print("best: {Best}")
