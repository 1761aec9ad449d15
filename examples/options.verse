# Options and failure as a way to choose. Look at: `option{}` keeps a value or nothing, `?` takes
# the value out or fails, `or` tries the next one, `logic{}` makes a truth value of a condition.
Find(Names:[]string, Wanted:string)<transacts><decides>:int =
    var Found:?int = false
    for (I -> Name : Names, Name = Wanted, not Found?):
        set Found = option{I}
    Found?

Main():void =
    Names := array{"Ann", "Bob", "Cem"}
    At := option{Find[Names, "Bob"]}
    if (I := At?) { Print("Bob is at {I}") }
    if (I := Find[Names, "Dan"] or Find[Names, "Cem"]) { Print("Dan or Cem is at {I}") }
    Has := logic{Find[Names, "Eve"]}
    if (Has?) { Print("Eve is here") } else { Print("no Eve") }
