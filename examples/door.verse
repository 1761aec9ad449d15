# Events. Look at: a signal reaches exactly the tasks that wait at that moment. The first knock
# is lost, since nobody waits yet. The signalling task goes on first, then those that waited.
door := class<unique>:
    Knock:event(int) = event(int){}

Guard(D:door, Name:string)<suspends>:void =
    N := D.Knock.Await()
    Print("{Name} heard knock {N}")

Main()<suspends>:void =
    D := door{}
    D.Knock.Signal(1)
    spawn{Guard(D, "left guard")}
    spawn{Guard(D, "right guard")}
    Sleep(2.0)
    D.Knock.Signal(2)
    Print("knocked")
    Sleep(1.0)
    D.Knock.Signal(3)
