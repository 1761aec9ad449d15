# An ordinary round. Look at: a player with an event that tells of hits, a branch that deals
# them, and a race between the clock and the fight; `--heap` shows the store at the end.
using { /Verse.org/Simulation }
using { /UnrealEngine.com/Temporary/Diagnostics }

player := class<unique>:
    Name<public>:string
    var Health<public>:int = 100
    Hits:event(int) = event(int){}

    Hurt(Amount:int)<transacts>:void =
        set Health -= Amount

Fight(P:player)<suspends>:int =
    var Count:int = 0
    loop:
        Amount := P.Hits.Await()
        P.Hurt(Amount)
        set Count += 1
        Print("{P.Name} {P.Health}")
        if (P.Health <= 0):
            break
    Count

Main(Inputs:[]int)<suspends>:void =
    P := player{Name := "Ann"}
    var Scores:[string]int = map{}
    branch:
        for (Hit : Inputs):
            Sleep(10.0)
            P.Hits.Signal(Hit)
    race:
        block:
            Sleep(60.0)
            Print("time")
        block:
            N := Fight(P)
            if (set Scores[P.Name] = N) {}
            Print("down after {N}")
    if (S := Scores["Ann"]):
        Print("score {S}")
    else:
        Print("no score")
