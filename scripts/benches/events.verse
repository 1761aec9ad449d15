# Look at: a task awaits an event, another one signals it and sleeps.
bell := class<unique>:
    Rung:event(int) = event(int){}
    var Sum:int = 0

Hear(B:bell)<suspends>:void =
    loop:
        N := B.Rung.Await()
        set B.Sum += N

Main()<suspends>:void =
    B := bell{}
    spawn{Hear(B)}
    var I:int = 0
    loop:
        if (I >= 200000):
            break
        B.Rung.Signal(I)
        Sleep(0.001)
        set I += 1
    Print("{B.Sum}")
